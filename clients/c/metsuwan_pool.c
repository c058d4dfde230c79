/* A pool: connections of one list of servers, that threads share. */
#define _POSIX_C_SOURCE 200809L
#include "metsuwan_internal.h"

#include <stdio.h>
#include <stdlib.h>
#include <time.h>

struct kmip_pool {
    pthread_mutex_t lock;
    pthread_cond_t freed; /* a place is */
    kmip_client *like;    /* what connections are made like; it has none itself */
    kmip_client **idle;   /* those that are free, the one that was used last at the end */
    size_t size, idle_count, taken;
    bool is_over; /* kmip_pool_free was called, and the last one that is given back ends it */
    kmip_pool *next;
};

/* All pools of the process, whose locks the thread has that forks: so they are good in the child. */
static pthread_mutex_t all_lock = PTHREAD_MUTEX_INITIALIZER;
static kmip_pool *all;
static pthread_once_t once = PTHREAD_ONCE_INIT;
static bool handles_forks;

static void lock(pthread_mutex_t *mutex) {
    (void)pthread_mutex_lock(mutex); /* it is made, and not this thread's */
}

static void unlock(pthread_mutex_t *mutex) {
    (void)pthread_mutex_unlock(mutex);
}

static bool make_condition(pthread_cond_t *into) {
    pthread_condattr_t clock;
    if (pthread_condattr_init(&clock) != 0) return false;
    bool made = pthread_condattr_setclock(&clock, CLOCK_MONOTONIC) == 0 &&
                pthread_cond_init(into, &clock) == 0;
    (void)pthread_condattr_destroy(&clock);
    return made;
}

static void before_fork(void) {
    lock(&all_lock);
    for (kmip_pool *pool = all; pool; pool = pool->next) {
        lock(&pool->lock);
        lock(&pool->like->servers->lock);
    }
}

static void after_fork(void) {
    for (kmip_pool *pool = all; pool; pool = pool->next) {
        unlock(&pool->like->servers->lock);
        unlock(&pool->lock);
    }
    unlock(&all_lock);
}

/* The connections are the parent's: the child closes its copies of their sockets, which says nothing to
   the server, and begins with none. */
static void in_child(void) {
    for (kmip_pool *pool = all; pool; pool = pool->next) {
        while (pool->idle_count > 0)
            kmip_abandon(pool->idle[--pool->idle_count]);
        pool->taken = 0;
        /* (nobody waits here) */
        (void)make_condition(&pool->freed);
    }
    after_fork();
}

static void begin(void) {
    handles_forks = pthread_atfork(before_fork, after_fork, in_child) == 0;
}

/* Ends a pool of which no place is taken. (A connection that was given back while it was being freed
   may be free in it.) */
static void destroy(kmip_pool *pool) {
    while (pool->idle_count > 0)
        kmip_close(pool->idle[--pool->idle_count]);
    kmip_close(pool->like);
    (void)pthread_cond_destroy(&pool->freed);
    (void)pthread_mutex_destroy(&pool->lock);
    free(pool->idle);
    free(pool);
}

/* A pool of clients like this one, or a null pointer where memory runs out. */
static kmip_pool *pool_of(kmip_client *like, size_t size) {
    kmip_pool *pool = calloc(1, sizeof *pool);
    if (!pool) return NULL;
    pool->like = like;
    pool->size = size;
    pool->idle = calloc(size, sizeof(kmip_client *));
    bool made = pool->idle && pthread_mutex_init(&pool->lock, NULL) == 0;
    if (made && make_condition(&pool->freed)) return pool;
    if (made) (void)pthread_mutex_destroy(&pool->lock);
    free(pool->idle);
    free(pool);
    return NULL;
}

kmip_pool *kmip_pool_new(const kmip_settings *settings, size_t size, char *error, size_t room) {
    if (size < 1 || size > KMIP_POOL_MOST) {
        kmip_error_line(error, room, "ConfigurationError", "size is 1 to 1024");
        return NULL;
    }
    kmip_queue queue;
    kmip_queue_take(&queue);
    kmip_client *like = kmip_unopened(settings, error, room);
    kmip_queue_give_back(&queue);
    if (!like) return NULL;
    /* (that of processes is there: its handler runs first, and so a child is known as one) */
    bool handles = pthread_once(&once, begin) == 0 && handles_forks;
    kmip_pool *pool = handles ? pool_of(like, size) : NULL;
    if (!pool) {
        kmip_close(like);
        kmip_error_line(error, room, "ConnectError", "out of memory");
        return NULL;
    }
    lock(&all_lock);
    pool->next = all;
    all = pool;
    unlock(&all_lock);
    return pool;
}

/* Waits for a place until this time (0: without end); false: there was none. */
static bool take_place(kmip_pool *pool, double end) {
    struct timespec until = {.tv_sec = (time_t)end};
    until.tv_nsec = (long)(1e9 * (end - (double)until.tv_sec));
    int error = 0;
    lock(&pool->lock);
    while (pool->taken >= pool->size && error == 0)
        error = end > 0 ? pthread_cond_timedwait(&pool->freed, &pool->lock, &until)
                        : pthread_cond_wait(&pool->freed, &pool->lock);
    bool has_place = pool->taken < pool->size;
    pool->taken += has_place;
    unlock(&pool->lock);
    return has_place;
}

/* Leaves a place, with its connection where that is kept; true: it was the last of a pool that is
   over. */
static bool leave_place(kmip_pool *pool, kmip_client *kept) {
    lock(&pool->lock);
    pool->taken--;
    bool is_last = pool->is_over && pool->taken == 0;
    if (kept) pool->idle[pool->idle_count++] = kept;
    (void)pthread_cond_signal(&pool->freed);
    unlock(&pool->lock);
    return is_last;
}

/* A connection that is free: the one used last, or by turns the one that is free for longest. */
static kmip_client *take_idle(kmip_pool *pool) {
    kmip_client *client = NULL;
    lock(&pool->lock);
    if (pool->idle_count > 0) {
        bool is_last = !pool->like->servers->by_turns;
        client = pool->idle[is_last ? pool->idle_count - 1 : 0];
        pool->idle_count--;
        for (size_t i = 0; !is_last && i < pool->idle_count; i++)
            pool->idle[i] = pool->idle[i + 1];
    }
    unlock(&pool->lock);
    return client;
}

/* Whether a connection may be used: it is open, not too old, and its server has not failed since. */
static bool is_good(const kmip_pool *pool, kmip_client *client, double end) {
    const kmip_time time = {end, pool->like->seconds};
    bool is_old = client->max_age > 0 && kmip_now() - client->opened_at > client->max_age;
    if (is_old || !client->wire) return false;
    if (kmip_servers_failed_since(client->servers, client->at, client->opened_at)) return false;
    kmip_wire_begin(client->wire, &time);
    return kmip_wire_is_idle(client->wire);
}

/* A connection for the place that was taken; a null pointer, and why. */
static kmip_client *client_for_place(kmip_pool *pool, double end, char *error, size_t room) {
    kmip_client *client;
    while ((client = take_idle(pool))) {
        if (is_good(pool, client, end)) return client;
        kmip_close(client);
    }
    int status = kmip_open_like(pool->like, end, &client, error, room);
    return status == KMIP_ANSWERED ? client : NULL;
}

kmip_client *kmip_pool_take(kmip_pool *pool, char *error, size_t room) {
    char text[100];
    if (!pool) {
        kmip_error_line(error, room, "ConfigurationError", "pool is a null pointer");
        return NULL;
    }
    double seconds = pool->like->seconds, end = seconds > 0 ? kmip_now() + seconds : 0;
    if (!take_place(pool, end)) {
        snprintf(text, sizeof text, "no connection of the pool was given back within %g seconds",
                 seconds);
        kmip_error_line(error, room, "ConnectError", text);
        return NULL;
    }
    kmip_queue queue;
    kmip_queue_take(&queue);
    kmip_client *client = client_for_place(pool, end, error, room);
    kmip_queue_give_back(&queue);
    if (!client && leave_place(pool, NULL)) destroy(pool);
    return client;
}

void kmip_pool_give_back(kmip_pool *pool, kmip_client *client) {
    if (!pool || !client) return;
    bool is_own = kmip_process_is(&client->owner);
    lock(&pool->lock);
    bool is_kept = is_own && client->wire && !pool->is_over;
    unlock(&pool->lock);
    if (is_kept)
        kmip_forget_answer(client);
    else
        kmip_close(client);
    /* In the child of a fork it has no place. */
    if (is_own && leave_place(pool, is_kept ? client : NULL)) destroy(pool);
}

void kmip_pool_free(kmip_pool *pool) {
    if (!pool) return;
    kmip_client *client;
    lock(&all_lock);
    kmip_pool **at = &all;
    while (*at && *at != pool)
        at = &(*at)->next;
    if (*at) *at = pool->next;
    unlock(&all_lock);
    lock(&pool->lock);
    pool->is_over = true;
    bool is_last = pool->taken == 0;
    unlock(&pool->lock);
    while ((client = take_idle(pool)))
        kmip_close(client);
    if (is_last) destroy(pool);
}
