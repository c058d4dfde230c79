/* The connections: each is opened by the first call on it, and is for one thread at a time. One
   that a thread gives back is for the next call of any thread. */
#define _POSIX_C_SOURCE 200809L
#include "provider.h"

#include <errno.h>
#include <openssl/crypto.h>
#include <pthread.h>
#include <time.h>

struct connection {
    provider *provider;
    kmip_client *client; /* null: it is not open */
    unsigned process;    /* the process that opened it, counted by forks */
    connection *next;    /* of those that no thread has */
};

/* One lock for all, and never held while a server is waited for, so that a fork waits for little. */
static pthread_mutex_t lock = PTHREAD_MUTEX_INITIALIZER;
static pthread_once_t once = PTHREAD_ONCE_INIT;
static pthread_cond_t given_back;
static bool prepared;
static atomic_uint forks;
static provider *all;

/* (A lock of this kind, which only its holder opens, cannot fail.) */
static void lock_all(void) {
    (void)pthread_mutex_lock(&lock);
}

static void unlock_all(void) {
    (void)pthread_mutex_unlock(&lock);
}

/* Threads wait by a clock that nobody sets. */
static bool make_condition(void) {
    pthread_condattr_t how;
    if (pthread_condattr_init(&how)) return false;
    bool made =
        !pthread_condattr_setclock(&how, CLOCK_MONOTONIC) && !pthread_cond_init(&given_back, &how);
    return !pthread_condattr_destroy(&how) && made;
}

/* While a process forks no other thread has a lock: neither this one nor that of a list of servers,
   which is never held while this one is waited for. */
static void before_fork(void) {
    lock_all();
    for (provider *prov = all; prov; prov = prov->next)
        if (prov->servers) (void)pthread_mutex_lock(&prov->servers->lock);
}

static void after_fork(void) {
    for (provider *prov = all; prov; prov = prov->next)
        if (prov->servers) (void)pthread_mutex_unlock(&prov->servers->lock);
    unlock_all();
}

/* In the child no thread has a connection or waits for one, whatever threads the parent has. */
static void in_child(void) {
    atomic_fetch_add(&forks, 1);
    for (provider *prov = all; prov; prov = prov->next)
        prov->in_use = 0;
    prepared = make_condition();
    after_fork();
}

/* Ends a connection of this process. One of the parent's is given up without a byte on it. */
static void disconnect(connection *link) {
    if (link->process == atomic_load(&forks))
        kmip_close(link->client);
    else
        kmip_abandon(link->client);
    link->client = NULL;
}

static void end_idle(provider *prov) {
    while (prov->idle) {
        connection *first = prov->idle;
        prov->idle = first->next;
        disconnect(first);
        OPENSSL_free(first);
    }
}

/* Before OpenSSL itself is taken down, after which no TLS can be ended. */
static void at_exit(void) {
    lock_all();
    for (provider *prov = all; prov; prov = prov->next)
        end_idle(prov);
    unlock_all();
}

static void prepare_process(void) {
    prepared = make_condition() && !pthread_atfork(before_fork, after_fork, in_child) &&
               OPENSSL_atexit(at_exit);
}

bool connections_start(provider *prov) {
    if (pthread_once(&once, prepare_process) || !prepared)
        return RAISE(prov, REASON_MEMORY, "no handlers of forks and of the end");
    lock_all();
    prov->next = all;
    all = prov;
    prov->is_listed = true;
    unlock_all();
    return true;
}

void connections_end(provider *prov) {
    if (!prov->is_listed) return;
    lock_all();
    end_idle(prov);
    provider **at = &all;
    while (*at && *at != prov)
        at = &(*at)->next;
    if (*at) *at = prov->next;
    unlock_all();
}

/* Whether both are in one library context; none is in one with itself. */
static bool is_beside(const provider *one, const provider *other) {
    return one != other && one->get_libctx(one->core) == other->get_libctx(other->core);
}

static bool is_second(const provider *prov) {
    return prov->is_unable && prov->unable_reason == REASON_SECOND;
}

bool connections_first(provider *prov) {
    bool first = true;
    lock_all();
    for (const provider *other = all; first && other; other = other->next)
        if (is_beside(prov, other) && !is_second(other))
            first = provider_refuse(
                prov, REASON_SECOND,
                "%s is not asked, since %s is active before it: name all servers of one set of "
                "objects in one section, as server = A,B",
                prov->name, other->name);
    unlock_all();
    return first;
}

void connections_tell_others(const provider *prov) {
    lock_all();
    for (const provider *other = all; other; other = other->next)
        if (is_beside(prov, other) && is_second(other))
            RAISE(prov, REASON_SECOND, "%s", other->unable);
    unlock_all();
}

static struct timespec deadline_of(const provider *prov) {
    struct timespec at = {0};
    (void)clock_gettime(CLOCK_MONOTONIC, &at);
    double seconds = prov->settings.seconds;
    at.tv_sec += (time_t)seconds;
    at.tv_nsec += (long)((seconds - (double)(time_t)seconds) * 1e9);
    if (at.tv_nsec >= 1000000000) {
        at.tv_sec++;
        at.tv_nsec -= 1000000000;
    }
    return at;
}

/* Waits, with the lock, until a connection may be taken; false where the time is over. */
static bool wait_for_one(const provider *prov) {
    struct timespec until = deadline_of(prov);
    int status = 0;
    while (prov->in_use >= prov->settings.connections && !status)
        status = prov->settings.seconds > 0 ? pthread_cond_timedwait(&given_back, &lock, &until)
                                            : pthread_cond_wait(&given_back, &lock);
    return prov->in_use < prov->settings.connections;
}

connection *connection_take(provider *prov) {
    lock_all();
    bool free = wait_for_one(prov);
    connection *taken = free ? prov->idle : NULL;
    if (taken) prov->idle = taken->next;
    if (free && !taken) taken = OPENSSL_zalloc(sizeof *taken);
    if (taken) prov->in_use++;
    unlock_all();
    if (taken)
        taken->provider = prov;
    else if (free)
        RAISE(prov, REASON_MEMORY, "a connection");
    else
        RAISE(prov, REASON_CONNECTION, "other threads had all %u connections for %g s",
              prov->settings.connections, prov->settings.seconds);
    return taken;
}

void connection_give_back(connection *link) {
    provider *of = link->provider;
    lock_all();
    link->next = of->idle;
    of->idle = link;
    of->in_use--;
    (void)pthread_cond_signal(&given_back);
    unlock_all();
}

static const char *missing(const settings *given) {
    return !given->server        ? "server"
           : !given->certificate ? "certificate"
           : !given->key         ? "key"
           : !given->authority   ? "authority"
                                 : NULL;
}

static bool connect_it(connection *link) {
    const provider *of = link->provider;
    const settings *given = &of->settings;
    if (missing(given))
        return RAISE(of, REASON_SETTINGS,
                     "%s is set neither in the section of openssl.cnf nor in the environment",
                     missing(given));
    char error[2048];
    kmip_settings how = kmip_defaults();
    how.server = given->server;
    how.order = given->order;
    how.server_name = given->server_name;
    how.max_age = given->max_age;
    how.reconnect = true;
    how.certificate = given->certificate;
    how.key = given->key;
    how.authority = given->authority;
    how.passphrase = given->passphrase;
    how.user = given->user;
    how.password = given->password;
    how.seconds = given->seconds;
    how.library = of->own;
    (void)kmip_connect_sharing(&how, of->servers, &link->client, error, sizeof error);
    link->process = atomic_load(&forks);
    return link->client || RAISE(of, REASON_CONNECTION, "%s: %s", given->server, error);
}

/* Whether a connection is no longer one for a call: that of the parent, or one that was open when its
   server failed last, and may fail as another did. */
static bool is_spent(const connection *link) {
    kmip_client *client = link->client;
    return link->process != atomic_load(&forks) ||
           kmip_servers_failed_since(client->servers, client->at, client->opened_at);
}

/* Makes the connection one for a call; or raises an error. */
static bool make_ready(connection *link) {
    if (link->client && is_spent(link)) disconnect(link);
    return link->client || connect_it(link);
}

/* The client where a call was answered, which has this name and ended with this status. */
static kmip_client *answered(connection *link, const char *call, int status) {
    const provider *of = link->provider;
    if (status == KMIP_ANSWERED) return link->client;
    if (status == KMIP_NO_MEMORY)
        RAISE(of, REASON_MEMORY, "%s", call);
    else
        RAISE(of, status == KMIP_LOST ? REASON_CONNECTION : REASON_REFUSED, "%s: %s", call,
              kmip_line(link->client));
    /* (the next one is opened with files that may be others by then) */
    if (status == KMIP_LOST || status == KMIP_NO_MEMORY) disconnect(link);
    return NULL;
}

kmip_client *connection_call(connection *link, const char *call, const kmip_word *words,
                             size_t count) {
    if (!make_ready(link)) return NULL;
    return answered(link, call, kmip_call_array(link->client, call, words, count));
}

kmip_client *connection_operation(connection *link, const char *name, const char *payload) {
    if (!make_ready(link)) return NULL;
    return answered(link, name, kmip_operation(link->client, name, "1.2", payload));
}
