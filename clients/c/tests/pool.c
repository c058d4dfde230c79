/* A pool: pool MODE HOST PORT CERTIFICATE KEY AUTHORITY. With the mode `threads` 64 threads share 8
   connections, `ended` is of a server that ends each after an answer, `lost` of one that ends it in
   place of an answer, and another mode a port where nobody listens, of a server before that at hand. */
#define _DEFAULT_SOURCE
#include "metsuwan_internal.h"
#include "testing.h"

#include <stdatomic.h>
#include <sys/wait.h>
#include <unistd.h>

enum { THREADS = 64, CALLS = 20, SIZE = 8 };

typedef struct {
    kmip_pool *pool;
    atomic_int taken, most, right, wrong;
} crowd;

static kmip_pool *pool_with(const kmip_settings *settings, size_t size) {
    char error[300];
    kmip_pool *pool = kmip_pool_new(settings, size, error, sizeof error);
    if (pool) return pool;
    printf("FAILED  c: no pool: %s\n", error);
    exit(1);
}

static kmip_client *taken_of(kmip_pool *pool) {
    char error[2048];
    kmip_client *client = kmip_pool_take(pool, error, sizeof error);
    if (client) return client;
    printf("FAILED  c: no connection: %s\n", error);
    exit(1);
}

/* Signs by a key of this name: whether the signature is by that key. */
static bool signs_by(kmip_client *client, const char *name) {
    size_t length = 0;
    char wanted[60];
    snprintf(wanted, sizeof wanted, "signature by %s", name);
    if (kmip_call(client, "sign", name, "00", NULL) != KMIP_ANSWERED) return false;
    const uint8_t *found = kmip_bytes(client, "signature_data", &length);
    return found && length == strlen(wanted) && memcmp(found, wanted, length) == 0;
}

static void *one_of_crowd(void *given) {
    crowd *all = given;
    char name[40];
    snprintf(name, sizeof name, "key %p", (void *)&name);
    for (int i = 0; i < CALLS; i++) {
        kmip_client *client = kmip_pool_take(all->pool, NULL, 0);
        int now = atomic_fetch_add(&all->taken, 1) + 1, most = atomic_load(&all->most);
        while (now > most && !atomic_compare_exchange_weak(&all->most, &most, now))
            continue;
        bool right = client && signs_by(client, name);
        atomic_fetch_add(right ? &all->right : &all->wrong, 1);
        atomic_fetch_sub(&all->taken, 1);
        kmip_pool_give_back(all->pool, client);
    }
    return NULL;
}

static void threads(const kmip_settings *settings) {
    static crowd all;
    pthread_t each[THREADS];
    all.pool = pool_with(settings, SIZE);
    for (int i = 0; i < THREADS; i++)
        if (pthread_create(&each[i], NULL, one_of_crowd, &all) != 0) exit(1);
    for (int i = 0; i < THREADS; i++)
        if (pthread_join(each[i], NULL) != 0) exit(1);
    check(atomic_load(&all.right) == THREADS * CALLS && atomic_load(&all.wrong) == 0,
          "each thread has its own answers");
    check(atomic_load(&all.most) <= SIZE, "and no more connections are taken than there may be");
    kmip_pool_free(all.pool);
}

/* A place is waited for until the deadline, and one that is lost is a place again. */
static void places(kmip_settings settings) {
    char error[300];
    settings.seconds = 5; /* in which one is opened on a busy machine, too */
    kmip_pool *pool = pool_with(&settings, 1);
    kmip_client *client = taken_of(pool);
    double from = seconds_now();
    check(!kmip_pool_take(pool, error, sizeof error), "where all are taken there is none");
    check_text(error,
               "{\"error\":\"ConnectError\",\"text\":\"no connection of the pool was given back "
               "within 5 seconds\"}",
               "and why");
    check(seconds_now() - from >= 4.9, "at the deadline");
    check(kmip_call(client, "query", NULL) == KMIP_ANSWERED, "that which is taken is good");
    kmip_pool_give_back(pool, client);
    kmip_client *next = taken_of(pool);
    check(next == client && !*kmip_line(next) && kmip_error_kind(next) == KMIP_KIND_NONE,
          "what was given back is taken again, with no answer of before");
    kmip_pool_free(pool);
    check(signs_by(next, "k"), "one that is taken outlasts the pool");
    kmip_pool_give_back(pool, next);
    kmip_pool_give_back(NULL, NULL);
    kmip_pool_free(NULL);
}

static void wrong_pools(const kmip_settings *settings) {
    char error[300];
    check(!kmip_pool_new(settings, 0, error, sizeof error) &&
              !kmip_pool_new(settings, KMIP_POOL_MOST + 1, NULL, 0),
          "sizes that are none");
    check_text(error, "{\"error\":\"ConfigurationError\",\"text\":\"size is 1 to 1024\"}",
               "and why");
    check(!kmip_pool_new(NULL, 1, NULL, 0) && !kmip_pool_take(NULL, NULL, 0), "null pointers");
    kmip_settings other = *settings;
    other.authority = "nowhere.pem";
    check(!kmip_pool_new(&other, 1, error, sizeof error) && strstr(error, "nowhere.pem"),
          "a file that is not there is told at once");
}

/* The order of those that are free, and their age. */
static void orders(kmip_settings settings) {
    kmip_pool *pool = pool_with(&settings, 2);
    kmip_client *one = taken_of(pool), *two = taken_of(pool);
    kmip_pool_give_back(pool, one);
    kmip_pool_give_back(pool, two);
    kmip_client *next = taken_of(pool);
    check(next == two, "first: the one that was used last");
    kmip_pool_give_back(pool, next);
    kmip_pool_free(pool);
    settings.order = "turns";
    settings.max_age = 30;
    pool = pool_with(&settings, 2);
    one = taken_of(pool);
    two = taken_of(pool);
    kmip_pool_give_back(pool, one);
    kmip_pool_give_back(pool, two);
    next = taken_of(pool);
    check(next == one, "turns: the one that is free for longest");
    double opened_at = next->opened_at;
    next->opened_at -= 31;
    kmip_pool_give_back(pool, next);
    check(taken_of(pool) == two, "and then the other");
    next = taken_of(pool);
    check(next->opened_at > opened_at, "one that is too old is not used");
    kmip_pool_give_back(pool, next);
    kmip_pool_give_back(pool, two);
    kmip_pool_free(pool);
}

/* A child has connections of its own, and the parent's are as they were. */
static void forks(const kmip_settings *settings) {
    kmip_pool *pool = pool_with(settings, 2);
    kmip_client *held = taken_of(pool), *idle = taken_of(pool);
    kmip_pool_give_back(pool, idle);
    for (int i = 0; i < 5; i++) {
        pid_t child = fork();
        if (child < 0) exit(1);
        if (child == 0) {
            kmip_pool_give_back(pool, held);
            kmip_client *one = kmip_pool_take(pool, NULL, 0), *two = kmip_pool_take(pool, NULL, 0);
            bool right = one && two && signs_by(one, "child") && signs_by(two, "child");
            kmip_pool_give_back(pool, one);
            kmip_pool_free(pool);
            _exit(right ? 0 : 1);
        }
        bool right = signs_by(held, "parent");
        kmip_client *own = taken_of(pool);
        right = right && own == idle && signs_by(own, "parent");
        kmip_pool_give_back(pool, own);
        int status = 1;
        check(waitpid(child, &status, 0) == child && status == 0, "a child opens its own");
        check(right && signs_by(held, "parent"), "and the parent's are as they were");
    }
    kmip_pool_give_back(pool, held);
    kmip_pool_free(pool);
}

/* What the server has ended meanwhile is not handed out. */
static void ended(const kmip_settings *settings) {
    kmip_pool *pool = pool_with(settings, 1);
    for (int i = 0; i < 3; i++) {
        kmip_client *client = taken_of(pool);
        check(kmip_call(client, "query", NULL) == KMIP_ANSWERED, "what is handed out is open");
        kmip_pool_give_back(pool, client);
        usleep(200000);
    }
    kmip_pool_free(pool);
}

static void lost(const kmip_settings *settings) {
    kmip_pool *pool = pool_with(settings, 1);
    for (int i = 0; i < 3; i++) {
        kmip_client *client = taken_of(pool);
        check(kmip_call(client, "query", NULL) == KMIP_LOST, "a call that is lost");
        kmip_pool_give_back(pool, client);
    }
    kmip_pool_free(pool);
}

/* All connections of a server end with it, and it is left out as after one failure. */
static void lost_together(kmip_settings settings) {
    char servers[200];
    kmip_client *clients[SIZE];
    snprintf(servers, sizeof servers, "localhost:%s,127.0.0.1:%s", settings.port, settings.port);
    settings.server = servers;
    settings.host = settings.port = NULL;
    kmip_pool *pool = pool_with(&settings, SIZE);
    for (size_t i = 0; i < SIZE; i++)
        clients[i] = taken_of(pool);
    for (size_t i = 0; i < SIZE; i++)
        check(kmip_call(clients[i], "activate", "k", NULL) == KMIP_LOST, "all lose their calls");
    kmip_reason why;
    bool refused;
    check(clients[0]->servers->at[0].failures == 1 &&
              kmip_servers_out(clients[0]->servers, 0, &refused, &why) <= 1.2,
          "which is one failure of the server");
    for (size_t i = 0; i < SIZE; i++)
        kmip_pool_give_back(pool, clients[i]);
    kmip_pool_free(pool);
}

/* What one connection has found of a server, the others know. */
static void one_list(kmip_settings settings, const char *nobody) {
    char servers[200];
    snprintf(servers, sizeof servers, "localhost:%s,localhost:%s", nobody, settings.port);
    settings.server = servers;
    settings.host = settings.port = NULL;
    kmip_pool *pool = pool_with(&settings, 3);
    kmip_client *clients[3];
    for (size_t i = 0; i < 3; i++)
        clients[i] = taken_of(pool);
    bool right = true;
    for (size_t i = 0; i < 3; i++)
        right = signs_by(clients[i], "k") && right;
    check(right, "three connections to the second server");
    check(clients[0]->servers == clients[1]->servers && clients[1]->servers == clients[2]->servers,
          "which have one list, and so one of them alone tries the first");
    for (size_t i = 0; i < 3; i++)
        kmip_pool_give_back(pool, clients[i]);
    kmip_pool_free(pool);
}

int main(int argc, char **argv) {
    if (argc < 7) return 2;
    const char *mode = argv[1];
    const kmip_settings settings = settings_of(argv + 1);
    if (strcmp(mode, "threads") == 0) {
        threads(&settings);
    } else if (strcmp(mode, "calls") == 0) {
        places(settings);
        wrong_pools(&settings);
        orders(settings);
        forks(&settings);
    } else if (strcmp(mode, "ended") == 0) {
        ended(&settings);
    } else if (strcmp(mode, "lost") == 0) {
        lost(&settings);
        lost_together(settings);
    } else {
        one_list(settings, mode);
    }
    return outcome();
}
