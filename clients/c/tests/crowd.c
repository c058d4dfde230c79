/* A crowd that calls several servers, which die by turns and come back: crowd HOW SERVERS CERTIFICATE
   KEY AUTHORITY SECONDS THREADS ROUNDS. With the word `clients` each thread has a client, with `pool`
   all share a pool of fewer connections, with the order `first` and `turns` each. In a round each
   thread makes a change, a signature and a change, each about an object that no other call is about.
   After it `round N` is written, and a line of standard input begins the next one. What came of each
   change is a line `change NAME STATUS SENT LINE`, and so for signatures; several.sh compares these
   with what the servers have read. */
#define _DEFAULT_SOURCE
#include "testing.h"

#include <pthread.h>

enum { PLACES = 50 };

typedef struct {
    kmip_settings settings;
    kmip_pool *pool;
    int threads, rounds;
    pthread_barrier_t ended, begins;
    pthread_mutex_t writes;
} crowd;

typedef struct {
    crowd *all;
    kmip_client *client;
    int number;
} member;

/* Whether the last call was answered by a signature of this object. */
static bool is_by(kmip_client *client, const char *name) {
    size_t length = 0;
    char wanted[80];
    snprintf(wanted, sizeof wanted, "signature by %s", name);
    const uint8_t *found = kmip_bytes(client, "signature_data", &length);
    return found && length == strlen(wanted) && memcmp(found, wanted, length) == 0;
}

static void tell(crowd *all, const char *what, const char *name, kmip_client *client, int status) {
    bool other = status == KMIP_ANSWERED && *what == 's' && !is_by(client, name);
    pthread_mutex_lock(&all->writes);
    printf("%s %s %d %d %s\n", other ? "another's" : what, name, status, kmip_was_sent(client),
           status == KMIP_ANSWERED ? "" : kmip_line(client));
    pthread_mutex_unlock(&all->writes);
}

static void make_calls(member *one, int round) {
    crowd *all = one->all;
    static const char *const calls[] = {"activate", "sign", "activate"};
    for (int i = 0; i < 3; i++) {
        char name[60], error[2048];
        bool signs = i == 1;
        snprintf(name, sizeof name, "object.%d.%d.%d", one->number, round, i);
        kmip_client *client =
            all->pool ? kmip_pool_take(all->pool, error, sizeof error) : one->client;
        if (!client) {
            pthread_mutex_lock(&all->writes);
            printf("%s %s %d 0 %s\n", signs ? "signature" : "change", name, KMIP_LOST, error);
            pthread_mutex_unlock(&all->writes);
            continue;
        }
        int status = signs ? kmip_call(client, calls[i], name, "00", NULL)
                           : kmip_call(client, calls[i], name, NULL);
        tell(all, signs ? "signature" : "change", name, client, status);
        if (all->pool) kmip_pool_give_back(all->pool, client);
    }
}

static void *one_of_crowd(void *given) {
    member *one = given;
    crowd *all = one->all;
    if (!all->pool) one->client = opened(&all->settings);
    pthread_barrier_wait(&all->begins);
    for (int round = 0; round < all->rounds; round++) {
        make_calls(one, round);
        pthread_barrier_wait(&all->ended);
        pthread_barrier_wait(&all->begins);
    }
    kmip_close(one->client);
    return NULL;
}

/* Waits for a line, between two rounds. */
static void wait_for_line(void) {
    char line[20];
    if (!fgets(line, sizeof line, stdin)) exit(1);
}

static void run(crowd *all) {
    unsigned count = (unsigned)all->threads + 1;
    member *members = calloc(count, sizeof *members);
    pthread_t *threads = calloc(count, sizeof *threads);
    if (!members || !threads || pthread_mutex_init(&all->writes, NULL) != 0 ||
        pthread_barrier_init(&all->ended, NULL, count) != 0 ||
        pthread_barrier_init(&all->begins, NULL, count) != 0)
        exit(1);
    for (int i = 0; i < all->threads; i++) {
        members[i] = (member){.all = all, .number = i};
        if (pthread_create(&threads[i], NULL, one_of_crowd, &members[i]) != 0) exit(1);
    }
    pthread_barrier_wait(&all->begins);
    for (int round = 0; round < all->rounds; round++) {
        pthread_barrier_wait(&all->ended);
        printf("round %d\n", round);
        wait_for_line();
        pthread_barrier_wait(&all->begins);
    }
    for (int i = 0; i < all->threads; i++)
        if (pthread_join(threads[i], NULL) != 0) exit(1);
    free(members);
    free(threads);
}

int main(int argc, char **argv) {
    char error[2048];
    crowd all = {.settings = kmip_defaults()};
    if (argc != 9 || setvbuf(stdout, NULL, _IOLBF, 0) != 0) return 2;
    bool pools = strncmp(argv[1], "pool", 4) == 0;
    all.settings.server = argv[2];
    all.settings.certificate = argv[3];
    all.settings.key = argv[4];
    all.settings.authority = argv[5];
    all.settings.seconds = atof(argv[6]);
    all.settings.order = strstr(argv[1], "turns") ? "turns" : "first";
    all.threads = atoi(argv[7]);
    all.rounds = atoi(argv[8]);
    if (pools) {
        all.pool = kmip_pool_new(&all.settings, PLACES, error, sizeof error);
        if (!all.pool) return printf("no pool: %s\n", error), 1;
    }
    run(&all);
    kmip_pool_free(all.pool);
    return 0;
}
