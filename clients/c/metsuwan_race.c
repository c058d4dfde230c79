/* The way to a server: the addresses of its host, to which connections are made side by side. */
#define _POSIX_C_SOURCE 200809L
#include "metsuwan_internal.h"

#include <errno.h>
#include <fcntl.h>
#include <netdb.h>
#include <netinet/in.h>
#include <netinet/tcp.h>
#include <poll.h>
#include <pthread.h>
#include <signal.h>
#include <stdio.h>
#include <stdlib.h>
#include <string.h>
#include <sys/socket.h>
#include <time.h>
#include <unistd.h>

/* The addresses of a host are tried side by side (RFC 8305): each begins 250 ms after the one before,
   or once that has failed; families take turns. */
#define MOST_ADDRESSES 16
#define NEXT_ADDRESS 0.25

struct kmip_race {
    struct addrinfo *found;
    const struct addrinfo *at[MOST_ADDRESSES];
    int sockets[MOST_ADDRESSES]; /* -1: not begun */
    size_t count;
    double next; /* when the next begins */
};

void kmip_reason_add(kmip_reason *into, const char *text) {
    size_t length = strlen(into->text);
    if (strstr(into->text, text)) return;
    snprintf(into->text + length, sizeof into->text - length, "%s%s", length > 0 ? ", " : "", text);
}

/* Adds a reason, with what connecting has in front. */
static void says(kmip_reason *why, const char *text) {
    char said[200];
    snprintf(said, sizeof said, "connect: %s", text);
    kmip_reason_add(why, said);
}

static void says_errno(kmip_reason *why, int error) {
    char text[160] = "";
    says(why, kmip_said_of(error, text, sizeof text));
}

/* A search for the addresses of a host, which knows no deadline, and so has a thread of its own.
   The last of the two threads to leave it frees it. */
typedef struct {
    pthread_mutex_t lock;
    pthread_cond_t changed;
    bool done, given_up;
    int status, error; /* of getaddrinfo, and its errno */
    struct addrinfo *addresses;
    char *host, *port;
} search;

static int find(const char *host, const char *port, int flags, struct addrinfo **addresses) {
    struct addrinfo hints = {.ai_family = AF_UNSPEC, .ai_socktype = SOCK_STREAM, .ai_flags = flags};
    return getaddrinfo(host, port, &hints, addresses);
}

/* Makes the lock, and the condition, which is waited for by the clock of deadlines. */
static bool search_init(search *found) {
    pthread_condattr_t clock;
    if (pthread_condattr_init(&clock) != 0) return false;
    bool made = pthread_condattr_setclock(&clock, CLOCK_MONOTONIC) == 0 &&
                pthread_mutex_init(&found->lock, NULL) == 0;
    if (made && pthread_cond_init(&found->changed, &clock) != 0) {
        (void)pthread_mutex_destroy(&found->lock);
        made = false;
    }
    (void)pthread_condattr_destroy(&clock);
    return made;
}

static void search_free(search *found) {
    if (found->addresses) freeaddrinfo(found->addresses);
    (void)pthread_cond_destroy(&found->changed);
    (void)pthread_mutex_destroy(&found->lock);
    kmip_copy_free(found->host);
    kmip_copy_free(found->port);
    free(found);
}

/* A null pointer where there is no memory. */
static search *search_new(const char *host, const char *port) {
    search *found = calloc(1, sizeof *found);
    if (!found || !search_init(found)) {
        free(found);
        return NULL;
    }
    found->host = kmip_copy_of(host);
    found->port = kmip_copy_of(port);
    if (found->host && found->port) return found;
    search_free(found);
    return NULL;
}

static void *search_run(void *given) {
    search *found = given;
    struct addrinfo *addresses = NULL;
    int status = find(found->host, found->port, 0, &addresses);
    int error = errno;
    (void)pthread_mutex_lock(&found->lock); /* it is made, and not this thread's */
    found->status = status;
    found->error = error;
    found->addresses = addresses;
    found->done = true;
    bool alone = found->given_up;
    (void)pthread_cond_signal(&found->changed);
    (void)pthread_mutex_unlock(&found->lock);
    if (alone) search_free(found);
    return NULL;
}

/* Starts the thread, in which no handler of a signal is to run. */
static bool search_start(search *found) {
    pthread_t thread;
    sigset_t all, before;
    if (sigfillset(&all) != 0 || pthread_sigmask(SIG_SETMASK, &all, &before) != 0) return false;
    bool started = pthread_create(&thread, NULL, search_run, found) == 0;
    (void)pthread_sigmask(SIG_SETMASK, &before, NULL);
    if (started) (void)pthread_detach(thread);
    return started;
}

/* Waits for the search until then, or without an end where that is 0, and leaves it. */
static int search_end(search *found, double until, struct addrinfo **addresses) {
    struct timespec end = {.tv_sec = (time_t)until};
    end.tv_nsec = (long)((until - (double)end.tv_sec) * 1e9);
    int waited = 0;
    (void)pthread_mutex_lock(&found->lock);
    while (!found->done && waited == 0)
        waited = until > 0 ? pthread_cond_timedwait(&found->changed, &found->lock, &end)
                           : pthread_cond_wait(&found->changed, &found->lock);
    bool done = found->done;
    int status = done ? found->status : EAI_AGAIN;
    *addresses = found->addresses;
    found->addresses = NULL;
    found->given_up = true;
    int error = found->error;
    (void)pthread_mutex_unlock(&found->lock);
    if (done) search_free(found);
    errno = error;
    return status;
}

/* A socket that is none of the three standard streams. Where the program has closed one of these,
   the next descriptor gets its number, and what the program writes to the stream would go out on
   the connection, with no TLS. */
static int socket_of(int family) {
    int made = socket(family, SOCK_STREAM | SOCK_NONBLOCK | SOCK_CLOEXEC, 0);
    if (made < 0 || made > STDERR_FILENO) return made;
    int moved = fcntl(made, F_DUPFD_CLOEXEC, STDERR_FILENO + 1), error = errno;
    (void)close(made);
    errno = error;
    return moved;
}

/* The addresses of a host, or a null pointer. One that is written in numbers needs no search. */
static struct addrinfo *addresses_of(const char *host, const char *port, const kmip_time *time,
                                     kmip_reason *why) {
    struct addrinfo *addresses = NULL;
    int status = find(host, port, AI_NUMERICHOST, &addresses);
    if (status == EAI_NONAME) {
        search *found = search_new(host, port);
        if (!found || !search_start(found)) {
            if (found) search_free(found);
            says(why, "no memory or no thread to find the host");
            return NULL;
        }
        status = search_end(found, time->end, &addresses);
    }
    if (status == 0) return addresses;
    if (kmip_time_is_over(time)) {
        char late[100];
        snprintf(late, sizeof late, "the host is not found within %g seconds", time->seconds);
        says(why, late);
    } else if (status == EAI_SYSTEM) {
        says_errno(why, errno);
    } else {
        says(why, gai_strerror(status));
    }
    return NULL;
}

/* Orders the addresses: the first as the system has them, and then one of each family in turn. */
static void order(kmip_race *race) {
    const struct addrinfo *of[2] = {race->found, race->found};
    int family = race->found->ai_family;
    for (int turn = 0, empty = 0; race->count < MOST_ADDRESSES && empty < 2; turn = !turn) {
        while (of[turn] && (of[turn]->ai_family == family) == turn)
            of[turn] = of[turn]->ai_next;
        empty = of[turn] ? 0 : empty + 1;
        if (!of[turn]) continue;
        race->sockets[race->count] = -1;
        race->at[race->count++] = of[turn];
        of[turn] = of[turn]->ai_next;
    }
}

kmip_race *kmip_race_begin(const char *host, const char *port, const kmip_time *time,
                           kmip_reason *why) {
    kmip_race *race = calloc(1, sizeof *race);
    if (race)
        race->found = addresses_of(host, port, time, why);
    else
        says(why, "no memory");
    if (race && race->found) {
        order(race);
        return race;
    }
    free(race);
    return NULL;
}

/* One is out of the race; its socket is the caller's. */
static int leave(kmip_race *race, size_t which) {
    int left = race->sockets[which];
    race->count--;
    for (size_t i = which; i < race->count; i++) {
        race->at[i] = race->at[i + 1];
        race->sockets[i] = race->sockets[i + 1];
    }
    return left;
}

/* One has failed: the next begins at once. */
static void drop_out(kmip_race *race, size_t which) {
    int left = leave(race, which);
    if (left >= 0) (void)close(left);
    race->next = 0;
}

/* Those that have begun and not won may begin again. */
static void stop(kmip_race *race) {
    for (size_t i = 0; i < race->count; i++) {
        if (race->sockets[i] >= 0) (void)close(race->sockets[i]);
        race->sockets[i] = -1;
    }
    race->next = 0;
}

/* Begins the next one where it is its turn, and says how many are under way. */
static size_t begin_next(kmip_race *race, kmip_reason *why) {
    size_t begun = 0;
    while (begun < race->count && race->sockets[begun] >= 0)
        begun++;
    if (begun == race->count || (begun > 0 && kmip_now() < race->next)) return begun;
    const struct addrinfo *at = race->at[begun];
    int made = race->sockets[begun] = socket_of(at->ai_family);
    bool goes = made >= 0 && (connect(made, at->ai_addr, at->ai_addrlen) == 0 ||
                              errno == EINPROGRESS || errno == EINTR);
    race->next = kmip_now() + NEXT_ADDRESS;
    if (goes) return begun + 1;
    says_errno(why, errno);
    drop_out(race, begun);
    return begun;
}

/* Looks which of those under way are there: the socket of one that is connected, or -1. */
static int winner(kmip_race *race, const struct pollfd *polled, size_t begun, kmip_reason *why) {
    for (size_t i = begun; i-- > 0;) {
        int error = 0;
        socklen_t size = sizeof error;
        if (!polled[i].revents) continue;
        if (getsockopt(polled[i].fd, SOL_SOCKET, SO_ERROR, &error, &size) != 0) error = errno;
        if (error == 0) return leave(race, i);
        says_errno(why, error);
        drop_out(race, i);
    }
    return -1;
}

/* Waits until one of those under way is there, has failed, or the next is to begin: -1, or the socket
   of the one that is there. */
static int wait_for_one(kmip_race *race, size_t begun, const kmip_time *time, kmip_reason *why) {
    struct pollfd polled[MOST_ADDRESSES];
    double until = begun < race->count ? race->next : kmip_now() + 3600;
    if (time->end > 0 && time->end < until) until = time->end;
    double left = until - kmip_now();
    for (size_t i = 0; i < begun; i++)
        polled[i] = (struct pollfd){.fd = race->sockets[i], .events = POLLOUT};
    int ready = poll(polled, (nfds_t)begun, left > 0 ? (int)(1000 * left) + 1 : 0);
    if (ready < 0 && errno != EINTR) {
        says_errno(why, errno);
        while (race->count > 0)
            drop_out(race, 0);
    }
    return ready > 0 ? winner(race, polled, begun, why) : -1;
}

int kmip_race_next(kmip_race *race, const kmip_time *time, kmip_reason *why) {
    int reached = -1, one = 1;
    while (reached < 0 && race->count > 0) {
        size_t begun = begin_next(race, why);
        if (kmip_time_is_over(time)) {
            char late[80];
            snprintf(late, sizeof late, "no answer within %g seconds", time->seconds);
            kmip_reason_add(why, late);
            break;
        }
        if (begun > 0) reached = wait_for_one(race, begun, time, why);
    }
    stop(race);
    /* Without it a request takes longer, and no more. */
    if (reached >= 0) (void)setsockopt(reached, IPPROTO_TCP, TCP_NODELAY, &one, sizeof one);
    return reached;
}

size_t kmip_race_left(const kmip_race *race) {
    return race->count;
}

void kmip_race_end(kmip_race *race) {
    if (!race) return;
    stop(race);
    freeaddrinfo(race->found);
    free(race);
}
