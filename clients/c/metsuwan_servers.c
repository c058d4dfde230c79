/* The servers of a client: their list, whose turn it is, and which are left out for a while. */
#define _POSIX_C_SOURCE 200809L
#include "metsuwan_internal.h"

#include <stdio.h>
#include <stdlib.h>
#include <string.h>
#include <strings.h>

/* A server is left out for 1 second after a failure, and twice as long after each one more without
   an answer between; a fifth more or less, so that clients do not come back at once. */
#define FIRST_PAUSE 1.0
#define LAST_PAUSE 60.0
#define VARIES 0.2
/* How long others leave the one to which a call goes to see whether it is back. */
#define TRIAL 5.0

/* The most bytes of one place in the list. */
#define LONGEST 300
#define DEFAULT_PORT "5696"

static void lock(kmip_servers *servers) {
    (void)pthread_mutex_lock(&servers->lock); /* it is made, and not this thread's */
}

static void unlock(kmip_servers *servers) {
    (void)pthread_mutex_unlock(&servers->lock);
}

kmip_servers *kmip_servers_take(kmip_servers *servers) {
    lock(servers);
    servers->users++;
    unlock(servers);
    return servers;
}

void kmip_servers_leave(kmip_servers *servers) {
    if (!servers) return;
    lock(servers);
    size_t left = --servers->users;
    unlock(servers);
    if (left > 0) return;
    for (size_t i = 0; i < servers->count; i++) {
        kmip_copy_free(servers->at[i].host);
        kmip_copy_free(servers->at[i].port);
        kmip_copy_free(servers->at[i].text);
    }
    (void)pthread_mutex_destroy(&servers->lock);
    free(servers);
}

/* A copy of so many bytes of a text, or a null pointer where memory runs out. */
static char *copy_part(const char *text, size_t count) {
    char *part = malloc(count + 1);
    if (part) snprintf(part, count + 1, "%.*s", (int)count, text);
    return part;
}

/* Whether it is a port, by its number or by its name in /etc/services. getaddrinfo takes a number
   past the last one modulo 65536, for another port. */
static bool is_port(const char *port) {
    size_t digits = strspn(port, "0123456789");
    if (!port[digits]) {
        long number = digits <= 5 ? strtol(port, NULL, 10) : 0;
        return number >= 1 && number <= 65535;
    }
    return strpbrk(port, "abcdefghijklmnopqrstuvwxyzABCDEFGHIJKLMNOPQRSTUVWXYZ") != NULL;
}

const char *kmip_wrong_server(const char *host, const char *port) {
    if (!host || !*host) return "host is not given";
    /* OpenSSL takes it for any name below it. */
    if (*host == '.') return "host begins with a dot, and is none";
    if (!port || !*port) return "port is not given";
    if (!is_port(port)) return "port is no number of 1 to 65535, and no name";
    return NULL;
}

/* Adds a server: what is wrong with it, or a null pointer. The texts are its own from here on. */
static const char *add(kmip_servers *servers, char *host, char *port) {
    kmip_server *into = &servers->at[servers->count++];
    into->host = host;
    into->port = port;
    size_t room = host && port ? strlen(host) + strlen(port) + 2 : 0;
    into->text = room > 0 ? malloc(room) : NULL;
    if (!into->text) return KMIP_SERVERS_MEMORY;
    snprintf(into->text, room, "%s:%s", host, port);
    for (size_t i = 0; i + 1 < servers->count; i++)
        if (strcasecmp(servers->at[i].text, into->text) == 0) return "server has one twice";
    return kmip_wrong_server(host, port);
}

/* Adds HOST, HOST:PORT or [ADDRESS]:PORT, of so many bytes: what is wrong with it, or a null
   pointer. An address with colons has to have its brackets, since else its end may be a port. */
static const char *add_place(kmip_servers *servers, const char *text, size_t count) {
    bool bracketed = count > 0 && *text == '[';
    const char *end = text + count;
    const char *stop = count > 0 ? memchr(text, bracketed ? ']' : ':', count) : NULL;
    const char *host_end = stop ? stop + bracketed : end;
    bool has_port = host_end < end;
    if (count == 0) return "server has an empty place";
    if (count > LONGEST) return "server has a place that is too long";
    if (servers->count == KMIP_SERVERS_MOST) return "server has more than 16";
    for (const char *at = text; at < end; at++)
        if (strchr(" \t\r\n", *at)) return "server has a space";
    if (bracketed && (!stop || stop == text + 1)) return "server has a bracket without an address";
    if (host_end == text || (has_port && (*host_end != ':' || host_end + 1 == end ||
                                          memchr(host_end + 1, ':', (size_t)(end - host_end - 1)))))
        return "server has what is no HOST, HOST:PORT or [ADDRESS]:PORT";
    char *port = has_port ? copy_part(host_end + 1, (size_t)(end - host_end - 1))
                          : kmip_copy_of(DEFAULT_PORT);
    return add(servers, copy_part(text, (size_t)(host_end - text)), port);
}

static const char *add_list(kmip_servers *servers, const char *list) {
    const char *wrong = NULL, *at = list, *end;
    do {
        end = at + strcspn(at, ",");
        wrong = add_place(servers, at, (size_t)(end - at));
        at = end + 1;
    } while (!wrong && *end);
    return wrong;
}

kmip_servers *kmip_servers_of(const kmip_settings *settings, const char **wrong) {
    kmip_servers *servers = calloc(1, sizeof *servers);
    uint8_t start = 0;
    char reason[160];
    *wrong = KMIP_SERVERS_MEMORY;
    if (!servers || pthread_mutex_init(&servers->lock, NULL) != 0) {
        free(servers);
        return NULL;
    }
    servers->users = 1;
    servers->by_turns = settings->order && strcmp(settings->order, "turns") == 0;
    /* (without random bytes all begin with the first) */
    if (servers->by_turns && kmip_random(&start, 1, reason, sizeof reason)) servers->turn = start;
    *wrong = settings->server
                 ? add_list(servers, settings->server)
                 : add(servers, kmip_copy_of(settings->host), kmip_copy_of(settings->port));
    if (!*wrong) return servers;
    kmip_servers_leave(servers);
    return NULL;
}

/* The first that was not tried and is not left out; or else the one that is left out for the least
   time, but for those that refused the certificate. */
static int next_of(const kmip_servers *servers, uint32_t tried, size_t start, double now) {
    int soonest = -1;
    for (size_t i = 0; i < servers->count; i++) {
        size_t at = (start + i) % servers->count;
        const kmip_server *it = &servers->at[at];
        if (tried >> at & 1) continue;
        if (it->out_until <= now) return (int)at;
        bool is_sooner = soonest < 0 || it->out_until < servers->at[soonest].out_until;
        if (!it->refused && is_sooner) soonest = (int)at;
    }
    return soonest;
}

int kmip_servers_next(kmip_servers *servers, uint32_t tried) {
    double now = kmip_now();
    lock(servers);
    size_t start = servers->by_turns ? servers->turn++ % servers->count : 0;
    int next = next_of(servers, tried, start, now);
    /* One call goes to see; the others have others meanwhile. */
    if (next >= 0 && servers->at[next].failures > 0) servers->at[next].out_until = now + TRIAL;
    unlock(servers);
    return next;
}

/* How long a server is left out that has failed so often before. */
static double pause_after(unsigned failures) {
    uint8_t byte = 128;
    char reason[160];
    double pause = FIRST_PAUSE;
    /* (without random bytes it is the pause itself) */
    (void)kmip_random(&byte, 1, reason, sizeof reason);
    for (unsigned i = 0; i < failures && pause < LAST_PAUSE; i++)
        pause *= 2;
    if (pause > LAST_PAUSE) pause = LAST_PAUSE;
    return pause * (1 + VARIES * ((double)byte / 127.5 - 1));
}

double kmip_servers_failed(kmip_servers *servers, int which, double began, bool refused,
                           const char *why) {
    kmip_server *it = &servers->at[which];
    lock(servers);
    double now = kmip_now();
    /* All connections that a server had end with it, and that is one failure. */
    bool is_new = it->failures == 0 || began >= it->failed_at;
    if (is_new) {
        it->failed_at = now;
        it->out_until = now + pause_after(it->failures++);
        it->refused = refused;
        snprintf(it->why, sizeof it->why, "%s", why);
    }
    double left = it->out_until - now;
    unlock(servers);
    return left > 0 ? left : 0;
}

bool kmip_servers_answered(kmip_servers *servers, int which) {
    kmip_server *it = &servers->at[which];
    lock(servers);
    bool is_back = it->failures > 0;
    it->failures = 0;
    it->refused = false;
    it->out_until = 0;
    it->answered_at = kmip_now();
    unlock(servers);
    return is_back;
}

bool kmip_servers_answered_since(kmip_servers *servers, int which, double when) {
    lock(servers);
    bool since = servers->at[which].answered_at >= when;
    unlock(servers);
    return since;
}

bool kmip_servers_failed_since(kmip_servers *servers, int which, double when) {
    lock(servers);
    bool since = servers->at[which].failed_at >= when;
    unlock(servers);
    return since;
}

double kmip_servers_out(kmip_servers *servers, int which, bool *refused, kmip_reason *why) {
    lock(servers);
    const kmip_server *it = &servers->at[which];
    *refused = it->refused;
    double left = it->out_until - kmip_now();
    snprintf(why->text, sizeof why->text, "%s", it->why);
    unlock(servers);
    return left > 0 ? left : 0;
}
