/* What the tests have among themselves: a client of the server at argv[1..5], and one check a line,
   as the live test counts them. */
#ifndef TESTING_H
#define TESTING_H
#include "metsuwan_tls.h"

#include <stdio.h>
#include <stdlib.h>
#include <string.h>
#include <time.h>

static inline kmip_settings settings_of(char **argv) {
    kmip_settings settings = kmip_defaults();
    settings.host = argv[1];
    settings.port = argv[2];
    settings.certificate = argv[3];
    settings.key = argv[4];
    settings.authority = argv[5];
    settings.seconds = 60; /* on a busy machine, too */
    return settings;
}

static inline kmip_client *opened(const kmip_settings *settings) {
    char error[300];
    kmip_client *client = kmip_open(settings, error, sizeof error);
    if (client) return client;
    printf("FAILED  c: no connection: %s\n", error);
    exit(1);
}

/* Servers that keep silent do so for ever: what ends within these seconds has ended by itself. */
#define LONG_WAIT 100

static inline double seconds_now(void) {
    struct timespec at;
    clock_gettime(CLOCK_MONOTONIC, &at);
    return (double)at.tv_sec + (double)at.tv_nsec / 1e9;
}

/* How many checks have failed. */
static int failed;

/* What main returns. */
static inline int outcome(void) {
    return fflush(stdout) != 0 || failed != 0;
}

static inline void check(bool holds, const char *what) {
    failed += !holds;
    printf("%s c: %s\n", holds ? "ok     " : "FAILED ", what);
}

/* The same, with what came in place of it. */
static inline void check_text(const char *found, const char *wanted, const char *what) {
    bool same = found && strcmp(found, wanted) == 0;
    check(same, what);
    if (!same) printf("        %s in place of %s\n", found ? found : "nothing", wanted);
}

#endif
