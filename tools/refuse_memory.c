/* Loaded before the C library: counts the requests for memory, and refuses the one whose number REFUSE gives, from 1. */
#define _GNU_SOURCE
#include <dlfcn.h>
#include <errno.h>
#include <stdio.h>
#include <stdlib.h>
#include <unistd.h>

static long asked, refused = -1;

static int refuses(void) {
    if (refused < 0) {
        const char *text = getenv("REFUSE");
        refused = text ? atol(text) : 0;
    }
    return ++asked == refused;
}

#define NEXT(name) ((__typeof__(&name))dlsym(RTLD_NEXT, #name))

void *malloc(size_t size) {
    static void *(*next)(size_t);
    if (!next) next = NEXT(malloc);
    return refuses() ? NULL : next(size);
}

void *realloc(void *old, size_t size) {
    static void *(*next)(void *, size_t);
    if (!next) next = NEXT(realloc);
    return refuses() ? NULL : next(old, size);
}

void *aligned_alloc(size_t align, size_t size) {
    static void *(*next)(size_t, size_t);
    if (!next) next = NEXT(aligned_alloc);
    return refuses() ? NULL : next(align, size);
}

int posix_memalign(void **place, size_t align, size_t size) {
    static int (*next)(void **, size_t, size_t);
    if (!next) next = NEXT(posix_memalign);
    return refuses() ? ENOMEM : next(place, align, size);
}

__attribute__((destructor)) static void tell(void) {
    const char *path = getenv("COUNTED");
    FILE *file = path ? fopen(path, "w") : NULL;
    if (file) {
        fprintf(file, "%ld", asked);
        fclose(file);
    }
}
