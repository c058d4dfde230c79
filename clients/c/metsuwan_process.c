/* Which process this is: what a fork has made is another one, and has none of its parent's
   connections. */
#define _POSIX_C_SOURCE 200809L
#include "metsuwan_internal.h"

#include <pthread.h>
#include <stdatomic.h>
#include <unistd.h>

/* How many forks this process is from the one that counted first. A process number alone may come
   again; and a fork that is made without the C library is not counted, but has another number. */
static atomic_uint forks;
static pthread_once_t once = PTHREAD_ONCE_INIT;
static bool counts;

static void in_child(void) {
    atomic_fetch_add(&forks, 1);
}

static void begin(void) {
    counts = pthread_atfork(NULL, NULL, in_child) == 0;
}

bool kmip_process_here(kmip_process *into) {
    if (pthread_once(&once, begin) != 0 || !counts) return false;
    *into = (kmip_process){.number = getpid(), .forks = atomic_load(&forks)};
    return true;
}

bool kmip_process_is(const kmip_process *process) {
    return process->number == getpid() && process->forks == atomic_load(&forks);
}
