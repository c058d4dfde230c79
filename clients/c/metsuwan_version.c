/* Which library this is. It is compiled into libmetsuwan, beside what is proved. */
#include "metsuwan.h"

/* The note that tools/build.py --unproved leaves in what it compiles. */
extern const char kmip_not_proved[] __attribute__((weak, visibility("hidden")));

/* What `make library` is told of what it is given. */
#ifndef PROOF
#define PROOF "proof unknown"
#endif

const char *kmip_version(void) {
    return kmip_not_proved ? METSUWAN_VERSION ", not proved" : METSUWAN_VERSION ", " PROOF;
}
