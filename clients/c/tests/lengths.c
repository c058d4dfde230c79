/* How long a response is whose head announces so many bytes, at the bounds of a size_t of 64 and of
   32 bits: lengths BITS. It needs neither OpenSSL nor the library. */
#define _POSIX_C_SOURCE 200809L
#include "metsuwan_internal.h"
#include "testing.h"

static const struct {
    int bits;
    uint64_t more;
    uint64_t length; /* 0: there is none */
    const char *what;
} rows[] = {
    {32, 0, 0x8, "of a head alone"},
    {32, 0xFFFFFFF7, 0xFFFFFFFF, "the longest there is"},
    {32, 0xFFFFFFF8, 0, "one byte more"},
    {32, 0xFFFFFFFF, 0, "the most that a head can announce"},
    {64, 0, 0x8, "of a head alone"},
    {64, 0xFFFFFFF7, 0xFFFFFFFF, "the longest of 32 bits"},
    {64, 0xFFFFFFF8, 0x100000000, "one byte more"},
    {64, 0xFFFFFFFF, 0x100000007, "the most that a head can announce"},
    {64, 0xFFFFFFFFFFFFFFF7, 0xFFFFFFFFFFFFFFFF, "the longest there is"},
    {64, 0xFFFFFFFFFFFFFFF8, 0, "one byte more than that"},
    {64, 0xFFFFFFFFFFFFFFFF, 0, "the most that a number has"},
};

int main(int argc, char **argv) {
    int bits = argc == 2 ? atoi(argv[1]) : 0;
    char what[100];
    snprintf(what, sizeof what, "a size_t of %d bits", bits);
    check(sizeof(size_t) * 8 == (size_t)bits, what);
    for (size_t i = 0; i < sizeof rows / sizeof *rows; i++) {
        if (rows[i].bits != bits) continue;
        size_t length = 0;
        bool has_one = kmip_response_len(rows[i].more, &length);
        snprintf(what, sizeof what, "a response with %d bits: %s", bits, rows[i].what);
        check(has_one == (rows[i].length != 0) && length == rows[i].length, what);
    }
    return outcome();
}
