/* How much memory a call with large data takes: room HOST PORT CERTIFICATE KEY AUTHORITY, where the
   server answers with the length and the digest of what is signed. It is built without sanitizers,
   which keep what is freed. */
#define _DEFAULT_SOURCE
#include "testing.h"

#include <sys/resource.h>

enum { COUNT = 20000000, MOST_KIB = 130000000 / 1024 };

/* The most memory that the process has had, in KiB. */
static long most_memory(void) {
    struct rusage usage;
    return getrusage(RUSAGE_SELF, &usage) == 0 ? usage.ru_maxrss : -1;
}

int main(int argc, char **argv) {
    if (argc < 6) return 2;
    kmip_settings settings = settings_of(argv);
    settings.seconds = 600; /* the server is one of Python */
    kmip_client *client = opened(&settings);
    uint8_t *data = malloc(COUNT);
    if (!data) return 2;
    for (size_t i = 0; i < COUNT; i++)
        data[i] = (uint8_t)(i >> 8);
    const kmip_word words[] = {kmip_text_word("k"), kmip_data_word(data, COUNT)};
    double from = seconds_now();
    check(kmip_call_array(client, "sign", words, 2) == KMIP_ANSWERED, "20 MB are signed");
    double seconds = seconds_now() - from;
    long most = most_memory();
    const uint8_t *came = kmip_bytes(client, "signature_data", NULL);
    check(came && memcmp(came, "20000000 ", 9) == 0, "which came");
    check(most > 0 && most <= MOST_KIB, "with at most 130 MB of memory in all");
    printf("        %ld KiB, %.2f seconds\n", most, seconds);
    free(data);
    kmip_close(client);
    return outcome();
}
