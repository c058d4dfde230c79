/* Signatures a second: the library for C alone and the provider over it, in turn, a round of COUNT
   each, over a connection of each.

       rate HOST PORT CERTIFICATE KEY AUTHORITY ID URI COUNT

   Built with ../../c/metsuwan_[!mv]*.c and libmetsuwan.a. */
#define _POSIX_C_SOURCE 200809L
#include "metsuwan_tls.h"

#include <openssl/evp.h>
#include <openssl/store.h>
#include <stdbool.h>
#include <stdio.h>
#include <stdlib.h>
#include <time.h>

#define ROUNDS 5
static kmip_client *client;
static const char *id;
static EVP_PKEY *key;

static bool by_library(void) {
    size_t length = 0;
    return kmip_call(client, "sign", id, "68656C6C6F", "hash=SHA256", "padding=PKCS1_v1_5", NULL) ==
               KMIP_ANSWERED &&
           kmip_bytes(client, "signature_data", &length);
}

static bool by_provider(void) {
    uint8_t made[1024];
    size_t length = sizeof made;
    EVP_MD_CTX *context = EVP_MD_CTX_new();
    bool done = context &&
                EVP_DigestSignInit_ex(context, NULL, "SHA256", NULL, NULL, key, NULL) > 0 &&
                EVP_DigestSign(context, made, &length, (const uint8_t *)"hello", 5) > 0;
    EVP_MD_CTX_free(context);
    return done;
}

static EVP_PKEY *load(const char *uri) {
    OSSL_STORE_CTX *store = OSSL_STORE_open(uri, NULL, NULL, NULL, NULL);
    OSSL_STORE_INFO *info = store ? OSSL_STORE_load(store) : NULL;
    EVP_PKEY *found = info ? OSSL_STORE_INFO_get1_PKEY(info) : NULL;
    OSSL_STORE_INFO_free(info);
    OSSL_STORE_close(store);
    return found;
}

/* By the clock and by this process's own time. */
static double now(clockid_t clock) {
    struct timespec at = {0};
    clock_gettime(clock, &at);
    return (double)at.tv_sec + (double)at.tv_nsec / 1e9;
}

/* Adds a round to the least of its kind; false where a signature failed. */
static bool take_round(bool (*sign)(void), long count, double least[2]) {
    if (!sign()) return false;
    double from = now(CLOCK_MONOTONIC), own = now(CLOCK_PROCESS_CPUTIME_ID);
    for (long i = 0; i < count; i++)
        if (!sign()) return false;
    double each[2] = {(now(CLOCK_MONOTONIC) - from) / (double)count,
                      (now(CLOCK_PROCESS_CPUTIME_ID) - own) / (double)count};
    for (int i = 0; i < 2; i++)
        if (least[i] == 0 || each[i] < least[i]) least[i] = each[i];
    return true;
}

static void print_rates(const char *who, const double least[2]) {
    printf("openssl, %s: sign %.2f ms, %.0f a second; %.3f ms of its own time\n", who,
           1000 * least[0], 1 / least[0], 1000 * least[1]);
}

int main(int argc, char **argv) {
    if (argc != 9) return 2;
    char error[300];
    kmip_settings settings = kmip_defaults();
    settings.host = argv[1];
    settings.port = argv[2];
    settings.certificate = argv[3];
    settings.key = argv[4];
    settings.authority = argv[5];
    id = argv[6];
    key = load(argv[7]);
    client = kmip_open(&settings, error, sizeof error);
    double alone[2] = {0}, over[2] = {0};
    bool good = key && client;
    for (int i = 0; i < ROUNDS && good; i++)
        good = take_round(by_library, atol(argv[8]), alone) &&
               take_round(by_provider, atol(argv[8]), over);
    if (good) {
        print_rates("the library alone", alone);
        print_rates("the provider", over);
    }
    kmip_close(client);
    EVP_PKEY_free(key);
    return !good;
}
