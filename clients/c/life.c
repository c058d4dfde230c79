/* The life of a key: made, active, read, used, named anew, revoked, destroyed, gone.

   life HOST PORT CERTIFICATE KEY AUTHORITY FOLDER [COUNT]

   It leaves the public key (PKCS#1) in FOLDER as public.der and public.pem, and the signature of
   `hello` as signature. With a COUNT it also makes ten times so many queries and so many
   signatures, and says how long each took. */
#define _POSIX_C_SOURCE 200809L
#include "metsuwan_tls.h"
#include <stdio.h>
#include <stdlib.h>
#include <string.h>
#include <time.h>

#define HELLO "68656C6C6F"
#define KEY_BLOCK "cryptographic_object.PublicKey.key_block."

static kmip_client *client;

static void need(bool holds, const char *what) {
    if (holds) return;
    fprintf(stderr, "life: %s: %s\n", what, kmip_line(client));
    kmip_close(client);
    exit(1);
}

/* A text of the last answer, which stays. */
static void text_of(const char *path, char *into, size_t room) {
    const char *text = kmip_text(client, path, NULL);
    need(text && strlen(text) < room, path);
    snprintf(into, room, "%s", text);
}

static bool text_is(const char *path, const char *text) {
    const char *found = kmip_text(client, path, NULL);
    return found && strcmp(found, text) == 0;
}

static void save(const char *folder, const char *name, const void *bytes, size_t length) {
    char path[4096];
    need(bytes != NULL, name);
    int written = snprintf(path, sizeof path, "%s/%s", folder, name);
    need(written > 0 && (size_t)written < sizeof path, "the folder's name is too long");
    FILE *file = fopen(path, "wb");
    need(file != NULL, path);
    bool whole = fwrite(bytes, 1, length, file) == length;
    need(fclose(file) == 0 && whole, path);
}

static void timed(const char *what, long count, const char *const *words) {
    struct timespec from, to;
    clock_gettime(CLOCK_MONOTONIC, &from);
    for (long i = 0; i < count; i++)
        need(kmip_call_words(client, what, words) == KMIP_ANSWERED, what);
    clock_gettime(CLOCK_MONOTONIC, &to);
    double seconds = (double)(to.tv_sec - from.tv_sec) + (double)(to.tv_nsec - from.tv_nsec) / 1e9;
    printf("c, library: %s %.2f ms, %.0f a second\n", what, 1000 * seconds / (double)count,
           (double)count / seconds);
}

/* The public key and a signature, in files. */
static void save_results(const char *folder, const char *public_key, const char *private_key) {
    size_t length = 0;
    need(kmip_call(client, "get", public_key, NULL) == KMIP_ANSWERED, "get");
    need(text_is("object_type", "PublicKey"), "this is no public key");
    need(text_is(KEY_BLOCK "key_format_type", "PKCS1"), "it is not in PKCS#1");
    const uint8_t *bytes = kmip_bytes(client, KEY_BLOCK "key_value.key_material.Bytes", &length);
    save(folder, "public.der", bytes, length);
    const char *pem = kmip_pem(client);
    save(folder, "public.pem", pem, pem ? strlen(pem) : 0);
    need(kmip_call(client, "sign", private_key, HELLO, NULL) == KMIP_ANSWERED, "sign");
    bytes = kmip_bytes(client, "signature_data", &length);
    save(folder, "signature", bytes, length);
}

static void live(const char *folder, long count) {
    char private_key[100], public_key[100];
    need(kmip_call(client, "query", NULL) == KMIP_ANSWERED, "query");
    need(kmip_text(client, "operations.1", NULL) != NULL, "query names no operations");
    need(kmip_call(client, "create-rsa", "2048", "life, 100%", "life, public", NULL) ==
             KMIP_ANSWERED,
         "create-rsa");
    text_of("private_key", private_key, sizeof private_key);
    text_of("public_key", public_key, sizeof public_key);
    need(kmip_call(client, "activate", private_key, NULL) == KMIP_ANSWERED, "activate");
    save_results(folder, public_key, private_key);
    if (count > 0) {
        timed("query", 10 * count, (const char *const[]){NULL});
        timed("sign", count, (const char *const[]){private_key, HELLO, NULL});
    }
    need(kmip_call(client, "rename", private_key, "life, renamed", NULL) == KMIP_ANSWERED,
         "rename");
    need(text_is("unique_identifier", private_key), "another key was renamed");
    need(kmip_call(client, "revoke", private_key, NULL) == KMIP_ANSWERED, "revoke");
    need(kmip_call(client, "sign", private_key, HELLO, NULL) == KMIP_REFUSED,
         "a revoked key signs");
    need(kmip_text(client, "signature_data", NULL) == NULL, "an older answer is looked at");
    need(kmip_call(client, "destroy", private_key, NULL) == KMIP_ANSWERED, "destroy");
    need(kmip_call(client, "get", private_key, NULL) == KMIP_REFUSED, "a destroyed key is there");
    need(kmip_call(client, "query", NULL) == KMIP_ANSWERED, "query after a refusal");
}

int main(int argc, char **argv) {
    if (argc < 7) {
        fputs("{\"error\":\"GrammarError\",\"text\":\"usage: life HOST PORT CERTIFICATE KEY "
              "AUTHORITY FOLDER [COUNT]\"}\n",
              stderr);
        return 2;
    }
    kmip_settings settings = kmip_defaults();
    settings.host = argv[1];
    settings.port = argv[2];
    settings.certificate = argv[3];
    settings.key = argv[4];
    settings.authority = argv[5];
    char error[300];
    int status = kmip_connect(&settings, &client, error, sizeof error);
    if (status != KMIP_ANSWERED) {
        fprintf(stderr, "%s\n", error);
        return status;
    }
    live(argv[6], argc > 7 ? strtol(argv[7], NULL, 10) : 0);
    kmip_close(client);
    return 0;
}
