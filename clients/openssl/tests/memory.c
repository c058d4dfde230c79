/* Memory that runs out under a program with a key of a URI: each request for it is refused once.

       memory own URI        those of the provider's own sources, in a session from its loading to
                             its end
       memory all URI STEP   each STEPth one of the whole process, in a signature by a connection
                             that is open, with all that OpenSSL and the library do; by -DALL

   It signs, or there is an error; and then it signs again. */
#include <openssl/conf.h>
#include <openssl/crypto.h>
#include <openssl/err.h>
#include <openssl/evp.h>
#include <openssl/provider.h>
#include <openssl/store.h>
#include <openssl/x509.h>
#include <stdbool.h>
#include <stdint.h>
#include <stdio.h>
#include <stdlib.h>
#include <string.h>

#define MOST 100000
static long asked, refused;
static bool counts, was_refused;

static bool refuses(void) {
    if (!counts || ++asked != refused) return false;
    was_refused = true;
    return true;
}

#ifdef ALL
/* In the place of the C library's, for all libraries of the process. */
extern void *__libc_malloc(size_t size);
extern void *__libc_calloc(size_t count, size_t size);
extern void *__libc_realloc(void *old, size_t size);

void *malloc(size_t size) {
    return refuses() ? NULL : __libc_malloc(size);
}

void *calloc(size_t count, size_t size) {
    return refuses() ? NULL : __libc_calloc(count, size);
}

void *realloc(void *old, size_t size) {
    return refuses() ? NULL : __libc_realloc(old, size);
}

static bool prepare(void) {
    return true;
}
#else
/* The provider's sources were compiled by names without a folder, and no other was. */
static bool refuses_own(const char *file) {
    return file && *file && !strchr(file, '/') && refuses();
}

static void *own_malloc(size_t size, const char *file, int line) {
    (void)line;
    return refuses_own(file) ? NULL : malloc(size);
}

static void *own_realloc(void *old, size_t size, const char *file, int line) {
    (void)line;
    return refuses_own(file) ? NULL : realloc(old, size);
}

static void own_free(void *block, const char *file, int line) {
    (void)file;
    (void)line;
    free(block);
}

static bool prepare(void) {
    return CRYPTO_set_mem_functions(own_malloc, own_realloc, own_free);
}
#endif

static EVP_PKEY *load(OSSL_LIB_CTX *in, const char *uri) {
    OSSL_STORE_CTX *store = OSSL_STORE_open_ex(uri, in, NULL, NULL, NULL, NULL, NULL, NULL);
    EVP_PKEY *found = NULL;
    while (store && !found && !OSSL_STORE_eof(store)) {
        OSSL_STORE_INFO *info = OSSL_STORE_load(store);
        if (info) found = OSSL_STORE_INFO_get1_PKEY(info);
        OSSL_STORE_INFO_free(info);
        if (!info && OSSL_STORE_error(store)) break;
    }
    OSSL_STORE_close(store);
    return found;
}

/* Signs "abcdef", by a context that is copied between its parts. */
static size_t sign(OSSL_LIB_CTX *in, EVP_PKEY *key, uint8_t *made, size_t room) {
    EVP_MD_CTX *one = EVP_MD_CTX_new(), *two = EVP_MD_CTX_new();
    bool done = one && two && EVP_DigestSignInit_ex(one, NULL, "SHA256", in, NULL, key, NULL) > 0 &&
                EVP_DigestSignUpdate(one, "abc", 3) > 0 && EVP_MD_CTX_copy_ex(two, one) > 0 &&
                EVP_DigestSignUpdate(two, "def", 3) > 0 &&
                EVP_DigestSignFinal(two, made, &room) > 0;
    EVP_MD_CTX_free(one);
    EVP_MD_CTX_free(two);
    return done ? room : 0;
}

/* By the default provider, with memory enough. */
static bool verifies(EVP_PKEY *key, const uint8_t *made, size_t length) {
    unsigned char *der = NULL;
    int count = i2d_PUBKEY(key, &der);
    const unsigned char *at = der;
    EVP_PKEY *public = count > 0 ? d2i_PUBKEY(NULL, &at, count) : NULL;
    EVP_MD_CTX *context = EVP_MD_CTX_new();
    bool good = public &&
                EVP_DigestVerifyInit_ex(context, NULL, "SHA256", NULL, NULL, public, NULL) > 0 &&
                EVP_DigestVerify(context, made, length, (const uint8_t *)"abcdef", 6) == 1;
    EVP_MD_CTX_free(context);
    EVP_PKEY_free(public);
    OPENSSL_free(der);
    return good;
}

typedef enum { WRONG, ERROR, SILENT, SIGNED } outcome;

static outcome load_and_sign(OSSL_LIB_CTX *in, const char *uri) {
    uint8_t made[1024];
    ERR_clear_error();
    EVP_PKEY *key = load(in, uri);
    size_t length = key ? sign(in, key, made, sizeof made) : 0;
    counts = false;
    outcome result = !length                       ? (ERR_peek_error() ? ERROR : SILENT)
                     : verifies(key, made, length) ? SIGNED
                                                   : WRONG;
    EVP_PKEY_free(key);
    return result;
}

/* A session with the request of this number refused; 0: none. */
static outcome session(const char *uri, long number, bool whole) {
    OSSL_LIB_CTX *in = NULL;
    outcome result = ERROR;
    asked = 0;
    refused = number;
    was_refused = false;
    if (whole) in = OSSL_LIB_CTX_new();
    counts = true;
    /* (OpenSSL keeps errors of openssl.cnf to itself) */
    if (whole) OSSL_LIB_CTX_load_config(in, getenv("OPENSSL_CONF"));
    if (OSSL_PROVIDER_available(in, "metsuwan")) result = load_and_sign(in, uri);
    counts = false;
    OSSL_LIB_CTX_free(in);
    return result;
}

static int check(const char *what, bool good) {
    printf("%s  openssl: %s\n", good ? "ok    " : "FAILED", what);
    if (!good) ERR_print_errors_fp(stdout);
    return !good;
}

/* Refuses each STEPth request, and says what came of it: how many checks failed. */
static int refuse_in_turn(const char *uri, long step, bool whole) {
    long counted[4] = {0}, at[4] = {0}, tried = 0, number = 1;
    int failed = 0;
    for (was_refused = true; was_refused && number < MOST; number += step) {
        outcome result = session(uri, number, whole);
        counted[result] += was_refused;
        at[result] = number;
        tried += was_refused;
        if (tried % 100 == 0) failed += session(uri, 0, whole) != SIGNED;
    }
    printf("        refused in turn, up to number %ld: %ld; %ld errors, %ld without a text, "
           "%ld signatures\n",
           number, tried, counted[ERROR], counted[SILENT], counted[SIGNED]);
    failed += check("requests for memory are refused in turn", tried > 15 && number < MOST);
    failed += check("no signature is given out that is none", !counted[WRONG]);
    if (counted[WRONG]) printf("        but by number %ld\n", at[WRONG]);
    if (whole) failed += check("each refusal is an error with a text", counted[ERROR] == tried);
    return failed;
}

int main(int argc, char **argv) {
    /* (the provider of the default context is loaded before: it is none of a session's) */
    bool ready = prepare() && OPENSSL_init_crypto(OPENSSL_INIT_LOAD_CONFIG, NULL);
    if (!ready || argc < 3) return 2;
    bool whole = strcmp(argv[1], "own") == 0;
    long step = argc > 3 ? atol(argv[3]) : 1;
    int failed = check("with memory enough it signs", session(argv[2], 0, whole) == SIGNED);
    if (!failed) failed = refuse_in_turn(argv[2], step > 0 ? step : 1, whole);
    failed += check("and then it signs again", session(argv[2], 0, whole) == SIGNED);
    return failed != 0;
}
