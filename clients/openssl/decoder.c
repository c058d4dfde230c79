/* A PEM file that holds a kmip: URI in place of a key, for programs that read keys from files alone:

       -----BEGIN KMIP KEY URI-----
       (the URI in base64)
       -----END KMIP KEY URI----- */
#include "provider.h"

#include <openssl/crypto.h>
#include <string.h>

#define MOST 4096
#define LINE 1024
static const char begins[] = "-----BEGIN KMIP KEY URI-----", ends[] = "-----END ";

static void *decoder_new(void *context) {
    return context;
}

static void decoder_free(void *given) {
    (void)given;
}

static bool starts_with(const char *line, const char *start) {
    return strncmp(line, start, strlen(start)) == 0;
}

static bool next_line(const provider *prov, OSSL_CORE_BIO *in, char line[LINE]) {
    return prov->gets(in, line, LINE) > 0;
}

/* Reads the first PEM block of a file to its end and no further, as OpenSSL's own decoders do, so
   that a file with several is read on. The lines within it are written to `into` where it is one
   of ours; where it is not, that is empty. */
static void read_block(const provider *prov, OSSL_CORE_BIO *in, char into[MOST]) {
    char line[LINE];
    size_t count = 0;
    bool ours = false;
    *into = 0;
    while (next_line(prov, in, line) && !starts_with(line, ends)) {
        size_t length = strlen(line);
        if (starts_with(line, begins))
            ours = true;
        else if (ours && count + length < MOST)
            count += OPENSSL_strlcpy(into + count, line, MOST - count);
    }
    OPENSSL_cleanse(line, sizeof line);
}

/* The text that base64 stands for; false where it is none. */
static bool read_base64(const char *text, char into[MOST]) {
    int count = 0, more = 0;
    EVP_ENCODE_CTX *context = EVP_ENCODE_CTX_new();
    if (!context) return false;
    uint8_t *bytes = (uint8_t *)into;
    EVP_DecodeInit(context);
    bool good =
        EVP_DecodeUpdate(context, bytes, &count, (const uint8_t *)text, (int)strlen(text)) >= 0 &&
        EVP_DecodeFinal(context, bytes + count, &more) >= 0;
    EVP_ENCODE_CTX_free(context);
    into[good ? count + more : 0] = 0;
    return good && *into && strlen(into) == (size_t)count + (size_t)more;
}

static int wanted(int selection) {
    bool whole = !selection || (selection & OSSL_KEYMGMT_SELECT_PRIVATE_KEY);
    return whole ? WANT_PRIVATE : WANT_PUBLIC;
}

/* What is another file is left to other decoders: that is success with nothing handed over. */
static int decode(void *given, OSSL_CORE_BIO *in, int selection, OSSL_CALLBACK *take, void *taker,
                  OSSL_PASSPHRASE_CALLBACK *ask, void *asked) {
    provider *prov = given;
    char text[MOST], into[MOST];
    uri from;
    object what;
    (void)ask;
    (void)asked;
    read_block(prov, in, text);
    if (!*text) return 1;
    if (!read_base64(text, into))
        return RAISE(prov, REASON_URI, "the PEM file has no base64 of a URI");
    if (!uri_read(prov, into, &from)) return 0;
    bool done = find(prov, &from, wanted(selection), &what);
    uri_free(&from);
    if (!done) return 0;
    int taken = object_hand_over(&what, take, taker);
    object_free(&what);
    return taken;
}

static const OSSL_DISPATCH functions[] = {FUNCTION(OSSL_FUNC_DECODER_NEWCTX, decoder_new),
                                          FUNCTION(OSSL_FUNC_DECODER_FREECTX, decoder_free),
                                          FUNCTION(OSSL_FUNC_DECODER_DECODE, decode),
                                          END_OF_FUNCTIONS};

/* OpenSSL has all decoders of PEM try a file, whatever the algorithm of each. So one hands over keys
   of both, and no server is asked twice where it fails. */
const OSSL_ALGORITHM provider_decoders[] = {
    {RSA_NAMES, PROPERTIES ",input=pem", functions, "files with a kmip: URI"},
    {NULL, NULL, NULL, NULL}};
