/* The parameters of signatures: hash, padding and salt. */
#include "provider.h"

#include <openssl/bio.h>
#include <openssl/core_names.h>
#include <openssl/params.h>
#include <openssl/rsa.h>
#include <stdlib.h>
#include <string.h>

/* A salt as long as the digest, or as the key allows where that is less; OpenSSL has the name from
   3.1 on. */
#ifndef RSA_PSS_SALTLEN_AUTO_DIGEST_MAX
#define RSA_PSS_SALTLEN_AUTO_DIGEST_MAX (-4)
#endif

static const struct {
    const char *name;
    int salt;
} salts[] = {{"digest", RSA_PSS_SALTLEN_DIGEST},
             {"max", RSA_PSS_SALTLEN_MAX},
             {"auto", RSA_PSS_SALTLEN_AUTO},
             {"auto-digestmax", RSA_PSS_SALTLEN_AUTO_DIGEST_MAX}};
#define SALTS (sizeof salts / sizeof *salts)

static int padding_of(const OSSL_PARAM *param) {
    int number = 0;
    const char *text = NULL;
    if (param->data_type == OSSL_PARAM_INTEGER)
        return OSSL_PARAM_get_int(param, &number) ? number : 0;
    if (!OSSL_PARAM_get_utf8_string_ptr(param, &text)) return 0;
    if (strcmp(text, OSSL_PKEY_RSA_PAD_MODE_PKCSV15) == 0) return RSA_PKCS1_PADDING;
    return strcmp(text, OSSL_PKEY_RSA_PAD_MODE_PSS) == 0 ? RSA_PKCS1_PSS_PADDING : 0;
}

static bool set_padding(signature *ctx, const OSSL_PARAM *param) {
    int padding = padding_of(param);
    if (padding != RSA_PKCS1_PADDING && padding != RSA_PKCS1_PSS_PADDING)
        return RAISE(ctx->provider, REASON_PARAMETERS,
                     "the padding; PKCS #1 v1.5 (pkcs1) and PSS (pss) can be");
    ctx->padding = padding;
    return true;
}

/* A number of bytes, or one of OpenSSL's numbers for a rule, which are less than 0. */
static bool salt_of(const OSSL_PARAM *param, int *salt) {
    const char *text = NULL;
    char *end = NULL;
    if (param->data_type == OSSL_PARAM_INTEGER) return OSSL_PARAM_get_int(param, salt);
    if (!OSSL_PARAM_get_utf8_string_ptr(param, &text)) return false;
    for (size_t i = 0; i < SALTS; i++) {
        if (strcmp(text, salts[i].name) != 0) continue;
        *salt = salts[i].salt;
        return true;
    }
    long number = strtol(text, &end, 10);
    *salt = number >= RSA_PSS_SALTLEN_AUTO_DIGEST_MAX && number <= 0x7FFF ? (int)number : 0x8000;
    return *text && !*end;
}

static bool set_salt(signature *ctx, const OSSL_PARAM *param) {
    int salt = 0;
    if (!salt_of(param, &salt) || salt < RSA_PSS_SALTLEN_AUTO_DIGEST_MAX || salt > 0x7FFF)
        return RAISE(ctx->provider, REASON_PARAMETERS,
                     "the length of the salt; digest, max, auto and 0 to 32767 can be");
    ctx->salt = salt;
    return true;
}

bool signature_set_hash(signature *ctx, const char *name) {
    const hash *of = hash_of(ctx->provider, name);
    if (of) ctx->hash = of;
    return of != NULL;
}

/* The hash of PSS's mask is that of the data, since KMIP 1.2 has one hash alone. */
static bool set_mask(const signature *ctx, const OSSL_PARAM *param) {
    const char *name = NULL;
    if (!OSSL_PARAM_get_utf8_string_ptr(param, &name)) return false;
    const hash *of = hash_of(ctx->provider, name);
    if (!of || of == ctx->hash) return of != NULL;
    return RAISE(ctx->provider, REASON_PARAMETERS, "a hash of its own for the mask of PSS");
}

int signature_set(void *given, const OSSL_PARAM params[]) {
    signature *ctx = given;
    if (!params) return 1;
    const OSSL_PARAM *by_hash = OSSL_PARAM_locate_const(params, OSSL_SIGNATURE_PARAM_DIGEST);
    const OSSL_PARAM *padding = OSSL_PARAM_locate_const(params, OSSL_SIGNATURE_PARAM_PAD_MODE);
    const OSSL_PARAM *salt = OSSL_PARAM_locate_const(params, OSSL_SIGNATURE_PARAM_PSS_SALTLEN);
    const OSSL_PARAM *mask = OSSL_PARAM_locate_const(params, OSSL_SIGNATURE_PARAM_MGF1_DIGEST);
    const char *name = NULL;
    if (by_hash &&
        !(OSSL_PARAM_get_utf8_string_ptr(by_hash, &name) && signature_set_hash(ctx, name)))
        return 0;
    if ((padding || salt || mask) && signature_manner(ctx) == BY_ECDSA)
        return RAISE(ctx->provider, REASON_PARAMETERS, "ECDSA has no padding");
    return (!padding || set_padding(ctx, padding)) && (!salt || set_salt(ctx, salt)) &&
           (!mask || set_mask(ctx, mask));
}

const OSSL_PARAM *signature_settable(void *given, void *context) {
    static const OSSL_PARAM known[] = {
        OSSL_PARAM_utf8_string(OSSL_SIGNATURE_PARAM_DIGEST, NULL, 0),
        OSSL_PARAM_utf8_string(OSSL_SIGNATURE_PARAM_PAD_MODE, NULL, 0),
        OSSL_PARAM_utf8_string(OSSL_SIGNATURE_PARAM_PSS_SALTLEN, NULL, 0),
        OSSL_PARAM_utf8_string(OSSL_SIGNATURE_PARAM_MGF1_DIGEST, NULL, 0), OSSL_PARAM_END};
    (void)given;
    (void)context;
    return known;
}

static int longest_salt(const signature *ctx) {
    return (EVP_PKEY_get_bits(ctx->key->public) + 6) / 8 - ctx->hash->size - 2;
}

/* The length of the salts that the server makes. */
static int made_salt(const signature *ctx) {
    return ctx->provider->settings.salts_are_max ? longest_salt(ctx) : ctx->hash->size;
}

int signature_salt(const signature *ctx) {
    int longest = longest_salt(ctx);
    switch (ctx->salt) {
    case RSA_PSS_SALTLEN_DIGEST: return ctx->hash->size;
    case RSA_PSS_SALTLEN_MAX: return longest;
    case RSA_PSS_SALTLEN_AUTO_DIGEST_MAX:
        return ctx->hash->size < longest ? ctx->hash->size : longest;
    default: return ctx->salt < 0 ? made_salt(ctx) : ctx->salt;
    }
}

bool signature_salt_can_be(const signature *ctx) {
    if (signature_manner(ctx) != BY_PSS || signature_salt(ctx) == made_salt(ctx)) return true;
    return RAISE(
        ctx->provider, REASON_PARAMETERS,
        "a PSS salt of %d bytes: by pss_salt the server makes %d, and KMIP 1.2 has no item "
        "to ask for another",
        signature_salt(ctx), made_salt(ctx));
}

static int give_identifier(const signature *ctx, OSSL_PARAM *into) {
    uint8_t bytes[128];
    if (!ctx->hash || !ctx->key || !signature_salt_can_be(ctx)) return 0;
    manner by = signature_manner(ctx);
    int salt = by == BY_PSS ? signature_salt(ctx) : 0;
    size_t count = hash_identify(ctx->hash, by, salt, bytes, sizeof bytes);
    return count && OSSL_PARAM_set_octet_string(into, bytes, count);
}

static int give_named(OSSL_PARAM *into, int number, const char *name) {
    if (into->data_type == OSSL_PARAM_INTEGER) return OSSL_PARAM_set_int(into, number);
    return OSSL_PARAM_set_utf8_string(into, name);
}

static int give_salt(const signature *ctx, OSSL_PARAM *into) {
    char digits[12];
    if (BIO_snprintf(digits, sizeof digits, "%d", ctx->salt) < 0) return 0;
    const char *name = digits;
    for (size_t i = 0; i < SALTS; i++)
        if (salts[i].salt == ctx->salt) name = salts[i].name;
    return give_named(into, ctx->salt, name);
}

int signature_get(void *given, OSSL_PARAM params[]) {
    const signature *ctx = given;
    if (!params) return 1;
    OSSL_PARAM *identifier = OSSL_PARAM_locate(params, OSSL_SIGNATURE_PARAM_ALGORITHM_ID);
    OSSL_PARAM *padding = OSSL_PARAM_locate(params, OSSL_SIGNATURE_PARAM_PAD_MODE);
    OSSL_PARAM *by_hash = OSSL_PARAM_locate(params, OSSL_SIGNATURE_PARAM_DIGEST);
    OSSL_PARAM *mask = OSSL_PARAM_locate(params, OSSL_SIGNATURE_PARAM_MGF1_DIGEST);
    OSSL_PARAM *salt = OSSL_PARAM_locate(params, OSSL_SIGNATURE_PARAM_PSS_SALTLEN);
    const char *name = ctx->hash ? ctx->hash->name : "";
    const char *mode = ctx->padding == RSA_PKCS1_PADDING ? OSSL_PKEY_RSA_PAD_MODE_PKCSV15
                                                         : OSSL_PKEY_RSA_PAD_MODE_PSS;
    return (!identifier || give_identifier(ctx, identifier)) &&
           (!padding || give_named(padding, ctx->padding, mode)) &&
           (!by_hash || OSSL_PARAM_set_utf8_string(by_hash, name)) &&
           (!mask || OSSL_PARAM_set_utf8_string(mask, name)) && (!salt || give_salt(ctx, salt));
}

const OSSL_PARAM *signature_gettable(void *given, void *context) {
    static const OSSL_PARAM known[] = {
        OSSL_PARAM_octet_string(OSSL_SIGNATURE_PARAM_ALGORITHM_ID, NULL, 0),
        OSSL_PARAM_utf8_string(OSSL_SIGNATURE_PARAM_PAD_MODE, NULL, 0),
        OSSL_PARAM_utf8_string(OSSL_SIGNATURE_PARAM_DIGEST, NULL, 0),
        OSSL_PARAM_utf8_string(OSSL_SIGNATURE_PARAM_MGF1_DIGEST, NULL, 0),
        OSSL_PARAM_utf8_string(OSSL_SIGNATURE_PARAM_PSS_SALTLEN, NULL, 0),
        OSSL_PARAM_END};
    (void)given;
    (void)context;
    return known;
}
