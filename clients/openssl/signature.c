/* Signatures: data is kept until it is whole, and then the server signs it. Each signature is
   verified before it is given out. */
#include "provider.h"

#include <openssl/crypto.h>
#include <openssl/err.h>
#include <openssl/rsa.h>
#include <string.h>

static void *signature_new(void *context, const char *properties) {
    signature *ctx = OPENSSL_zalloc(sizeof *ctx);
    (void)properties;
    if (!ctx) return NULL;
    ctx->provider = context;
    ctx->padding = RSA_PKCS1_PADDING;
    ctx->salt = RSA_PSS_SALTLEN_AUTO;
    return ctx;
}

static void forget(signature *ctx) {
    OPENSSL_clear_free(ctx->data, ctx->room);
    ctx->data = NULL;
    ctx->count = ctx->room = 0;
}

static void signature_free(void *given) {
    signature *ctx = given;
    if (!ctx) return;
    forget(ctx);
    key_free(ctx->key);
    OPENSSL_free(ctx);
}

static void *signature_dup(void *given) {
    const signature *ctx = given;
    signature *copy = OPENSSL_memdup(ctx, sizeof *ctx);
    if (!copy) return NULL;
    if (copy->key) key_take(copy->key);
    copy->room = ctx->count;
    copy->data = ctx->count ? OPENSSL_memdup(ctx->data, ctx->count) : NULL;
    if (!ctx->count || copy->data) return copy;
    copy->count = copy->room = 0;
    signature_free(copy);
    return NULL;
}

manner signature_manner(const signature *ctx) {
    return ctx->key && ctx->key->type == TYPE_EC   ? BY_ECDSA
           : ctx->padding == RSA_PKCS1_PSS_PADDING ? BY_PSS
                                                   : BY_PKCS1;
}

/* Operations over data */

static bool begin(signature *ctx, const char *name, private_key *key, const OSSL_PARAM params[]) {
    if (key) {
        key_take(key);
        key_free(ctx->key);
        ctx->key = key;
    }
    forget(ctx);
    if (!ctx->key || !ctx->key->public) return RAISE(ctx->provider, REASON_KEY, "no key is given");
    return signature_set_hash(ctx, name && *name ? name : "SHA256") && signature_set(ctx, params);
}

static int sign_data_init(void *given, const char *name, void *key, const OSSL_PARAM params[]) {
    signature *ctx = given;
    if (!begin(ctx, name, key, params)) return 0;
    return ctx->key->id || RAISE(ctx->provider, REASON_KEY, "a public key does not sign");
}

static int verify_data_init(void *given, const char *name, void *key, const OSSL_PARAM params[]) {
    return begin(given, name, key, params);
}

static bool has_room(signature *ctx, size_t more) {
    if (more <= ctx->room - ctx->count) return true;
    size_t room = ctx->room ? 2 * ctx->room : 1024;
    while (room - ctx->count < more && room < SIZE_MAX / 4)
        room *= 2;
    bool enough = room - ctx->count >= more;
    uint8_t *data = enough ? OPENSSL_clear_realloc(ctx->data, ctx->room, room) : NULL;
    if (!data) return RAISE(ctx->provider, REASON_MEMORY, "the data to sign");
    ctx->data = data;
    ctx->room = room;
    return true;
}

static int update(void *given, const unsigned char *data, size_t count) {
    signature *ctx = given;
    if (!count) return 1;
    if (!has_room(ctx, count)) return 0;
    memcpy(ctx->data + ctx->count, data, count);
    ctx->count += count;
    return 1;
}

/* Verifies by OpenSSL's own RSA or ECDSA; a salt may be RSA_PSS_SALTLEN_AUTO, for any length. */
static bool verifies(const signature *ctx, const uint8_t *data, size_t count, const uint8_t *made,
                     size_t length, int salt) {
    EVP_MD_CTX *digest = EVP_MD_CTX_new();
    EVP_PKEY_CTX *how = NULL;
    bool good = digest && EVP_DigestVerifyInit_ex(digest, &how, ctx->hash->name, ctx->provider->own,
                                                  NULL, ctx->key->public, NULL) > 0;
    if (signature_manner(ctx) != BY_ECDSA)
        good = good && EVP_PKEY_CTX_set_rsa_padding(how, ctx->padding) > 0;
    if (signature_manner(ctx) == BY_PSS)
        good = good && EVP_PKEY_CTX_set_rsa_pss_saltlen(how, salt) > 0;
    good = good && EVP_DigestVerify(digest, made, length, data, count) == 1;
    EVP_MD_CTX_free(digest);
    return good;
}

/* Whether the server's signature is one of the data, by the public key; else an error is raised. */
static bool is_good(const signature *ctx, const uint8_t *data, size_t count, const uint8_t *made,
                    size_t length) {
    bool pss = signature_manner(ctx) == BY_PSS;
    ERR_set_mark();
    bool good = verifies(ctx, data, count, made, length, pss ? signature_salt(ctx) : 0);
    bool other_salt =
        !good && pss && verifies(ctx, data, count, made, length, RSA_PSS_SALTLEN_AUTO);
    ERR_pop_to_mark();
    if (good) return true;
    if (other_salt)
        return RAISE(
            ctx->provider, REASON_SIGNATURE,
            "by the key %s: its PSS salt has not %d bytes; set pss_salt to what the server "
            "makes, digest or max",
            ctx->key->id, signature_salt(ctx));
    return RAISE(ctx->provider, REASON_SIGNATURE,
                 "by the key %s: is the public key that was found for it another's?", ctx->key->id);
}

static int sign_data(void *given, unsigned char *into, size_t *length, size_t room,
                     const unsigned char *data, size_t count) {
    static const uint8_t none[1];
    const signature *ctx = given;
    *length = (size_t)EVP_PKEY_get_size(ctx->key->public);
    if (!into) return 1;
    if (room < *length)
        return RAISE(ctx->provider, REASON_PARAMETERS,
                     "the signature has %zu bytes, and room is for "
                     "%zu",
                     *length, room);
    const char *padding = ctx->padding == RSA_PKCS1_PADDING ? "PKCS1_v1_5" : "PSS";
    if (!data) data = none;
    if (!signature_salt_can_be(ctx) ||
        !key_sign(ctx->key, ctx->hash->name, padding, data, count, into, room, length))
        return 0;
    if (is_good(ctx, data, count, into, *length)) return 1;
    OPENSSL_cleanse(into, *length);
    return 0;
}

static int sign_data_final(void *given, unsigned char *into, size_t *length, size_t room) {
    const signature *ctx = given;
    return sign_data(given, into, length, room, ctx->data, ctx->count);
}

static int verify_data(void *given, const unsigned char *made, size_t length,
                       const unsigned char *data, size_t count) {
    const signature *ctx = given;
    return verifies(ctx, data, count, made, length, ctx->salt);
}

static int verify_data_final(void *given, const unsigned char *made, size_t length) {
    const signature *ctx = given;
    return verify_data(given, made, length, ctx->data, ctx->count);
}

/* Operations over a digest: there are none. */
static int sign_init(void *given, void *key, const OSSL_PARAM params[]) {
    const signature *ctx = given;
    (void)key;
    (void)params;
    return RAISE(ctx->provider, REASON_DIGEST_ALONE,
                 "Sign of KMIP 1.2 takes the data itself: use EVP_DigestSign in place of "
                 "EVP_PKEY_sign");
}

/* OpenSSL takes no signature that has the one and not the other. */
static int sign(void *given, unsigned char *into, size_t *length, size_t room,
                const unsigned char *digest, size_t count) {
    (void)into;
    (void)length;
    (void)room;
    (void)digest;
    (void)count;
    return sign_init(given, NULL, NULL);
}

static const OSSL_DISPATCH functions[] = {
    FUNCTION(OSSL_FUNC_SIGNATURE_NEWCTX, signature_new),
    FUNCTION(OSSL_FUNC_SIGNATURE_FREECTX, signature_free),
    FUNCTION(OSSL_FUNC_SIGNATURE_DUPCTX, signature_dup),
    FUNCTION(OSSL_FUNC_SIGNATURE_SIGN_INIT, sign_init),
    FUNCTION(OSSL_FUNC_SIGNATURE_SIGN, sign),
    FUNCTION(OSSL_FUNC_SIGNATURE_DIGEST_SIGN_INIT, sign_data_init),
    FUNCTION(OSSL_FUNC_SIGNATURE_DIGEST_SIGN_UPDATE, update),
    FUNCTION(OSSL_FUNC_SIGNATURE_DIGEST_SIGN_FINAL, sign_data_final),
    FUNCTION(OSSL_FUNC_SIGNATURE_DIGEST_SIGN, sign_data),
    FUNCTION(OSSL_FUNC_SIGNATURE_DIGEST_VERIFY_INIT, verify_data_init),
    FUNCTION(OSSL_FUNC_SIGNATURE_DIGEST_VERIFY_UPDATE, update),
    FUNCTION(OSSL_FUNC_SIGNATURE_DIGEST_VERIFY_FINAL, verify_data_final),
    FUNCTION(OSSL_FUNC_SIGNATURE_DIGEST_VERIFY, verify_data),
    FUNCTION(OSSL_FUNC_SIGNATURE_GET_CTX_PARAMS, signature_get),
    FUNCTION(OSSL_FUNC_SIGNATURE_GETTABLE_CTX_PARAMS, signature_gettable),
    FUNCTION(OSSL_FUNC_SIGNATURE_SET_CTX_PARAMS, signature_set),
    FUNCTION(OSSL_FUNC_SIGNATURE_SETTABLE_CTX_PARAMS, signature_settable),
    END_OF_FUNCTIONS};

const OSSL_ALGORITHM provider_signatures[] = {
    {SIGNATURE_RSA, PROPERTIES, functions, "signatures of RSA by a KMIP server"},
    {SIGNATURE_EC, PROPERTIES, functions, "signatures of ECDSA by a KMIP server"},
    {NULL, NULL, NULL, NULL}};
