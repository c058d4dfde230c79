/* The loader of kmip: URIs: each is of one object. */
#include "provider.h"

#include <openssl/core_names.h>
#include <openssl/crypto.h>
#include <openssl/params.h>
#include <openssl/store.h>

typedef struct {
    provider *provider;
    uri uri;
    int expected; /* an OSSL_STORE_INFO_..; 0: anything */
    bool done;
} store;

static void *store_open(void *context, const char *text) {
    store *ctx = OPENSSL_zalloc(sizeof *ctx);
    if (!ctx) return NULL;
    ctx->provider = context;
    if (uri_read(ctx->provider, text, &ctx->uri)) return ctx;
    OPENSSL_free(ctx);
    return NULL;
}

static const OSSL_PARAM *store_settable(void *context) {
    static const OSSL_PARAM known[] = {OSSL_PARAM_int(OSSL_STORE_PARAM_EXPECT, NULL),
                                       OSSL_PARAM_END};
    (void)context;
    return known;
}

static int store_set(void *given, const OSSL_PARAM params[]) {
    store *ctx = given;
    const OSSL_PARAM *expected = OSSL_PARAM_locate_const(params, OSSL_STORE_PARAM_EXPECT);
    return !expected || OSSL_PARAM_get_int(expected, &ctx->expected);
}

static int wanted(const store *ctx) {
    switch (ctx->expected) {
    case 0: return WANT_PRIVATE | WANT_PUBLIC | WANT_CERTIFICATE;
    case OSSL_STORE_INFO_PKEY: return WANT_PRIVATE;
    case OSSL_STORE_INFO_PUBKEY: return WANT_PUBLIC;
    case OSSL_STORE_INFO_CERT: return WANT_CERTIFICATE;
    default: return 0;
    }
}

/* It is at its end also where nothing was found: else programs would ask again, without end. */
static int store_load(void *given, OSSL_CALLBACK *take, void *taker, OSSL_PASSPHRASE_CALLBACK *ask,
                      void *asked) {
    store *ctx = given;
    object what;
    (void)ask;
    (void)asked;
    ctx->done = true;
    if (!wanted(ctx) || !find(ctx->provider, &ctx->uri, wanted(ctx), &what)) return 0;
    int taken = object_hand_over(&what, take, taker);
    object_free(&what);
    return taken;
}

static int store_eof(void *given) {
    return ((store *)given)->done;
}

static int store_close(void *given) {
    store *ctx = given;
    uri_free(&ctx->uri);
    OPENSSL_free(ctx);
    return 1;
}

static const OSSL_DISPATCH functions[] = {
    FUNCTION(OSSL_FUNC_STORE_OPEN, store_open),
    FUNCTION(OSSL_FUNC_STORE_SETTABLE_CTX_PARAMS, store_settable),
    FUNCTION(OSSL_FUNC_STORE_SET_CTX_PARAMS, store_set),
    FUNCTION(OSSL_FUNC_STORE_LOAD, store_load),
    FUNCTION(OSSL_FUNC_STORE_EOF, store_eof),
    FUNCTION(OSSL_FUNC_STORE_CLOSE, store_close),
    END_OF_FUNCTIONS};

const OSSL_ALGORITHM provider_stores[] = {
    {"kmip", PROPERTIES, functions, "objects of a KMIP server"}, {NULL, NULL, NULL, NULL}};
