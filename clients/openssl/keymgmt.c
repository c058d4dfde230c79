/* Keys of RSA and of curves: what is public is answered by OpenSSL's own in the provider's own
   context, and nothing private is here to be given. */
#include "provider.h"

#include <openssl/core_names.h>
#include <openssl/crypto.h>
#include <openssl/params.h>

static void *new_rsa(void *context) {
    return key_new(context, TYPE_RSA);
}

static void *new_ec(void *context) {
    return key_new(context, TYPE_EC);
}

static void keymgmt_free(void *given) {
    key_free(given);
}

static void *keymgmt_load(const void *reference, size_t size) {
    const key_reference *ref = reference;
    return size == sizeof *ref ? key_take(ref->key) : NULL;
}

/* A key never changes, so that a second one is the same. */
static void *keymgmt_dup(const void *given, int selection) {
    (void)selection;
    return key_take((private_key *)given);
}

static int keymgmt_has(const void *given, int selection) {
    const private_key *key = given;
    bool lacks_private = (selection & OSSL_KEYMGMT_SELECT_PRIVATE_KEY) && !key->id;
    bool lacks_public = (selection & OSSL_KEYMGMT_SELECT_PUBLIC_KEY) && !key->public;
    return !lacks_private && !lacks_public;
}

static int keymgmt_match(const void *given, const void *other, int selection) {
    const private_key *key = given, *that = other;
    if (!key->public || !that->public) return 0;
    if (selection & OSSL_KEYMGMT_SELECT_KEYPAIR) return EVP_PKEY_eq(key->public, that->public) == 1;
    return !(selection & OSSL_KEYMGMT_SELECT_DOMAIN_PARAMETERS) ||
           EVP_PKEY_parameters_eq(key->public, that->public) == 1;
}

static const OSSL_PARAM *types_of_rsa(int selection) {
    static const OSSL_PARAM known[] = {OSSL_PARAM_BN(OSSL_PKEY_PARAM_RSA_N, NULL, 0),
                                       OSSL_PARAM_BN(OSSL_PKEY_PARAM_RSA_E, NULL, 0),
                                       OSSL_PARAM_END};
    return selection & OSSL_KEYMGMT_SELECT_PUBLIC_KEY ? known : NULL;
}

static const OSSL_PARAM *types_of_ec(int selection) {
    static const OSSL_PARAM known[] = {OSSL_PARAM_utf8_string(OSSL_PKEY_PARAM_GROUP_NAME, NULL, 0),
                                       OSSL_PARAM_octet_string(OSSL_PKEY_PARAM_PUB_KEY, NULL, 0),
                                       OSSL_PARAM_END};
    return selection & EVP_PKEY_PUBLIC_KEY ? known : NULL;
}

/* Takes a public key; a private one is refused, so that OpenSSL looks for who can use it. */
static int keymgmt_import(void *given, int selection, const OSSL_PARAM params[]) {
    private_key *key = given;
    if (!(selection & OSSL_KEYMGMT_SELECT_PUBLIC_KEY) || key->public) return 0;
    if (OSSL_PARAM_locate_const(params, OSSL_PKEY_PARAM_RSA_D) ||
        OSSL_PARAM_locate_const(params, OSSL_PKEY_PARAM_PRIV_KEY))
        return 0;
    EVP_PKEY_CTX *context = EVP_PKEY_CTX_new_from_name(key->provider->own, key->type, NULL);
    bool made =
        context && EVP_PKEY_fromdata_init(context) > 0 &&
        EVP_PKEY_fromdata(context, &key->public, EVP_PKEY_PUBLIC_KEY, (OSSL_PARAM *)params) > 0;
    EVP_PKEY_CTX_free(context);
    return made;
}

/* Gives the public part; for a private key that is asked for as a whole, nothing, so that its
   operations come here. */
static int keymgmt_export(void *given, int selection, OSSL_CALLBACK *take, void *taker) {
    const private_key *key = given;
    bool wants_private = selection & OSSL_KEYMGMT_SELECT_PRIVATE_KEY;
    if (!key->public || (wants_private && key->id)) return 0;
    return EVP_PKEY_export(key->public, EVP_PKEY_PUBLIC_KEY, take, taker);
}

static const OSSL_PARAM *gettable_of_rsa(void *context) {
    static const OSSL_PARAM known[] = {
        OSSL_PARAM_int(OSSL_PKEY_PARAM_BITS, NULL),
        OSSL_PARAM_int(OSSL_PKEY_PARAM_SECURITY_BITS, NULL),
        OSSL_PARAM_int(OSSL_PKEY_PARAM_MAX_SIZE, NULL),
        OSSL_PARAM_utf8_string(OSSL_PKEY_PARAM_DEFAULT_DIGEST, NULL, 0),
        OSSL_PARAM_BN(OSSL_PKEY_PARAM_RSA_N, NULL, 0),
        OSSL_PARAM_BN(OSSL_PKEY_PARAM_RSA_E, NULL, 0),
        OSSL_PARAM_END};
    (void)context;
    return known;
}

static const OSSL_PARAM *gettable_of_ec(void *context) {
    static const OSSL_PARAM known[] = {
        OSSL_PARAM_int(OSSL_PKEY_PARAM_BITS, NULL),
        OSSL_PARAM_int(OSSL_PKEY_PARAM_SECURITY_BITS, NULL),
        OSSL_PARAM_int(OSSL_PKEY_PARAM_MAX_SIZE, NULL),
        OSSL_PARAM_utf8_string(OSSL_PKEY_PARAM_DEFAULT_DIGEST, NULL, 0),
        OSSL_PARAM_utf8_string(OSSL_PKEY_PARAM_GROUP_NAME, NULL, 0),
        OSSL_PARAM_utf8_string(OSSL_PKEY_PARAM_EC_POINT_CONVERSION_FORMAT, NULL, 0),
        OSSL_PARAM_octet_string(OSSL_PKEY_PARAM_PUB_KEY, NULL, 0),
        OSSL_PARAM_octet_string(OSSL_PKEY_PARAM_ENCODED_PUBLIC_KEY, NULL, 0),
        OSSL_PARAM_END};
    (void)context;
    return known;
}

static int keymgmt_get(void *given, OSSL_PARAM params[]) {
    const private_key *key = given;
    return key->public && EVP_PKEY_get_params(key->public, params) > 0;
}

static const char *operation_of_rsa(int operation) {
    return operation == OSSL_OP_SIGNATURE ? SIGNATURE_RSA : NULL;
}

static const char *operation_of_ec(int operation) {
    return operation == OSSL_OP_SIGNATURE ? SIGNATURE_EC : NULL;
}

/* None are made; a program that asks this provider for one, by a property, is told so. */
static void *keymgmt_make_init(void *context, int selection, const OSSL_PARAM params[]) {
    (void)selection;
    (void)params;
    RAISE((const provider *)context, REASON_NO_KEYS_MADE,
          "make a key on the server (create-rsa, create-ec); one that is to be here is made by "
          "another provider: leave out the property provider=metsuwan");
    return NULL;
}

static void *keymgmt_make(void *given, OSSL_CALLBACK *progress, void *of_progress) {
    (void)given;
    (void)progress;
    (void)of_progress;
    return NULL;
}

static void keymgmt_make_end(void *given) {
    (void)given;
}

#define KEYMGMT(new, types, gettable, operation)                                              \
    {                                                                                         \
        FUNCTION(OSSL_FUNC_KEYMGMT_NEW, new), FUNCTION(OSSL_FUNC_KEYMGMT_FREE, keymgmt_free), \
            FUNCTION(OSSL_FUNC_KEYMGMT_LOAD, keymgmt_load),                                   \
            FUNCTION(OSSL_FUNC_KEYMGMT_DUP, keymgmt_dup),                                     \
            FUNCTION(OSSL_FUNC_KEYMGMT_HAS, keymgmt_has),                                     \
            FUNCTION(OSSL_FUNC_KEYMGMT_MATCH, keymgmt_match),                                 \
            FUNCTION(OSSL_FUNC_KEYMGMT_IMPORT, keymgmt_import),                               \
            FUNCTION(OSSL_FUNC_KEYMGMT_IMPORT_TYPES, types),                                  \
            FUNCTION(OSSL_FUNC_KEYMGMT_EXPORT, keymgmt_export),                               \
            FUNCTION(OSSL_FUNC_KEYMGMT_EXPORT_TYPES, types),                                  \
            FUNCTION(OSSL_FUNC_KEYMGMT_GET_PARAMS, keymgmt_get),                              \
            FUNCTION(OSSL_FUNC_KEYMGMT_GETTABLE_PARAMS, gettable),                            \
            FUNCTION(OSSL_FUNC_KEYMGMT_QUERY_OPERATION_NAME, operation),                      \
            FUNCTION(OSSL_FUNC_KEYMGMT_GEN_INIT, keymgmt_make_init),                          \
            FUNCTION(OSSL_FUNC_KEYMGMT_GEN, keymgmt_make),                                    \
            FUNCTION(OSSL_FUNC_KEYMGMT_GEN_CLEANUP, keymgmt_make_end), END_OF_FUNCTIONS       \
    }

static const OSSL_DISPATCH of_rsa[] =
    KEYMGMT(new_rsa, types_of_rsa, gettable_of_rsa, operation_of_rsa);
static const OSSL_DISPATCH of_ec[] = KEYMGMT(new_ec, types_of_ec, gettable_of_ec, operation_of_ec);

const OSSL_ALGORITHM provider_keymgmts[] = {
    {RSA_NAMES, PROPERTIES, of_rsa, "RSA keys of a KMIP server"},
    {EC_NAMES, PROPERTIES, of_ec, "keys on curves of a KMIP server"},
    {NULL, NULL, NULL, NULL}};
