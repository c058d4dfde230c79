/* A provider for OpenSSL 3: keys of RSA and of curves that stay on a KMIP server, over the client of metsuwan_tls.h.
   docs/OPENSSL.md says what it does. */
#ifndef METSUWAN_PROVIDER_H
#define METSUWAN_PROVIDER_H
#include "metsuwan_internal.h"

#include <openssl/core.h>
#include <openssl/core_dispatch.h>
#include <openssl/evp.h>
#include <stdatomic.h>

/* The room of an error's text: OpenSSL leaves out the whole of one that does not fit. */
#define MOST_ERROR 1024

typedef struct provider provider;
typedef struct connection connection;

/* What openssl.cnf or the environment says; each text may be null, but those that are needed for a
   connection: server, certificate, key and authority. */
typedef struct {
    char *server, *order, *server_name; /* one or more, by the rules of kmip_settings */
    char *certificate, *key, *authority, *passphrase, *user, *password;
    double seconds;       /* the most time of a connection's opening and of each call; 0: no end */
    double max_age;       /* the most time that a connection is used; 0: no end */
    unsigned connections; /* the most that are open at once */
    bool salts_are_max;   /* how long the server makes the salts of PSS, which KMIP cannot ask */
} settings;

/* The provider in one library context. */
struct provider {
    const OSSL_CORE_HANDLE *core;
    OSSL_FUNC_core_get_params_fn *get_params;
    OSSL_FUNC_core_get_libctx_fn *get_libctx;
    OSSL_FUNC_core_new_error_fn *new_error;
    OSSL_FUNC_core_set_error_debug_fn *set_error_debug;
    OSSL_FUNC_core_vset_error_fn *vset_error;
    OSSL_FUNC_BIO_gets_fn *gets;
    /* A context of its own, without this provider: for the connections' TLS and for public keys. */
    OSSL_LIB_CTX *own;
    const char *name; /* that of openssl.cnf or of the program, for texts */
    settings settings;
    /* Why it has no key, where OpenSSL loaded it for openssl.cnf: then it keeps errors of loading to
       itself, and each use is this error. */
    bool is_unable;
    int unable_reason;
    char unable[MOST_ERROR];
    kmip_servers *servers; /* one list for all connections, which settings.c makes */
    /* What follows belongs to connection.c. */
    connection *idle;
    unsigned in_use;
    bool is_listed;
    provider *next;
};

/* Reasons of errors; provider.c has their texts. */
enum {
    REASON_SETTINGS = 1,
    REASON_ORDER,
    REASON_CONNECTION,
    REASON_REFUSED,
    REASON_URI,
    REASON_NOT_FOUND,
    REASON_KEY,
    REASON_DIGEST_ALONE,
    REASON_PARAMETERS,
    REASON_SIGNATURE,
    REASON_NO_KEYS_MADE,
    REASON_MEMORY,
    REASON_SECOND
};

/* Raises an error on OpenSSL's queue, and is false. A text that is too long ends by two dots; what a
   terminal would take for more than a character is escaped. */
__attribute__((format(printf, 5, 6))) bool provider_raise(const provider *prov, int reason,
                                                          const char *file, int line,
                                                          const char *format, ...);
#define RAISE(prov, reason, ...) provider_raise(prov, reason, __FILE__, __LINE__, __VA_ARGS__)

/* The same, for what is wrong while the provider is loaded. Where OpenSSL loads it for openssl.cnf,
   it keeps the text, in place of raising the error. */
__attribute__((format(printf, 3, 4))) bool provider_refuse(provider *prov, int reason,
                                                           const char *format, ...);

/* Whether it can be used; else the error of its loading is raised. */
bool provider_is_able(const provider *prov);

/* settings.c. Both for a provider whose settings are all zero, or read. */
bool settings_read(provider *prov);
void settings_free(provider *prov);

/* connection.c: connections, of which each is for one thread at a time. */

bool connections_start(provider *prov);
void connections_end(provider *prov);

/* Where the module stands in several sections of openssl.cnf, OpenSSL asks the first provider alone.
   Whether this one is it, else it is refused; and, after an error of the first, an error that names
   the others. */
bool connections_first(provider *prov);
void connections_tell_others(const provider *prov);

/* One that no other thread has, or null with an error raised; nothing is opened yet. Waits where as
   many as may be are in use. */
connection *connection_take(provider *prov);
void connection_give_back(connection *link);

/* A call of kmip_call_array, which changes nothing: the client whose answer it is, until the next
   call, or null with an error raised. Where the connection was lost it is made again, once, or with
   each other server. */
kmip_client *connection_call(connection *link, const char *call, const kmip_word *words,
                             size_t count);

/* The same of kmip_operation, with KMIP 1.2. */
kmip_client *connection_operation(connection *link, const char *name, const char *payload);

/* uri.c: kmip:NAME-OR-ID, or kmip: and name=value with a semicolon between two. */
typedef struct {
    char *any, *id, *name, *public_id, *public_name, *public_file;
} uri;

bool uri_read(const provider *prov, const char *text, uri *into);
void uri_free(uri *parts);

/* key.c: where the private part is, and the public part, which is OpenSSL's own. */
typedef struct {
    provider *provider;
    const char *type; /* OpenSSL's name of it: TYPE_RSA or TYPE_EC, by their addresses too */
    char *id;         /* the private key's identifier; null: this is a public key alone */
    EVP_PKEY *public; /* of the provider's own context; null: nothing is known yet */
    atomic_int references;
} private_key;

/* How find.c hands a key to keymgmt.c by way of OpenSSL. */
typedef struct {
    private_key *key;
} key_reference;

extern const char TYPE_RSA[], TYPE_EC[];

/* The type of a public key; null: neither of the two. */
const char *key_type(const EVP_PKEY *public);

private_key *key_new(provider *prov, const char *type);
private_key *key_take(private_key *key);
void key_free(private_key *key);

/* Has the server sign data, with a hash and, by RSA, a padding by their names of KMIP. */
bool key_sign(const private_key *key, const char *by, const char *padding, const uint8_t *data,
              size_t count, uint8_t *into, size_t room, size_t *length);

/* find.c: what a URI means. One of the three is there. */
typedef struct {
    private_key *key;
    EVP_PKEY *public;
    uint8_t *certificate; /* DER */
    size_t length;
} object;

enum { WANT_PRIVATE = 1, WANT_PUBLIC = 2, WANT_CERTIFICATE = 4 };

/* Finds what a URI means among what is wanted; false with an error raised. */
bool find(provider *prov, const uri *by, int wanted, object *into);
void object_free(object *one);

/* Hands it over to the caller of a store or of a decoder. */
int object_hand_over(const object *one, OSSL_CALLBACK *take, void *taker);

/* hash.c */
typedef struct {
    const char *name; /* OpenSSL's and KMIP's */
    int size;
    uint8_t oid_end;                    /* the last byte of its OID, .. */
    uint8_t rsa_oid_end, ecdsa_oid_end; /* .. and of those of RSA and of ECDSA with it */
} hash;

const hash *hash_of(const provider *prov, const char *name);

/* How a signature is made. */
typedef enum { BY_PKCS1, BY_PSS, BY_ECDSA } manner;

/* Writes an AlgorithmIdentifier as DER, of PSS with a salt of so many bytes: how many bytes it has,
   or 0 where it does not fit. */
size_t hash_identify(const hash *digest, manner by, int salt, uint8_t *into, size_t room);

/* signature.c and parameters.c */
typedef struct {
    provider *provider;
    private_key *key;
    const hash *hash;
    int padding, salt; /* as RSA_PKCS1_PSS_PADDING and RSA_PSS_SALTLEN_AUTO */
    uint8_t *data;
    size_t count, room;
} signature;

/* By the key that it has. */
manner signature_manner(const signature *ctx);

bool signature_set_hash(signature *ctx, const char *name);
int signature_set(void *given, const OSSL_PARAM params[]);
int signature_get(void *given, OSSL_PARAM params[]);
const OSSL_PARAM *signature_settable(void *given, void *context);
const OSSL_PARAM *signature_gettable(void *given, void *context);

/* The length of the salt that was asked for, and whether it is the one that the server makes; false
   with an error raised. */
int signature_salt(const signature *ctx);
bool signature_salt_can_be(const signature *ctx);

extern const OSSL_ALGORITHM provider_stores[], provider_keymgmts[], provider_signatures[],
    provider_decoders[];

/* No key of another provider asks for these names, so that none of theirs comes here. */
#define SIGNATURE_RSA "KMIP-RSA"
#define SIGNATURE_EC "KMIP-ECDSA"
#define RSA_NAMES "RSA:rsaEncryption:1.2.840.113549.1.1.1"
#define EC_NAMES "EC:id-ecPublicKey:1.2.840.10045.2.1"
#define PROPERTIES "provider=metsuwan"

#define FUNCTION(id, ctx) \
    { id, (void (*)(void))(ctx) }
#define END_OF_FUNCTIONS \
    { 0, NULL }

#endif
