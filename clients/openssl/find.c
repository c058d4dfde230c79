/* What a URI means: a private key with its public key, a public key or a certificate. Object Type is
   looked at before an object is asked for, so that no private key is: a server may hand it out. */
#include "provider.h"

#include <openssl/bio.h>
#include <openssl/core_names.h>
#include <openssl/core_object.h>
#include <openssl/crypto.h>
#include <openssl/decoder.h>
#include <openssl/err.h>
#include <openssl/params.h>
#include <openssl/pem.h>
#include <openssl/x509.h>
#include <string.h>

#define PRIVATE "PrivateKey"
#define PUBLIC "PublicKey"
#define CERTIFICATE "Certificate"

/* What the server says of an object. */
typedef struct {
    char type[40], algorithm[40];
    char *linked; /* the identifier of the public key that a private key is linked to, or null */
} about;

static char *copy_of(const provider *prov, const char *text) {
    char *made = OPENSSL_strdup(text);
    if (!made) RAISE(prov, REASON_MEMORY, "a text");
    return made;
}

/* Where the answer to `attributes` has what is asked for. It is a tree where one of them has a value
   that `attributes` has no member for, as ECDSA. */
typedef struct {
    const char *all, *name, *type, *algorithm, *link_type, *linked;
} places;

static const places plain = {"attributes",           "name",
                             "value.ObjectType",     "value.CryptographicAlgorithm",
                             "value.Link.link_type", "value.Link.linked_object_identifier"};
static const places tree = {
    "Attribute",      "AttributeName",           "AttributeValue",
    "AttributeValue", "AttributeValue.LinkType", "AttributeValue.LinkedObjectIdentifier"};

static const char *attribute(kmip_client *client, const places *at, int index, const char *below) {
    char path[100];
    int fits = BIO_snprintf(path, sizeof path, "%s.%d.%s", at->all, index, below);
    return fits > 0 ? kmip_text(client, path, NULL) : NULL;
}

/* The value of an attribute where it is the one with this name. */
static const char *value_of(kmip_client *client, const places *at, int index, const char *name,
                            const char *below) {
    const char *text = attribute(client, at, index, at->name);
    if (!text || (at == &tree && strcmp(text, name) != 0)) return NULL;
    return attribute(client, at, index, below);
}

static void take_attribute(kmip_client *client, const places *at, int index, about *into) {
    const char *text = value_of(client, at, index, "Object Type", at->type);
    if (text) OPENSSL_strlcpy(into->type, text, sizeof into->type);
    text = value_of(client, at, index, "Cryptographic Algorithm", at->algorithm);
    if (text) OPENSSL_strlcpy(into->algorithm, text, sizeof into->algorithm);
    text = value_of(client, at, index, "Link", at->link_type);
    if (into->linked || !text || strcmp(text, "PublicKeyLink") != 0) return;
    text = attribute(client, at, index, at->linked);
    if (text) into->linked = OPENSSL_strdup(text);
}

static bool ask_about(connection *by, const char *id, about *into) {
    const kmip_word words[] = {kmip_text_word(id), kmip_text_word("Object Type"),
                               kmip_text_word("Cryptographic Algorithm"), kmip_text_word("Link")};
    memset(into, 0, sizeof *into);
    kmip_client *client = connection_call(by, "attributes", words, 4);
    const places *at = client && attribute(client, &tree, 0, tree.name) ? &tree : &plain;
    for (int i = 0; client && attribute(client, at, i, at->name); i++)
        take_attribute(client, at, i, into);
    return client != NULL;
}

/* How many objects have this type and name, of which 2 stands for more, and the first one's
   identifier; -1 with an error raised. */
static int locate(const provider *prov, connection *by, const char *name, const char *type,
                  char **id) {
    int count = -1;
    size_t room = strlen(name) + sizeof "name=";
    char by_type[40], *by_name = OPENSSL_malloc(room);
    *id = NULL;
    if (!by_name || BIO_snprintf(by_name, room, "name=%s", name) < 0 ||
        BIO_snprintf(by_type, sizeof by_type, "type=%s", type) < 0) {
        RAISE(prov, REASON_MEMORY, "a name");
    } else {
        const kmip_word words[] = {kmip_text_word(by_name), kmip_text_word(by_type)};
        kmip_client *client = connection_call(by, "locate", words, 2);
        const char *first = client ? kmip_text(client, "unique_identifiers.0", NULL) : NULL;
        if (first) *id = copy_of(prov, first);
        if (client && (!first || *id))
            count = !first ? 0 : kmip_text(client, "unique_identifiers.1", NULL) ? 2 : 1;
    }
    OPENSSL_free(by_name);
    return count;
}

/* The identifier of the one object of this type and name; null: none, or an error was raised, and
   then `good` is false. */
static char *locate_one(const provider *prov, connection *by, const char *name, const char *type,
                        bool *good) {
    char *id;
    int count = locate(prov, by, name, type, &id);
    *good = count == 0 || count == 1;
    if (count == 2)
        RAISE(prov, REASON_NOT_FOUND, "more than one %s has the name %s: tell its id", type, name);
    if (*good) return id;
    OPENSSL_free(id);
    return NULL;
}

/* The identifier of the object with this name, of the first type that has one. */
static char *locate_wanted(const provider *prov, connection *by, const char *name, int wanted,
                           bool *good) {
    const struct {
        int wanted;
        const char *type;
    } order[] = {{WANT_PRIVATE, PRIVATE},
                 {WANT_PUBLIC, PUBLIC},
                 {WANT_PUBLIC, PRIVATE}, /* whose public key it is then */
                 {WANT_CERTIFICATE, CERTIFICATE}};
    char *id = NULL;
    *good = true;
    for (size_t i = 0; *good && !id && i < sizeof order / sizeof *order; i++)
        if (wanted & order[i].wanted) id = locate_one(prov, by, name, order[i].type, good);
    return id;
}

static const char *words_for(int wanted) {
    return wanted == WANT_PRIVATE                   ? "private key"
           : wanted == WANT_PUBLIC                  ? "key"
           : wanted == WANT_CERTIFICATE             ? "certificate"
           : wanted == (WANT_PRIVATE | WANT_PUBLIC) ? "key"
                                                    : "key or certificate";
}

/* The identifier of the object that a URI means. */
static char *object_id(const provider *prov, connection *by, const uri *from, int wanted) {
    if (from->id) return copy_of(prov, from->id);
    const char *name = from->name ? from->name : from->any;
    bool good;
    char *id = locate_wanted(prov, by, name, wanted, &good);
    if (id || !good) return id;
    if (from->any) return copy_of(prov, from->any);
    RAISE(prov, REASON_NOT_FOUND, "no %s has the name %s", words_for(wanted), name);
    return NULL;
}

/* Public keys and certificates */

/* The public key of a PEM, which is PKCS #1 or SubjectPublicKeyInfo; null: there is none of RSA or of
   a curve. */
static EVP_PKEY *key_of_pem(const provider *prov, BIO *pem) {
    EVP_PKEY *key = NULL;
    OSSL_DECODER_CTX *decoder = OSSL_DECODER_CTX_new_for_pkey(&key, "PEM", NULL, NULL,
                                                              EVP_PKEY_PUBLIC_KEY, prov->own, NULL);
    bool good = decoder && OSSL_DECODER_from_bio(decoder, pem);
    OSSL_DECODER_CTX_free(decoder);
    if (good && key_type(key)) return key;
    EVP_PKEY_free(key);
    return NULL;
}

static EVP_PKEY *key_of_certificate(const provider *prov, BIO *pem) {
    EVP_PKEY *key = NULL;
    X509 *certificate = X509_new_ex(prov->own, NULL);
    if (certificate && PEM_read_bio_X509(pem, &certificate, NULL, NULL))
        key = X509_get_pubkey(certificate);
    X509_free(certificate);
    return key;
}

/* The key of a file with a certificate or a public key in PEM. */
static EVP_PKEY *key_of_file(const provider *prov, const char *path) {
    ERR_set_mark();
    BIO *file = BIO_new_file(path, "r");
    EVP_PKEY *key = file ? key_of_certificate(prov, file) : NULL;
    if (file && !key && BIO_reset(file) == 0) key = key_of_pem(prov, file);
    BIO_free(file);
    ERR_pop_to_mark();
    if (key && key_type(key)) return key;
    EVP_PKEY_free(key);
    RAISE(prov, REASON_KEY,
          "%s cannot be read, or begins with no certificate or key in PEM, of RSA or a curve",
          path);
    return NULL;
}

/* The object as PEM, of a type that it is known to have and that is not private. */
static BIO *get_pem(const provider *prov, connection *by, const char *id, const char *type) {
    const kmip_word word = kmip_text_word(id);
    kmip_client *client = connection_call(by, "get", &word, 1);
    if (!client) return NULL;
    const char *got = kmip_text(client, "object_type", NULL);
    if (!got) got = kmip_text(client, "ObjectType", NULL); /* (of a tree, as for ECDSA) */
    bool good = got && strcmp(got, type) == 0;
    const char *pem = good ? kmip_pem(client) : NULL;
    if (!pem) {
        RAISE(prov, REASON_KEY, "the server gave out the object %s as no %s that has a PEM form",
              id, type);
        return NULL;
    }
    BIO *made = BIO_new(BIO_s_mem());
    if (made && BIO_puts(made, pem) == (int)strlen(pem)) return made;
    BIO_free(made);
    RAISE(prov, REASON_MEMORY, "the object %s", id);
    return NULL;
}

static EVP_PKEY *get_public(const provider *prov, connection *by, const char *id) {
    BIO *pem = get_pem(prov, by, id, PUBLIC);
    if (!pem) return NULL;
    ERR_set_mark();
    EVP_PKEY *key = key_of_pem(prov, pem);
    ERR_pop_to_mark();
    BIO_free(pem);
    if (!key) RAISE(prov, REASON_KEY, "the object %s is no public key of RSA or a curve", id);
    return key;
}

static EVP_PKEY *get_if_public(const provider *prov, connection *by, const char *id) {
    about what;
    bool asked = ask_about(by, id, &what);
    OPENSSL_free(what.linked);
    if (!asked) return NULL;
    if (strcmp(what.type, PUBLIC) == 0) return get_public(prov, by, id);
    RAISE(prov, REASON_KEY, "the object %s is a %s, and no %s", id, what.type, PUBLIC);
    return NULL;
}

/* The public key with a name, or with the private key's name where `needed` is false; null also
   where there is none, and then an error was raised in any case. */
static EVP_PKEY *public_by_name(const provider *prov, connection *by, const char *id,
                                const char *name, bool needed) {
    bool good = true;
    char *found = name ? locate_one(prov, by, name, PUBLIC, &good) : NULL;
    EVP_PKEY *key = found ? get_public(prov, by, found) : NULL;
    if (!found && good && needed)
        RAISE(prov, REASON_NOT_FOUND, "no %s has the name %s", PUBLIC, name);
    if (!found && good && !needed)
        RAISE(prov, REASON_NOT_FOUND,
              "the private key %s has no link to its public key: add ;public-id=, ;public-name= or "
              ";public-file= to its URI",
              id);
    OPENSSL_free(found);
    return key;
}

static EVP_PKEY *public_of(const provider *prov, connection *by, const uri *from, const char *id,
                           const char *linked) {
    if (from->public_file) return key_of_file(prov, from->public_file);
    if (from->public_id) return get_if_public(prov, by, from->public_id);
    if (from->public_name) return public_by_name(prov, by, id, from->public_name, true);
    if (linked) return get_if_public(prov, by, linked);
    return public_by_name(prov, by, id, from->name ? from->name : from->any, false);
}

/* The type of a private key by its Cryptographic Algorithm; null: neither of the two. */
static const char *type_of(const char *algorithm) {
    if (strcmp(algorithm, "RSA") == 0) return TYPE_RSA;
    return strcmp(algorithm, "ECDSA") == 0 || strcmp(algorithm, "EC") == 0 ? TYPE_EC : NULL;
}

static bool take_private(provider *prov, connection *by, const uri *from, const char *id,
                         const about *what, int wanted, object *into) {
    const char *type = type_of(what->algorithm);
    if (!type)
        return RAISE(prov, REASON_KEY,
                     "the private key %s is one of %s, and neither of RSA nor of ECDSA", id,
                     *what->algorithm ? what->algorithm : "an unknown algorithm");
    EVP_PKEY *public = public_of(prov, by, from, id, what->linked);
    if (!public) return false;
    if (key_type(public) != type) {
        RAISE(prov, REASON_KEY, "the private key %s is one of %s, and the public one is not", id,
              type);
        EVP_PKEY_free(public);
        return false;
    }
    if (!(wanted & WANT_PRIVATE)) {
        into->public = public;
        return true;
    }
    into->key = key_new(prov, type);
    if (!into->key) {
        EVP_PKEY_free(public);
        return false;
    }
    into->key->public = public;
    into->key->id = copy_of(prov, id);
    return into->key->id != NULL;
}

static bool take_certificate(const provider *prov, connection *by, const char *id, object *into) {
    char *name = NULL, *header = NULL;
    long length = 0;
    BIO *pem = get_pem(prov, by, id, CERTIFICATE);
    if (!pem) return false;
    bool read = PEM_read_bio(pem, &name, &header, &into->certificate, &length) == 1;
    into->length = read ? (size_t)length : 0;
    OPENSSL_free(name);
    OPENSSL_free(header);
    BIO_free(pem);
    return read || RAISE(prov, REASON_KEY, "the object %s is no X.509 certificate", id);
}

static bool take_object(provider *prov, connection *by, const uri *from, const char *id, int wanted,
                        object *into) {
    about what;
    bool done = false;
    if (!ask_about(by, id, &what)) {
        done = false;
    } else if (strcmp(what.type, PRIVATE) == 0 && (wanted & (WANT_PRIVATE | WANT_PUBLIC))) {
        done = take_private(prov, by, from, id, &what, wanted, into);
    } else if (strcmp(what.type, PUBLIC) == 0 && (wanted & WANT_PUBLIC)) {
        into->public = get_public(prov, by, id);
        done = into->public != NULL;
    } else if (strcmp(what.type, CERTIFICATE) == 0 && (wanted & WANT_CERTIFICATE)) {
        done = take_certificate(prov, by, id, into);
    } else {
        RAISE(prov, REASON_KEY, "the object %s is a %s, and no %s", id,
              *what.type ? what.type : "thing of no type", words_for(wanted));
    }
    OPENSSL_free(what.linked);
    return done;
}

bool find(provider *prov, const uri *from, int wanted, object *into) {
    memset(into, 0, sizeof *into);
    connection *by = provider_is_able(prov) ? connection_take(prov) : NULL;
    char *id = by ? object_id(prov, by, from, wanted) : NULL;
    bool done = id && take_object(prov, by, from, id, wanted, into);
    if (by) connection_give_back(by);
    OPENSSL_free(id);
    if (done) return true;
    object_free(into);
    connections_tell_others(prov);
    return false;
}

void object_free(object *one) {
    key_free(one->key);
    EVP_PKEY_free(one->public);
    OPENSSL_free(one->certificate);
    memset(one, 0, sizeof *one);
}

/* Handing over */

static int hand_over_key(const object *one, OSSL_CALLBACK *take_it, void *taker) {
    int type = OSSL_OBJECT_PKEY;
    key_reference reference = {one->key};
    OSSL_PARAM params[] = {
        OSSL_PARAM_construct_int(OSSL_OBJECT_PARAM_TYPE, &type),
        OSSL_PARAM_construct_utf8_string(OSSL_OBJECT_PARAM_DATA_TYPE, (char *)one->key->type, 0),
        OSSL_PARAM_construct_octet_string(OSSL_OBJECT_PARAM_REFERENCE, &reference,
                                          sizeof reference),
        OSSL_PARAM_construct_end()};
    return take_it(params, taker);
}

/* A public key is one of OpenSSL's own, for any use. */
static int hand_over_public(const object *one, OSSL_CALLBACK *take_it, void *taker) {
    int type = OSSL_OBJECT_PKEY;
    char structure[] = "SubjectPublicKeyInfo";
    unsigned char *der = NULL;
    int length = i2d_PUBKEY(one->public, &der);
    if (length <= 0) return 0;
    OSSL_PARAM params[] = {
        OSSL_PARAM_construct_int(OSSL_OBJECT_PARAM_TYPE, &type),
        OSSL_PARAM_construct_utf8_string(OSSL_OBJECT_PARAM_DATA_TYPE, (char *)key_type(one->public),
                                         0),
        OSSL_PARAM_construct_utf8_string(OSSL_OBJECT_PARAM_DATA_STRUCTURE, structure, 0),
        OSSL_PARAM_construct_octet_string(OSSL_OBJECT_PARAM_DATA, der, (size_t)length),
        OSSL_PARAM_construct_end()};
    int taken = take_it(params, taker);
    OPENSSL_free(der);
    return taken;
}

int object_hand_over(const object *one, OSSL_CALLBACK *take_it, void *taker) {
    if (one->key) return hand_over_key(one, take_it, taker);
    if (one->public) return hand_over_public(one, take_it, taker);
    int type = OSSL_OBJECT_CERT;
    OSSL_PARAM params[] = {
        OSSL_PARAM_construct_int(OSSL_OBJECT_PARAM_TYPE, &type),
        OSSL_PARAM_construct_octet_string(OSSL_OBJECT_PARAM_DATA, one->certificate, one->length),
        OSSL_PARAM_construct_end()};
    return take_it(params, taker);
}
