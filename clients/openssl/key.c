/* A key: where its private part is, and its public part, which is OpenSSL's own. */
#include "provider.h"

#include <openssl/crypto.h>
#include <stdio.h>
#include <string.h>

const char TYPE_RSA[] = "RSA", TYPE_EC[] = "EC";

const char *key_type(const EVP_PKEY *public) {
    return EVP_PKEY_is_a(public, TYPE_RSA)  ? TYPE_RSA
           : EVP_PKEY_is_a(public, TYPE_EC) ? TYPE_EC
                                            : NULL;
}

private_key *key_new(provider *prov, const char *type) {
    private_key *key = OPENSSL_zalloc(sizeof *key);
    if (!key) {
        RAISE(prov, REASON_MEMORY, "a key");
        return NULL;
    }
    key->provider = prov;
    key->type = type;
    atomic_init(&key->references, 1);
    return key;
}

private_key *key_take(private_key *key) {
    atomic_fetch_add(&key->references, 1);
    return key;
}

void key_free(private_key *key) {
    if (!key || atomic_fetch_sub(&key->references, 1) > 1) return;
    EVP_PKEY_free(key->public);
    OPENSSL_free(key->id);
    OPENSSL_free(key);
}

/* Takes the signature out of an answer; `client` is null where there is none, with an error. */
static bool take_signature(const provider *prov, kmip_client *client, const char *path,
                           uint8_t *into, size_t room, size_t *length) {
    const uint8_t *made = client ? kmip_bytes(client, path, length) : NULL;
    bool fits = made && *length <= room;
    if (fits) memcpy(into, made, *length);
    return fits || (client && RAISE(prov, REASON_SIGNATURE, "it is missing or too long"));
}

static bool sign_by_rsa(const private_key *key, connection *by, const char *digest,
                        const char *padding, kmip_word data, uint8_t *into, size_t room,
                        size_t *length) {
    char by_hash[30], by_padding[30];
    snprintf(by_hash, sizeof by_hash, "hash=%s", digest);
    snprintf(by_padding, sizeof by_padding, "padding=%s", padding);
    const kmip_word words[] = {kmip_text_word(key->id), data, kmip_text_word(by_hash),
                               kmip_text_word(by_padding)};
    kmip_client *client = connection_call(by, "sign", words, 4);
    return take_signature(key->provider, client, "signature_data", into, room, length);
}

/* The payload of a Sign by ECDSA, which `sign` has no words for (KMIP 1.2, 4.37), or null: memory ran
   out. Each byte of the identifier has at most six characters of JSON, each of the data two. */
static char *ecdsa_payload(const char *id, const char *digest, kmip_word data) {
    static const char digits[] = "0123456789ABCDEF";
    size_t room = 400 + 6 * strlen(id) + 2 * data.length, at = 0;
    char *made = data.length < SIZE_MAX / 4 ? OPENSSL_malloc(room) : NULL;
    if (!made) return NULL;
    at = OPENSSL_strlcpy(made,
                         "{\"tag\":\"RequestPayload\",\"value\":[{\"tag\":\"UniqueIdentifier\","
                         "\"type\":\"TextString\",\"value\":\"",
                         room);
    for (char shown[8]; *id; at += OPENSSL_strlcpy(made + at, shown, room - at))
        id += kmip_write_character(id, shown);
    at += (size_t)snprintf(
        made + at, room - at,
        "\"},{\"tag\":\"CryptographicParameters\",\"value\":[{\"tag\":"
        "\"DigitalSignatureAlgorithm\",\"type\":\"Enumeration\",\"value\":"
        "\"ECDSAWith%s\"}]},{\"tag\":\"Data\",\"type\":\"ByteString\",\"value\":\"",
        digest);
    const uint8_t *bytes = (const uint8_t *)data.bytes;
    for (size_t i = 0; i < data.length; i++) {
        made[at++] = digits[bytes[i] >> 4];
        made[at++] = digits[bytes[i] & 15];
    }
    OPENSSL_strlcpy(made + at, "\"}]}", room - at);
    return made;
}

static bool sign_by_ecdsa(const private_key *key, connection *by, const char *digest,
                          kmip_word data, uint8_t *into, size_t room, size_t *length) {
    char *payload = ecdsa_payload(key->id, digest, data);
    if (!payload) return RAISE(key->provider, REASON_MEMORY, "the data to sign");
    kmip_client *client = connection_operation(by, "Sign", payload);
    OPENSSL_clear_free(payload, strlen(payload));
    return take_signature(key->provider, client, "SignatureData", into, room, length);
}

bool key_sign(const private_key *key, const char *by, const char *padding, const uint8_t *data,
              size_t count, uint8_t *into, size_t room, size_t *length) {
    connection *link = connection_take(key->provider);
    if (!link) return false;
    kmip_word all = kmip_data_word(data, count);
    bool done = key->type == TYPE_EC ? sign_by_ecdsa(key, link, by, all, into, room, length)
                                     : sign_by_rsa(key, link, by, padding, all, into, room, length);
    connection_give_back(link);
    return done;
}
