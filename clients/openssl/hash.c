/* The hashes, and what algorithms are called in certificates (RFC 8017, A.2; RFC 5758, 3.2). */
#include "provider.h"

#include <openssl/err.h>
#include <string.h>

static const hash hashes[] = {{"SHA224", 28, 4, 14, 1},
                              {"SHA256", 32, 1, 11, 2},
                              {"SHA384", 48, 2, 12, 3},
                              {"SHA512", 64, 3, 13, 4}};

const hash *hash_of(const provider *prov, const char *name) {
    ERR_set_mark();
    EVP_MD *fetched = EVP_MD_fetch(prov->own, name, NULL);
    ERR_pop_to_mark();
    const hash *found = NULL;
    for (size_t i = 0; fetched && i < sizeof hashes / sizeof *hashes; i++)
        if (EVP_MD_is_a(fetched, hashes[i].name)) found = &hashes[i];
    EVP_MD_free(fetched);
    if (!found)
        RAISE(prov, REASON_PARAMETERS, "the hash %s; SHA224, SHA256, SHA384 and SHA512 can be",
              name);
    return found;
}

/* DER, written from its end to its beginning; all of it has fewer than 128 bytes. */
typedef struct {
    uint8_t bytes[127];
    size_t at;
} writer;

static void prepend(writer *out, const uint8_t *bytes, size_t count) {
    out->at -= count;
    memcpy(out->bytes + out->at, bytes, count);
}

/* Puts the head before what was put since then. */
static void wrap(writer *out, uint8_t tag, size_t since) {
    uint8_t head[] = {tag, (uint8_t)(since - out->at)};
    prepend(out, head, sizeof head);
}

static void put_null(writer *out) {
    static const uint8_t null[] = {0x05, 0x00};
    prepend(out, null, sizeof null);
}

static void put_pkcs1_oid(writer *out, uint8_t end) {
    uint8_t oid[] = {0x06, 0x09, 0x2A, 0x86, 0x48, 0x86, 0xF7, 0x0D, 0x01, 0x01, end};
    prepend(out, oid, sizeof oid);
}

static void put_hash(writer *out, const hash *what) {
    uint8_t oid[] = {0x06, 0x09, 0x60, 0x86, 0x48, 0x01, 0x65, 0x03, 0x04, 0x02, what->oid_end};
    size_t since = out->at;
    put_null(out);
    prepend(out, oid, sizeof oid);
    wrap(out, 0x30, since);
}

/* DER leaves out what is the default, 20. */
static void put_salt(writer *out, int salt) {
    uint8_t bytes[] = {(uint8_t)(salt >> 8), (uint8_t)salt};
    size_t since = out->at;
    bool two = salt > 127;
    if (salt == 20) return;
    prepend(out, bytes + !two, two ? 2 : 1);
    wrap(out, 0x02, since);
    wrap(out, 0xA2, since);
}

static void put_mask(writer *out, const hash *what) {
    size_t since = out->at;
    put_hash(out, what);
    put_pkcs1_oid(out, 8);
    wrap(out, 0x30, since);
    wrap(out, 0xA1, since);
}

static void put_pss(writer *out, const hash *what, int salt) {
    size_t since = out->at;
    put_salt(out, salt);
    put_mask(out, what);
    size_t before = out->at;
    put_hash(out, what);
    wrap(out, 0xA0, before);
    wrap(out, 0x30, since);
    put_pkcs1_oid(out, 10);
}

/* (it has no parameters) */
static void put_ecdsa(writer *out, const hash *what) {
    uint8_t oid[] = {0x06, 0x08, 0x2A, 0x86, 0x48, 0xCE, 0x3D, 0x04, 0x03, what->ecdsa_oid_end};
    prepend(out, oid, sizeof oid);
}

size_t hash_identify(const hash *digest, manner by, int salt, uint8_t *into, size_t room) {
    writer made = {.at = sizeof made.bytes};
    if (by == BY_PSS && (salt < 0 || salt > 0x7FFF)) return 0;
    if (by == BY_ECDSA) {
        put_ecdsa(&made, digest);
    } else if (by == BY_PSS) {
        put_pss(&made, digest, salt);
    } else {
        put_null(&made);
        put_pkcs1_oid(&made, digest->rsa_oid_end);
    }
    wrap(&made, 0x30, sizeof made.bytes);
    size_t count = sizeof made.bytes - made.at;
    if (count > room) return 0;
    memcpy(into, made.bytes + made.at, count);
    return count;
}
