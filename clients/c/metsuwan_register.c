/* Keys, certificates and secrets: the payloads of requests to register them, the DER of keys whose
   parts are told one by one, and PEM of what a server gave. */
#define _POSIX_C_SOURCE 200809L
#include "metsuwan_internal.h"

#include <limits.h>
#include <openssl/bio.h>
#include <openssl/crypto.h>
#include <openssl/evp.h>
#include <openssl/pem.h>
#include <openssl/x509.h>
#include <stdio.h>
#include <stdlib.h>
#include <string.h>

static const char begin[] = "-----BEGIN CERTIFICATE-----", end[] = "-----END CERTIFICATE-----";

/* Whether bytes are a sequence of DER (X.690, 8.1) and nothing after it. */
static bool is_sequence(const uint8_t *der, size_t count) {
    if (count < 2 || der[0] != 0x30) return false;
    if (der[1] < 0x80) return count == (size_t)der[1] + 2;
    size_t digits = (size_t)der[1] - 0x80, length = 0;
    if (digits < 1 || digits > 4 || count < digits + 2) return false;
    for (size_t i = 0; i < digits; i++)
        length = length << 8 | der[2 + i];
    return length == count - 2 - digits;
}

/* Whether bytes are an X.509 certificate. A private key is a sequence of DER, too, and servers show
   certificates to everybody. */
static bool is_certificate(const uint8_t *der, size_t count) {
    const unsigned char *at = der;
    if (count > LONG_MAX) return false;
    X509 *certificate = d2i_X509(NULL, &at, (long)count);
    X509_free(certificate);
    return certificate && at == der + count;
}

static const char no_certificate[] = "the certificate is none of X.509";

/* The value of a digit of base64 (RFC 4648, 4); -1: it is none. */
static int sextet(char made) {
    static const char digits[] = "ABCDEFGHIJKLMNOPQRSTUVWXYZabcdefghijklmnopqrstuvwxyz0123456789+/";
    const char *found = made ? strchr(digits, made) : NULL;
    return found ? (int)(found - digits) : -1;
}

/* Decodes base64 with white space anywhere, in its own place: how many bytes, or -1. */
static int64_t decode_base64(uint8_t *text, size_t count) {
    uint32_t number = 0;
    size_t digits = 0, padding = 0, done = 0;
    for (size_t i = 0; i < count; i++) {
        char made = (char)text[i];
        if (made == '\n' || made == '\r' || made == '\t' || made == '\f' || made == ' ') continue;
        int value = made == '=' ? 0 : sextet(made);
        if (value < 0 || (padding > 0 && made != '=')) return -1;
        padding += made == '=';
        number = number << 6 | (uint32_t)value;
        if (++digits % 4 != 0) continue;
        text[done++] = (uint8_t)(number >> 16);
        text[done++] = (uint8_t)(number >> 8);
        text[done++] = (uint8_t)number;
    }
    return digits % 4 == 0 && padding <= 2 ? (int64_t)(done - padding) : -1;
}

/* What is wrong with the text of a PEM, which begins and ends where the one certificate in it does,
   or a null pointer. It is decoded in its own place, and then `count` is that of its bytes. */
static const char *decode_pem(char **at, size_t *count) {
    bool is_der = **at == 0x30;
    char *own = strstr(*at, begin);
    if (!own)
        return is_der ? "the certificate is not one whole structure of DER"
                      : "the certificate is neither DER nor PEM";
    own += sizeof begin - 1;
    if (strstr(own, begin))
        return "the certificate is several in one PEM, and one at a time is registered";
    const char *last = strstr(own, end);
    if (!last) return "the certificate has no end in its PEM";
    int64_t decoded = decode_base64((uint8_t *)own, (size_t)(last - own));
    if (decoded < 0) return "the certificate is not base64 in its PEM";
    *at = own;
    *count = (size_t)decoded;
    if (!is_sequence((uint8_t *)own, *count))
        return "the certificate is not one whole structure of DER in its PEM";
    if (!is_certificate((uint8_t *)own, *count)) return no_certificate;
    return NULL;
}

/* The bits of KMIP's names of uses with `,` between two (1.0, 9.1.3.3.1); 0: one is none. */
static int32_t bits_of(const char *usage) {
    static const char *const names[] = {
        "Sign",
        "Verify",
        "Encrypt",
        "Decrypt",
        "WrapKey",
        "UnwrapKey",
        "Export",
        "MacGenerate",
        "MacVerify",
        "DeriveKey",
        "ContentCommitmentNonRepudiation",
        "KeyAgreement",
        "CertificateSign",
        "CrlSign",
        "GenerateCryptogram",
        "ValidateCryptogram",
        "TranslateEncrypt",
        "TranslateDecrypt",
        "TranslateWrap",
        "TranslateUnwrap",
    };
    int32_t bits = 0;
    for (const char *at = usage;; at++) {
        size_t length = strcspn(at, ","), found = 0, count = sizeof names / sizeof *names;
        while (found < count &&
               (strlen(names[found]) != length || strncmp(names[found], at, length) != 0))
            found++;
        if (found == count) return 0;
        bits |= (int32_t)1 << found;
        at += length;
        if (!*at) return bits;
    }
}

/* A payload that is written. Once memory has run out, nothing more is. */
typedef struct {
    kmip_room room;
    size_t length;
    bool failed;
} writer;

static void put(writer *out, const char *text, size_t count) {
    size_t wanted = out->length + count + 1;
    if (!out->failed && wanted > out->room.room)
        out->failed = !kmip_room_has(&out->room, 2 * wanted);
    if (!out->room.bytes || (!text && count > 0)) out->failed = true;
    if (out->failed) return;
    if (count > 0) memcpy(out->room.bytes + out->length, text, count);
    out->length += count;
    out->room.bytes[out->length] = 0;
}

/* Writes JSON, in which ' stands for each double quote. */
static void put_json(writer *out, const char *json) {
    for (; *json; json++)
        put(out, *json == '\'' ? "\"" : json, 1);
}

/* Writes what stands between the quotes of a string of JSON. */
static void put_string(writer *out, const char *text) {
    while (*text) {
        char shown[8];
        text += kmip_write_character(text, shown);
        put(out, shown, strlen(shown));
    }
}

static void put_bytes(writer *out, const uint8_t *bytes, size_t count) {
    for (size_t i = 0; i < count; i++) {
        char digits[3];
        snprintf(digits, sizeof digits, "%02X", bytes[i]);
        put(out, digits, 2);
    }
}

static void put_usage(writer *out, int32_t bits) {
    char number[16];
    int count = snprintf(number, sizeof number, "%ld", (long)bits);
    put_json(out, "{'tag':'Attribute','value':["
                  "{'tag':'AttributeName','type':'TextString','value':'Cryptographic Usage Mask'},"
                  "{'tag':'AttributeValue','type':'Integer','value':");
    put(out, number, (size_t)count);
    put_json(out, "}]}");
}

static void put_name(writer *out, const char *name) {
    put_json(out, "{'tag':'Attribute','value':["
                  "{'tag':'AttributeName','type':'TextString','value':'Name'},"
                  "{'tag':'AttributeValue','value':["
                  "{'tag':'NameValue','type':'TextString','value':'");
    put_string(out, name);
    put_json(out, "'},{'tag':'NameType','type':'Enumeration','value':'UninterpretedTextString'}"
                  "]}]}");
}

/* The payload with this certificate in DER. */
static void put_payload(writer *out, const uint8_t *der, size_t count, const char *name,
                        int32_t uses) {
    put_json(out, "{'tag':'RequestPayload','value':["
                  "{'tag':'ObjectType','type':'Enumeration','value':'Certificate'},"
                  "{'tag':'TemplateAttribute','value':[");
    if (uses != 0) put_usage(out, uses);
    if (uses != 0 && name) put_json(out, ",");
    if (name) put_name(out, name);
    put_json(out, "]},{'tag':'Certificate','value':["
                  "{'tag':'CertificateType','type':'Enumeration','value':'X509'},"
                  "{'tag':'CertificateValue','type':'ByteString','value':'");
    put_bytes(out, der, count);
    put_json(out, "'}]}]}");
}

/* A copy of bytes as a text, with a byte 0 after them; a null pointer where memory runs out. */
static char *copy_as_text(const uint8_t *bytes, size_t count) {
    char *text = malloc(count + 1);
    if (!text) return NULL;
    if (count > 0) memcpy(text, bytes, count);
    text[count] = 0;
    return text;
}

/* Writes the payload of a certificate that is no DER, and says what is wrong with it. */
static const char *put_pem(writer *out, const uint8_t *pem, size_t count, const char *name,
                           int32_t uses) {
    char *text = copy_as_text(pem, count), *der = text;
    size_t room = count + 1;
    if (!text) {
        out->failed = true;
        return NULL;
    }
    const char *wrong = decode_pem(&der, &count);
    if (!wrong) put_payload(out, (const uint8_t *)der, count, name, uses);
    OPENSSL_cleanse(text, room); /* what is no certificate may be a key */
    free(text);
    return wrong;
}

const char *kmip_write_certificate(kmip_room *into, const uint8_t *certificate, size_t length,
                                   const char *name, const char *usage) {
    int32_t uses = usage ? bits_of(usage) : 0;
    writer out = {{NULL, 0}, 0, false};
    const char *wrong = NULL;
    if (usage && uses == 0) return "usage is not names of KMIP";
    if (name && !kmip_is_utf8(name)) return "name is not UTF-8";
    bool whole = is_sequence(certificate, length);
    if (whole && !is_certificate(certificate, length)) return no_certificate;
    if (whole)
        put_payload(&out, certificate, length, name, uses);
    else
        wrong = put_pem(&out, certificate, length, name, uses);
    if (out.failed) kmip_room_free(&out.room);
    *into = out.room;
    return wrong;
}

/* The payload with an object whose parts `put_parts` writes. */
static void put_object(writer *out, const char *kind, const char *name, int32_t uses) {
    put_json(out, "{'tag':'RequestPayload','value':["
                  "{'tag':'ObjectType','type':'Enumeration','value':'");
    put_json(out, kind);
    put_json(out, "'},{'tag':'TemplateAttribute','value':[");
    if (uses != 0) put_usage(out, uses);
    if (uses != 0 && name) put_json(out, ",");
    if (name) put_name(out, name);
    put_json(out, "]},{'tag':'");
    put_json(out, kind);
    put_json(out, "','value':[");
}

/* Writes a key block with these bytes, but for what closes it. */
static void put_block(writer *out, const char *format, const uint8_t *bytes, size_t count) {
    put_json(out, "{'tag':'KeyBlock','value':["
                  "{'tag':'KeyFormatType','type':'Enumeration','value':'");
    put_json(out, format);
    put_json(out, "'},{'tag':'KeyValue','value':["
                  "{'tag':'KeyMaterial','type':'ByteString','value':'");
    put_bytes(out, bytes, count);
    put_json(out, "'}]}");
}

/* One block of PEM. */
typedef struct {
    char *label, *header;
    uint8_t *der;
    long length;
} block;

static void block_free(block *lines) {
    OPENSSL_free(lines->label);
    OPENSSL_free(lines->header);
    if (lines->der) OPENSSL_clear_free(lines->der, (size_t)lines->length);
    *lines = (block){NULL, NULL, NULL, 0};
}

/* The next block that has no parameters of a curve; false where there is none. */
static bool block_read(BIO *from, block *lines) {
    static const char parameters[] = "PARAMETERS";
    while (PEM_read_bio(from, &lines->label, &lines->header, &lines->der, &lines->length) == 1) {
        size_t length = strlen(lines->label), count = sizeof parameters - 1;
        if (length < count || strcmp(lines->label + length - count, parameters) != 0) return true;
        block_free(lines);
    }
    *lines = (block){NULL, NULL, NULL, 0};
    return false;
}

/* KMIP's formats of keys, by their labels in PEM. */
static const struct {
    const char *label, *kind, *format;
} formats[] = {
    {"RSA PUBLIC KEY", "PublicKey", "PKCS1"},         {"PUBLIC KEY", "PublicKey", "X509"},
    {"RSA PRIVATE KEY", "PrivateKey", "PKCS1"},       {"PRIVATE KEY", "PrivateKey", "PKCS8"},
    {"EC PRIVATE KEY", "PrivateKey", "ECPrivateKey"},
};
enum { FORMATS = sizeof formats / sizeof *formats };

static size_t format_of(const char *label) {
    size_t at = 0;
    while (at < FORMATS && strcmp(formats[at].label, label) != 0)
        at++;
    return at;
}

/* The key that a block has, read to its end, or a null pointer. */
static EVP_PKEY *key_of(const block *lines, size_t format) {
    const unsigned char *at = lines->der;
    EVP_PKEY *key = NULL;
    switch (format) {
    case 0: key = d2i_PublicKey(EVP_PKEY_RSA, NULL, &at, lines->length); break;
    case 1: key = d2i_PUBKEY(NULL, &at, lines->length); break;
    case 2: key = d2i_PrivateKey(EVP_PKEY_RSA, NULL, &at, lines->length); break;
    case 3: key = d2i_AutoPrivateKey(NULL, &at, lines->length); break;
    default: key = d2i_PrivateKey(EVP_PKEY_EC, NULL, &at, lines->length); break;
    }
    if (key && at != lines->der + lines->length) {
        EVP_PKEY_free(key);
        key = NULL;
    }
    return key;
}

static const char *algorithm_of(const EVP_PKEY *key) {
    switch (EVP_PKEY_base_id(key)) {
    case EVP_PKEY_RSA: return "RSA";
    case EVP_PKEY_EC: return "ECDSA";
    case EVP_PKEY_DSA: return "DSA";
    default: return NULL;
    }
}

/* Writes the payload of a key in PEM, or says what is wrong with it. */
static const char *put_key(writer *out, const char *kind, const block *own, const char *name,
                           int32_t uses) {
    char length[100];
    size_t format = format_of(own->label);
    if (strstr(own->label, "ENCRYPTED") || strstr(own->header, "ENCRYPTED"))
        return "the key is encrypted: decrypt it before, as by openssl pkey";
    if (format == FORMATS || strcmp(formats[format].kind, kind) != 0)
        return "the PEM has no key of this kind";
    EVP_PKEY *key = key_of(own, format);
    const char *algorithm = key ? algorithm_of(key) : NULL;
    snprintf(length, sizeof length, "'},{'tag':'CryptographicLength','type':'Integer','value':%d}",
             key ? EVP_PKEY_bits(key) : 0);
    EVP_PKEY_free(key);
    if (!key) return "the key is no DER of its kind";
    if (!algorithm) return "KMIP 1.2 has no name for the key's algorithm";
    put_object(out, kind, name, uses);
    put_block(out, formats[format].format, own->der, (size_t)own->length);
    put_json(out, ",{'tag':'CryptographicAlgorithm','type':'Enumeration','value':'");
    put_json(out, algorithm);
    put_json(out, length);
    put_json(out, "]}]}]}");
    return NULL;
}

/* The only block of a text of PEM, or what is wrong. */
static const char *only_block(BIO *from, block *into) {
    block second = {NULL, NULL, NULL, 0};
    if (!block_read(from, into)) return "the key is no PEM";
    bool more = block_read(from, &second);
    block_free(&second);
    return more ? "the key is several blocks of PEM, and one at a time is registered" : NULL;
}

const char *kmip_write_key(kmip_room *into, const char *kind, const void *pem, size_t length,
                           const char *name, const char *usage) {
    int32_t uses = usage ? bits_of(usage) : 0;
    writer out = {{NULL, 0}, 0, false};
    block own = {NULL, NULL, NULL, 0};
    if (usage && uses == 0) return "usage is not names of KMIP";
    if (name && !kmip_is_utf8(name)) return "name is not UTF-8";
    if (length > INT_MAX) return "the key is no PEM";
    BIO *from = BIO_new_mem_buf(pem, (int)length);
    const char *wrong = from ? only_block(from, &own) : NULL;
    out.failed = !from;
    if (from && !wrong) wrong = put_key(&out, kind, &own, name, uses);
    block_free(&own);
    BIO_free(from);
    if (out.failed || wrong) kmip_room_free(&out.room);
    *into = out.room;
    return wrong;
}

const char *kmip_write_secret(kmip_room *into, const void *data, size_t length, const char *kind,
                              const char *name, const char *usage) {
    int32_t uses = usage ? bits_of(usage) : 0;
    writer out = {{NULL, 0}, 0, false};
    if (usage && uses == 0) return "usage is not names of KMIP";
    if (name && !kmip_is_utf8(name)) return "name is not UTF-8";
    if (strcmp(kind, "Password") != 0 && strcmp(kind, "Seed") != 0)
        return "a secret is a Password or a Seed";
    put_object(&out, "SecretData", name, uses);
    put_json(&out, "{'tag':'SecretDataType','type':'Enumeration','value':'");
    put_json(&out, kind);
    put_json(&out, "'},");
    put_block(&out, "Opaque", data, length);
    put_json(&out, "]}]}]}");
    if (out.failed) kmip_room_free(&out.room);
    *into = out.room;
    return NULL;
}

/* Keys whose parts are told one by one. Of a failure the writer knows, also where a part is not
   there. */

static void put_element(writer *out, uint8_t tag, const writer *contents) {
    uint8_t head[6] = {tag};
    size_t count = 2, length = contents->length;
    head[1] = (uint8_t)length;
    if (length >= 0x80) {
        size_t digits = length > 0xFFFF ? 3 : length > 0xFF ? 2 : 1;
        head[1] = (uint8_t)(0x80 | digits);
        for (size_t i = digits; i > 0; i--)
            head[count++] = (uint8_t)(length >> (8 * (i - 1)));
    }
    if (contents->failed || length > 0xFFFFFF) out->failed = true;
    if (out->failed) return;
    put(out, (const char *)head, count);
    put(out, (const char *)contents->room.bytes, length);
}

/* Writes an element of bytes after `zeros` more of 0. */
static void put_padded(writer *out, uint8_t tag, size_t zeros, const uint8_t *bytes, size_t count) {
    writer own = {{NULL, 0}, 0, out->failed};
    for (size_t i = 0; i < zeros; i++)
        put(&own, "", 1);
    put(&own, (const char *)bytes, count);
    put_element(out, tag, &own);
    kmip_room_free(&own.room);
}

/* The bytes at a path of the line, without zeros before them: how many, or -1. */
static int64_t part(const char *line, const char *object, const char *tag, kmip_room *room,
                    const uint8_t **bytes) {
    char path[100];
    snprintf(path, sizeof path, "%s.KeyBlock.KeyValue.KeyMaterial.%s", object, tag);
    int64_t count = kmip_value_of(line, path, true, room);
    if (count < 0) return -1;
    for (*bytes = room->bytes; count > 0 && **bytes == 0; count--)
        (*bytes)++;
    return count;
}

static const char *const rsa_parts[] = {
    "Modulus", "PublicExponent", "PrivateExponent", "P",
    "Q",       "PrimeExponentP", "PrimeExponentQ",  "CRTCoefficient"};

static void put_rsa(writer *out, const char *line, const char *object, size_t parts) {
    writer own = {{NULL, 0}, 0, false};
    kmip_room room = {NULL, 0};
    const uint8_t *bytes = NULL;
    if (parts > 2) put_padded(&own, 0x02, 1, (const uint8_t *)"", 0);
    for (size_t i = 0; i < parts; i++) {
        int64_t count = part(line, object, rsa_parts[i], &room, &bytes);
        if (count < 0)
            own.failed = true;
        else
            put_padded(&own, 0x02, count == 0 || bytes[0] >= 0x80, bytes, (size_t)count);
    }
    put_element(out, 0x30, &own);
    kmip_room_free(&own.room);
    kmip_room_free(&room);
}

/* KMIP's curves: the object identifier of each, and its bytes. */
static const struct {
    const char *name, *identifier;
    uint8_t length, bytes;
} curves[] = {
    {"P_192", "\x2A\x86\x48\xCE\x3D\x03\x01\x01", 8, 24},
    {"P_224", "\x2B\x81\x04\x00\x21", 5, 28},
    {"P_256", "\x2A\x86\x48\xCE\x3D\x03\x01\x07", 8, 32},
    {"P_384", "\x2B\x81\x04\x00\x22", 5, 48},
    {"P_521", "\x2B\x81\x04\x00\x23", 5, 66},
    {"SECP256K1", "\x2B\x81\x04\x00\x0A", 5, 32},
    {"BRAINPOOLP256R1", "\x2B\x24\x03\x03\x02\x08\x01\x01\x07", 9, 32},
    {"BRAINPOOLP384R1", "\x2B\x24\x03\x03\x02\x08\x01\x01\x0B", 9, 48},
    {"BRAINPOOLP512R1", "\x2B\x24\x03\x03\x02\x08\x01\x01\x0D", 9, 64},
};
enum { CURVES = sizeof curves / sizeof *curves };

static size_t curve_of(const char *line, const char *object) {
    char path[100];
    kmip_room room = {NULL, 0};
    snprintf(path, sizeof path, "%s.KeyBlock.KeyValue.KeyMaterial.RecommendedCurve", object);
    int64_t count = kmip_value_of(line, path, false, &room);
    size_t at = 0;
    while (at < CURVES && (count != (int64_t)strlen(curves[at].name) ||
                           memcmp(room.bytes, curves[at].name, (size_t)count) != 0))
        at++;
    kmip_room_free(&room);
    return at;
}

static void put_curve(writer *out, size_t curve) {
    put_padded(out, 0x06, 0, (const uint8_t *)curves[curve].identifier, curves[curve].length);
}

/* A public key in X.509. */
static void put_point(writer *out, const char *line, size_t curve) {
    static const uint8_t ec[] = {0x2A, 0x86, 0x48, 0xCE, 0x3D, 0x02, 0x01};
    writer algorithm = {{NULL, 0}, 0, false}, own = {{NULL, 0}, 0, false};
    kmip_room room = {NULL, 0};
    const uint8_t *bytes = NULL;
    int64_t count = part(line, "PublicKey", "QString", &room, &bytes);
    put_padded(&algorithm, 0x06, 0, ec, sizeof ec);
    put_curve(&algorithm, curve);
    put_element(&own, 0x30, &algorithm);
    if (count <= 0)
        own.failed = true;
    else
        put_padded(&own, 0x03, 1, bytes, (size_t)count);
    put_element(out, 0x30, &own);
    kmip_room_free(&algorithm.room);
    kmip_room_free(&own.room);
    kmip_room_free(&room);
}

/* A private key in ECPrivateKey. */
static void put_ec_private_key(writer *out, const char *line, size_t curve) {
    writer own = {{NULL, 0}, 0, false}, parameters = {{NULL, 0}, 0, false};
    kmip_room room = {NULL, 0};
    const uint8_t *bytes = NULL;
    int64_t count = part(line, "PrivateKey", "D", &room, &bytes);
    put_padded(&own, 0x02, 0, (const uint8_t *)"\1", 1);
    if (count < 0 || count > curves[curve].bytes)
        own.failed = true;
    else
        put_padded(&own, 0x04, curves[curve].bytes - (size_t)count, bytes, (size_t)count);
    put_curve(&parameters, curve);
    put_element(&own, 0xA0, &parameters);
    put_element(out, 0x30, &own);
    kmip_room_free(&own.room);
    kmip_room_free(&parameters.room);
    kmip_room_free(&room);
}

const char *kmip_write_parts(kmip_room *into, size_t *length, const char *line,
                             const char *format) {
    static const char ec[] = "TransparentEC", public_key[] = "PublicKey";
    writer out = {{NULL, 0}, 0, false};
    const char *label = NULL;
    bool is_ec = strncmp(format, ec, sizeof ec - 1) == 0;
    bool is_public = strstr(format, public_key) != NULL;
    const char *object = is_public ? public_key : "PrivateKey";
    size_t curve = is_ec ? curve_of(line, object) : CURVES;
    if (strcmp(format, "TransparentRSAPublicKey") == 0) {
        label = "RSA PUBLIC KEY";
        put_rsa(&out, line, object, 2);
    } else if (strcmp(format, "TransparentRSAPrivateKey") == 0) {
        label = "RSA PRIVATE KEY";
        put_rsa(&out, line, object, sizeof rsa_parts / sizeof *rsa_parts);
    } else if (curve < CURVES && is_public) {
        label = "PUBLIC KEY";
        put_point(&out, line, curve);
    } else if (curve < CURVES) {
        label = "EC PRIVATE KEY";
        put_ec_private_key(&out, line, curve);
    }
    if (out.failed) label = NULL;
    if (!label) kmip_room_free(&out.room);
    *into = out.room;
    *length = out.length;
    return label;
}

/* Whether the text at a path is this one. */
static bool text_is(kmip_client *client, const char *path, const char *text) {
    const char *found = kmip_text(client, path, NULL);
    return found && strcmp(found, text) == 0;
}

/* What objects are called in PEM (RFC 7468, and OpenSSL's own for PKCS#1 and SEC 1), and where
   their bytes stand. */
#define KEY_BLOCK(object) "cryptographic_object." object ".key_block."
#define KEY(object, format, label)                                  \
    {                                                               \
        object, KEY_BLOCK(object) "key_format_type", format,        \
            KEY_BLOCK(object) "key_value.key_material.Bytes", label \
    }
static const struct {
    const char *object, *format_at, *format, *bytes_at, *label;
} pems[] = {
    KEY("PublicKey", "PKCS1", "RSA PUBLIC KEY"),
    KEY("PublicKey", "X509", "PUBLIC KEY"),
    KEY("PrivateKey", "PKCS1", "RSA PRIVATE KEY"),
    KEY("PrivateKey", "PKCS8", "PRIVATE KEY"),
    KEY("PrivateKey", "ECPrivateKey", "EC PRIVATE KEY"),
    {"Certificate", "cryptographic_object.Certificate.certificate_type", "X509",
     "cryptographic_object.Certificate.certificate_value", "CERTIFICATE"},
};

/* Writes bytes as PEM, in lines of 64 characters for 48 bytes; false where memory runs out. */
static bool write_pem(kmip_room *into, const char *label, const uint8_t *bytes, size_t count) {
    size_t room = 2 * (strlen(label) + 20) + (count + 47) / 48 * 65 + 1;
    if (!kmip_room_has(into, room)) return false;
    char *at = (char *)into->bytes;
    at += snprintf(at, room, "-----BEGIN %s-----\n", label);
    for (size_t done = 0; done < count; done += 48) {
        int left = count - done < 48 ? (int)(count - done) : 48;
        at += EVP_EncodeBlock((unsigned char *)at, bytes + done, left);
        *at++ = '\n';
    }
    snprintf(at, room - (size_t)(at - (char *)into->bytes), "-----END %s-----\n", label);
    return true;
}

/* The line of the response as one to Get: that of the last call, or one that is made; then it is
   kept in `own`. A null pointer where there is none. */
static const char *tree_of(kmip_client *client, kmip_room *own) {
    if (client->status != KMIP_ANSWERED || client->response_len == 0) return NULL;
    if (kmip_is_tree(kmip_line(client))) return kmip_line(client);
    kmip_room line = client->line;
    client->line = (kmip_room){NULL, 0};
    int32_t status = kmip_line_of_get(client);
    *own = client->line;
    client->line = line;
    return status == KMIP_ANSWERED ? (const char *)own->bytes : NULL;
}

/* The text at a path of a line, without the signs that KMIP's encodings put for others, as PKCS8
   for PKCS_8. */
static bool name_at(const char *line, const char *object, const char *path, char into[60]) {
    kmip_room room = {NULL, 0};
    char whole[100];
    size_t done = 0;
    snprintf(whole, sizeof whole, "%s%s", object, path);
    int64_t length = kmip_value_of(line, whole, false, &room);
    for (int64_t i = 0; i < length && done < 59; i++)
        if (room.bytes[i] != '_') into[done++] = (char)room.bytes[i];
    into[done] = 0;
    kmip_room_free(&room);
    return length >= 0;
}

/* The PEM of the object in a line of Get, in client->pem. */
static bool pem_of_tree(kmip_client *client, const char *line) {
    char kind[60], format[60], path[100];
    kmip_room der = {NULL, 0};
    size_t length = 0;
    const char *label = NULL;
    if (!name_at(line, "", "ObjectType", kind)) return false;
    bool is_key = name_at(line, kind, ".KeyBlock.KeyFormatType", format);
    if (!is_key && !name_at(line, kind, ".CertificateType", format)) return false;
    for (size_t i = 0; i < sizeof pems / sizeof *pems && !label; i++)
        if (strcmp(pems[i].object, kind) == 0 && strcmp(pems[i].format, format) == 0)
            label = pems[i].label;
    snprintf(path, sizeof path, "%s.%s", kind,
             is_key ? "KeyBlock.KeyValue.KeyMaterial" : "CertificateValue");
    int64_t found = label ? kmip_value_of(line, path, true, &der) : -1;
    if (label && found < 0) label = NULL;
    if (label)
        length = (size_t)found;
    else {
        kmip_room_free(&der);
        label = is_key ? kmip_write_parts(&der, &length, line, format) : NULL;
    }
    bool written = label && write_pem(&client->pem, label, der.bytes, length);
    kmip_room_free(&der);
    return written;
}

const char *kmip_pem(kmip_client *client) {
    if (!client || client->status != KMIP_ANSWERED) return NULL;
    bool is_tree = kmip_is_tree(kmip_line(client));
    for (size_t i = 0; !is_tree && i < sizeof pems / sizeof *pems; i++) {
        if (!text_is(client, pems[i].format_at, pems[i].format)) continue;
        size_t length = 0;
        const uint8_t *bytes = kmip_bytes(client, pems[i].bytes_at, &length);
        if (!bytes || !write_pem(&client->pem, pems[i].label, bytes, length)) return NULL;
        return (const char *)client->pem.bytes;
    }
    kmip_room own = {NULL, 0};
    const char *line = tree_of(client, &own);
    bool written = line && pem_of_tree(client, line);
    kmip_room_free(&own);
    return written ? (const char *)client->pem.bytes : NULL;
}
