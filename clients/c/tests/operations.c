/* Operations, keys and certificates past the calls of words, against PyKMIP: operations OBJECTS
   HOST PORT CERTIFICATE KEY AUTHORITY, where OBJECTS is the folder of certs.sh that has them. What
   was got of them is left in the folder that it is run in. */
#define _DEFAULT_SOURCE
#include "testing.h"

#include <openssl/evp.h>
#include <openssl/hmac.h>
#include <stdarg.h>
#include <time.h>

#define NAME "operations, c"
#define HMAC_SHA256 "HMAC_SHA256"
#define ECDSA "ECDSA"
#define IDENTIFIER "{'tag':'UniqueIdentifier','type':'TextString','value':'%s'}"
#define TEXT(tag, text) "{'tag':'" tag "','type':'TextString','value':'" text "'}"
#define NAMED(tag, name) "{'tag':'" tag "','type':'Enumeration','value':'" name "'}"
#define BYTES(tag, hex) "{'tag':'" tag "','type':'ByteString','value':'" hex "'}"
#define ITEMS(tag, items) "{'tag':'" tag "','value':[" items "]}"
#define ATTRIBUTE(name, value) ITEMS("Attribute", TEXT("AttributeName", name) "," value)

/* Any operation, whose payload has these items: JSON in which ' stands for each double quote. */
static int ask(kmip_client *client, const char *name, const char *items, ...) {
    static char payload[8000];
    int front = snprintf(payload, sizeof payload, "{'tag':'RequestPayload','value':[");
    va_list given;
    va_start(given, items);
    int count = vsnprintf(payload + front, sizeof payload - (size_t)front - 3, items, given);
    va_end(given);
    if (count < 0 || (size_t)(front + count) + 3 > sizeof payload) exit(1);
    memcpy(payload + front + count, "]}", 3);
    for (char *at = payload; *at; at++)
        if (*at == '\'') *at = '"';
    return kmip_operation(client, name, "1.2", payload);
}

/* A copy of a text of the last answer. */
static char *copy_at(kmip_client *client, const char *path) {
    const char *text = kmip_text(client, path, NULL);
    char *copy = text ? strdup(text) : NULL;
    if (copy) return copy;
    printf("FAILED  c: the answer has no %s: %s\n", path, kmip_line(client));
    exit(1);
}

/* The bytes of a file of a folder, whose length is written. */
static uint8_t *read_file(const char *folder, const char *name, size_t *length) {
    char path[1000];
    snprintf(path, sizeof path, "%s/%s", folder, name);
    FILE *file = fopen(path, "rb");
    uint8_t *bytes = malloc(8000);
    if (!file || !bytes) exit(1);
    *length = fread(bytes, 1, 8000, file);
    fclose(file);
    return bytes;
}

static void write_file(const char *name, const void *bytes, size_t length) {
    FILE *file = fopen(name, "wb");
    if (!file || fwrite(bytes, 1, length, file) != length || fclose(file) != 0) exit(1);
}

static char *hex_of(const uint8_t *bytes, size_t length) {
    char *hex = malloc(2 * length + 1);
    if (!hex) exit(1);
    hex[0] = 0;
    for (size_t i = 0; i < length; i++)
        snprintf(hex + 2 * i, 3, "%02X", bytes[i]);
    return hex;
}

static bool bytes_are(kmip_client *client, const char *path, const uint8_t *wanted, size_t length) {
    size_t found = 0;
    const uint8_t *bytes = kmip_bytes(client, path, &found);
    return bytes && found == length && memcmp(bytes, wanted, length) == 0;
}

/* Registers a key of an algorithm that calls of words do not have. */
static char *registered(kmip_client *client, const char *tag, const char *format,
                        const char *algorithm, int use, const uint8_t *material, size_t length) {
    static const char items[] =
        "{'tag':'ObjectType','type':'Enumeration','value':'%s'},"
        "{'tag':'TemplateAttribute','value':[{'tag':'Attribute','value':["
        "{'tag':'AttributeName','type':'TextString','value':'Cryptographic Usage Mask'},"
        "{'tag':'AttributeValue','type':'Integer','value':%d}]}]},"
        "{'tag':'%s','value':[{'tag':'KeyBlock','value':["
        "{'tag':'KeyFormatType','type':'Enumeration','value':'%s'},"
        "{'tag':'KeyValue','value':[{'tag':'KeyMaterial','type':'ByteString','value':'%s'}]},"
        "{'tag':'CryptographicAlgorithm','type':'Enumeration','value':'%s'},"
        "{'tag':'CryptographicLength','type':'Integer','value':256}]}]}";
    char *hex = hex_of(material, length);
    int status = ask(client, "Register", items, tag, use, tag, format, hex, algorithm);
    free(hex);
    check(status == KMIP_ANSWERED, "a key of another algorithm is registered");
    return copy_at(client, "UniqueIdentifier");
}

/* The attributes and the bytes of a key are those that were registered. */
static void is_kept(kmip_client *client, const char *key, const char *tag, const char *algorithm,
                    const uint8_t *material, size_t length) {
    char path[100];
    check(ask(client, "GetAttributes",
              IDENTIFIER "," TEXT("AttributeName", "Cryptographic Algorithm"),
              key) == KMIP_ANSWERED,
          "its attributes are got");
    check_text(kmip_text(client, "UniqueIdentifier", NULL), key, "and are its own");
    check_text(kmip_text(client, "Attribute.AttributeValue", NULL), algorithm,
               "its algorithm is one of them");
    check(ask(client, "Get", IDENTIFIER, key) == KMIP_ANSWERED, "it is got");
    check_text(kmip_text(client, "ObjectType", NULL), tag, "by its type");
    snprintf(path, sizeof path, "%s.KeyBlock.KeyValue.KeyMaterial", tag);
    check(bytes_are(client, path, material, length), "as it was");
    check(kmip_call(client, "attributes", key, NULL) == KMIP_ANSWERED &&
              kmip_text(client, "Attribute.AttributeName", NULL),
          "its attributes are read by words, too");
    check(kmip_call(client, "get", key, NULL) == KMIP_ANSWERED, "it is got by words, too");
    check(bytes_are(client, path, material, length), "as it was");
}

static void keys(kmip_client *client, const char *objects) {
    uint8_t secret[32], wanted[EVP_MAX_MD_SIZE];
    unsigned count = 0;
    size_t length;
    for (size_t i = 0; i < sizeof secret; i++)
        secret[i] = (uint8_t)i;
    char *key = registered(client, "SymmetricKey", "Raw", HMAC_SHA256, 0x80, secret, sizeof secret);
    is_kept(client, key, "SymmetricKey", HMAC_SHA256, secret, sizeof secret);
    check(kmip_call(client, "activate", key, NULL) == KMIP_ANSWERED, "it is made active");
    check(ask(client, "MAC", IDENTIFIER "," BYTES("Data", "68656C6C6F"), key) == KMIP_ANSWERED,
          "a MAC is made");
    HMAC(EVP_sha256(), secret, sizeof secret, (const uint8_t *)"hello", 5, wanted, &count);
    check(bytes_are(client, "MACData", wanted, count), "which is that of the key");
    free(key);
    uint8_t *der = read_file(objects, "EC.PKCS8.der", &length);
    key = registered(client, "PrivateKey", "PKCS8", ECDSA, 0x1, der, length);
    is_kept(client, key, "PrivateKey", ECDSA, der, length);
    check(ask(client, "Get", IDENTIFIER, key) == KMIP_ANSWERED, "the key on a curve is got");
    const uint8_t *got = kmip_bytes(client, "PrivateKey.KeyBlock.KeyValue.KeyMaterial", &length);
    if (got) write_file("ec.der", got, length);
    free(key);
    free(der);
}

static void signatures(kmip_client *client) {
    static const struct {
        const char *data, *validity;
    } rows[] = {{"68656C6C6F", "Valid"}, {"48656C6C6F", "Invalid"}};
    size_t length;
    check(kmip_call(client, "create-rsa", "2048", NAME, NAME ", public", NULL) == KMIP_ANSWERED,
          "a pair is made");
    char *private = copy_at(client, "private_key"), *public = copy_at(client, "public_key");
    check(kmip_call(client, "activate", private, NULL) == KMIP_ANSWERED &&
              kmip_call(client, "activate", public, NULL) == KMIP_ANSWERED,
          "and made active");
    check(kmip_call(client, "sign", private, "68656C6C6F", "hash=SHA512", "padding=PSS", NULL) ==
              KMIP_ANSWERED,
          "the private key signs");
    const uint8_t *signature = kmip_bytes(client, "signature_data", &length);
    char *hex = hex_of(signature, signature ? length : 0);
    for (size_t i = 0; i < 2; i++) {
        check(
            ask(client, "SignatureVerify",
                IDENTIFIER "," ITEMS(
                    "CryptographicParameters",
                    NAMED("PaddingMethod", "PSS") "," NAMED("HashingAlgorithm", "SHA512") "," NAMED(
                        "CryptographicAlgorithm",
                        "RSA")) "," BYTES("Data", "%s") "," BYTES("SignatureData", "%s"),
                public, rows[i].data, hex) == KMIP_ANSWERED,
            "the server verifies a signature");
        check_text(kmip_text(client, "ValidityIndicator", NULL), rows[i].validity,
                   "and says whether it is one");
    }
    free(hex);
    free(private);
    free(public);
}

static int seal(kmip_client *client, const char *operation, const char *key, const char *hex) {
    return ask(
        client, operation,
        IDENTIFIER
        "," ITEMS("CryptographicParameters",
                  NAMED("BlockCipherMode", "CBC") "," NAMED("PaddingMethod", "PKCS5") "," NAMED(
                      "CryptographicAlgorithm",
                      "AES")) "," BYTES("Data", "%s") "," BYTES("IVCounterNonce",
                                                                "00000000000000000000000000000000"),
        key, hex);
}

static void encryption(kmip_client *client) {
    char wrap[100];
    check(kmip_call(client, "create", "AES", "256", NAME, "usage=Encrypt,Decrypt,WrapKey", NULL) ==
              KMIP_ANSWERED,
          "an AES key is made");
    char *key = copy_at(client, "unique_identifier");
    check(kmip_call(client, "activate", key, NULL) == KMIP_ANSWERED, "and made active");
    check(seal(client, "Encrypt", key, "68656C6C6F") == KMIP_ANSWERED, "data are encrypted");
    char *sealed = copy_at(client, "Data");
    check(strlen(sealed) == 32, "to one block");
    check(seal(client, "Decrypt", key, sealed) == KMIP_ANSWERED, "and decrypted");
    check(bytes_are(client, "Data", (const uint8_t *)"hello", 5), "to what they were");
    /* PyKMIP wraps only where the request says that the encoding is none, and else has a reason of
       KMIP 1.2 that is past the table. */
    snprintf(wrap, sizeof wrap, "wrap=%s", key);
    check(kmip_call(client, "get", key, wrap, NULL) == KMIP_REFUSED, "a reason past the table");
    check(strstr(kmip_line(client),
                 "\"reason\":{\"number\":18},"
                 "\"message\":\"Encoding option 'None' is not supported.\"") != NULL,
          "is told, with the server's message");
    check(ask(client, "Get",
              IDENTIFIER
              "," ITEMS("KeyWrappingSpecification", NAMED("WrappingMethod", "Encrypt") "," ITEMS(
                                                        "EncryptionKeyInformation", IDENTIFIER)),
              key, key) == KMIP_REFUSED,
          "the same of any operation");
    check(strstr(kmip_line(client), "\"error\":\"ServerError\"") &&
              strstr(kmip_line(client), "Encoding option 'None'"),
          "has the server's message too");
    free(sealed);
    free(key);
}

/* Which of the objects with the name were made between two dates. */
static int made_between(kmip_client *client, long long first, long long last) {
#define DATE "{'tag':'AttributeValue','type':'DateTime','value':'0x%016llX'}"
    return ask(client, "Locate",
               ATTRIBUTE("Initial Date", DATE) "," ATTRIBUTE("Initial Date", DATE) "," ATTRIBUTE(
                   "Name", ITEMS("AttributeValue", TEXT("NameValue", NAME) "," NAMED(
                                                       "NameType", "UninterpretedTextString"))),
               first, last);
}

static void dates(kmip_client *client) {
    long long now = (long long)time(NULL);
    check(made_between(client, now - 600, now + 600) == KMIP_ANSWERED &&
              kmip_text(client, "UniqueIdentifier.1", NULL) &&
              !kmip_text(client, "UniqueIdentifier.2", NULL),
          "objects are located by the date that they were made at");
    check(made_between(client, now - 1200, now - 600) == KMIP_ANSWERED &&
              !kmip_text(client, "UniqueIdentifier", NULL),
          "and none that were made at another");
}

static void certificates(kmip_client *client, const char *objects) {
    size_t length;
    uint8_t *der = read_file(objects, "Certificate.X509.der", &length);
    check(kmip_register_certificate(client, der, length, NAME ", certificate",
                                    "Verify,CertificateSign") == KMIP_ANSWERED,
          "a certificate is registered");
    char *made = copy_at(client, "UniqueIdentifier");
    check(kmip_call(client, "locate", NAME ", certificate", NULL) == KMIP_ANSWERED, "is located");
    check_text(kmip_text(client, "unique_identifiers.0", NULL), made, "by its name");
    check(kmip_call(client, "attributes", made, "Cryptographic Usage Mask", NULL) == KMIP_ANSWERED,
          "has attributes");
    check_text(kmip_text(client, "attributes.0.value.Integer", NULL), "4098", "and its uses");
    check(kmip_call(client, "get", made, NULL) == KMIP_ANSWERED, "and is got");
    check(bytes_are(client, "cryptographic_object.Certificate.certificate_value", der, length),
          "as it was");
    const char *pem = kmip_pem(client);
    char *again = pem ? strdup(pem) : NULL;
    if (!again) exit(1);
    write_file("certificate.pem", again, strlen(again));
    check(kmip_register_certificate(client, again, strlen(again), NULL, NULL) == KMIP_ANSWERED,
          "its PEM is registered too");
    check(kmip_call(client, "destroy", made, NULL) == KMIP_ANSWERED, "the first is destroyed");
    check(kmip_call(client, "get", made, NULL) == KMIP_REFUSED &&
              strstr(kmip_line(client), "ItemNotFound"),
          "after which it is gone");
    free(again);
    free(made);
    free(der);
}

int main(int argc, char **argv) {
    if (argc < 7) return 2;
    kmip_settings settings = settings_of(argv + 1);
    settings.seconds = 120;
    kmip_client *client = opened(&settings);
    keys(client, argv[1]);
    signatures(client);
    encryption(client);
    dates(client);
    certificates(client, argv[1]);
    kmip_close(client);
    return outcome();
}
