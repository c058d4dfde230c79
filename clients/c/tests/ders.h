/* A certificate and a key of certs.sh in DER, and DER as a certificate in PEM. */
#ifndef DERS_H
#define DERS_H
#include <openssl/evp.h>
#include <openssl/pem.h>
#include <openssl/x509.h>
#include <stdio.h>
#include <stdlib.h>
#include <string.h>

static inline uint8_t *der_of_certificate(const char *path, size_t *length) {
    FILE *file = fopen(path, "rb");
    X509 *certificate = file ? PEM_read_X509(file, NULL, NULL, NULL) : NULL;
    unsigned char *der = NULL;
    int count = certificate ? i2d_X509(certificate, &der) : -1;
    if (count < 0) exit(1);
    X509_free(certificate);
    fclose(file);
    *length = (size_t)count;
    return der;
}

static inline uint8_t *der_of_key(const char *path, size_t *length) {
    FILE *file = fopen(path, "rb");
    EVP_PKEY *key = file ? PEM_read_PrivateKey(file, NULL, NULL, NULL) : NULL;
    unsigned char *der = NULL;
    int count = key ? i2d_PrivateKey(key, &der) : -1;
    if (count < 0) exit(1);
    EVP_PKEY_free(key);
    fclose(file);
    *length = (size_t)count;
    return der;
}

/* With white space wherever a writer may put it, and other text before and after. */
static inline char *pem_of(const uint8_t *der, size_t length) {
    static const char front[] = "0: \xE9\r\n-----BEGIN CERTIFICATE-----\r\n";
    static const char back[] = "\n-----END CERTIFICATE-----\r\nafter";
    char *digits = malloc(4 * length / 3 + 8), *pem = malloc(2 * length + 200), *at = pem;
    if (!digits || !pem) exit(1);
    EVP_EncodeBlock((unsigned char *)digits, der, (int)length);
    memcpy(at, front, sizeof front - 1);
    at += sizeof front - 1;
    for (size_t i = 0; digits[i]; i++) {
        *at++ = digits[i];
        if (i % 40 == 2) *at++ = "\n\r\t\f "[i % 5];
    }
    memcpy(at, back, sizeof back);
    free(digits);
    return pem;
}

#endif
