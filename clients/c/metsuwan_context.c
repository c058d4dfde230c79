/* What connections are made by: the caller's SSL_CTX, or one of files that takes only servers of one
   authority. */
#define _POSIX_C_SOURCE 200809L
#include "metsuwan_internal.h"

#include <openssl/crypto.h>
#include <openssl/err.h>
#include <openssl/ssl.h>
#include <stdio.h>
#include <string.h>

/* Keeps a reason, and is false. */
PRINTS(2, 3)
static bool fails(kmip_reason *why, const char *format, ...) {
    va_list given;
    va_start(given, format);
    vsnprintf(why->text, sizeof why->text, format, given);
    va_end(given);
    return false;
}

/* The first thing that OpenSSL has said since its errors were cleared: the cause of the others. */
static bool fails_by_openssl(kmip_reason *why, const char *what) {
    unsigned long error = ERR_peek_error();
    char text[160] = "";
    if (ERR_GET_LIB(error) == ERR_LIB_SYS)
        return fails(why, "%s%s", what, kmip_said_of(ERR_GET_REASON(error), text, sizeof text));
    const char *said = ERR_reason_error_string(error);
    return fails(why, "%s%s", what, said ? said : "OpenSSL gives no reason");
}

typedef struct {
    const char *text;
    bool asked;
} passphrase;

static int give_passphrase(char *into, int room, int writes, void *given) {
    passphrase *phrase = given;
    phrase->asked = true;
    size_t count = phrase->text ? strlen(phrase->text) : 0;
    if (!phrase->text || writes || count > (size_t)room) return -1;
    memcpy(into, phrase->text, count);
    return (int)count;
}

static int give_none(char *into, int room, int writes, void *given) {
    (void)into, (void)room, (void)writes, (void)given;
    return -1;
}

static bool fails_by_file(kmip_reason *why, const char *what, const char *path) {
    char front[200];
    snprintf(front, sizeof front, "%s %.150s: ", what, path);
    return fails_by_openssl(why, front);
}

/* Whether a file can be read, and has no block of PEM with a label that ends so. */
static bool lacks(const char *path, const char *label) {
    FILE *file = fopen(path, "rb");
    char line[80];
    bool found = false;
    if (!file) return false;
    /* It may be a key, of which no copy is to be left. */
    bool found_out = setvbuf(file, NULL, _IONBF, 0) == 0;
    while (found_out && !found && fgets(line, sizeof line, file))
        found = strncmp(line, "-----BEGIN ", 11) == 0 && strstr(line, label);
    found_out = found_out && ferror(file) == 0;
    (void)fclose(file); /* which was read */
    OPENSSL_cleanse(line, sizeof line);
    return found_out && !found;
}

static bool use_key(SSL_CTX *context, const kmip_settings *settings, kmip_reason *why) {
    passphrase phrase = {.text = settings->passphrase};
    SSL_CTX_set_default_passwd_cb(context, give_passphrase);
    SSL_CTX_set_default_passwd_cb_userdata(context, &phrase);
    int used = SSL_CTX_use_PrivateKey_file(context, settings->key, SSL_FILETYPE_PEM);
    SSL_CTX_set_default_passwd_cb(context, give_none);
    SSL_CTX_set_default_passwd_cb_userdata(context, NULL);
    if (used == 1) return true;
    if (lacks(settings->key, "PRIVATE KEY-----"))
        return fails(why, "key %.150s: there is no private key in PEM", settings->key);
    if (!phrase.asked) return fails_by_file(why, "key", settings->key);
    return fails(why, "key %.150s: it is encrypted, and %s", settings->key,
                 phrase.text ? "this is not its passphrase" : "no passphrase is given");
}

/* The certificate, its key and the authority, out of their files. */
static bool use_files(SSL_CTX *context, const kmip_settings *settings, kmip_reason *why) {
    /* No certificate is encrypted: without this OpenSSL would ask the terminal. */
    SSL_CTX_set_default_passwd_cb(context, give_none);
    if (SSL_CTX_use_certificate_chain_file(context, settings->certificate) != 1) {
        if (lacks(settings->certificate, "CERTIFICATE-----"))
            return fails(why, "certificate %.150s: there is no certificate in PEM",
                         settings->certificate);
        return fails_by_file(why, "certificate", settings->certificate);
    }
    if (!use_key(context, settings, why)) return false;
    if (SSL_CTX_load_verify_locations(context, settings->authority, NULL) != 1)
        return fails_by_file(why, "authority", settings->authority);
    /* The authority may be the one that made the server's certificate, and need be no root. */
    X509_VERIFY_PARAM *param = SSL_CTX_get0_param(context);
    if (X509_VERIFY_PARAM_set_flags(param, X509_V_FLAG_PARTIAL_CHAIN) != 1)
        return fails_by_openssl(why, "TLS: ");
    return true;
}

/* A context of these files, or a null pointer. */
static SSL_CTX *context_of_files(const kmip_settings *settings, kmip_reason *why) {
#if OPENSSL_VERSION_NUMBER >= 0x30000000L
    SSL_CTX *context = SSL_CTX_new_ex(settings->library, NULL, TLS_client_method());
#else
    if (settings->library) {
        fails(why, "library: this OpenSSL has no OSSL_LIB_CTX");
        return NULL;
    }
    SSL_CTX *context = SSL_CTX_new(TLS_client_method());
#endif
    if (!context) fails_by_openssl(why, "TLS: ");
    if (!context || use_files(context, settings, why)) return context;
    SSL_CTX_free(context);
    return NULL;
}

struct ssl_ctx_st *kmip_context_of(const kmip_settings *settings, kmip_reason *why) {
    SSL_CTX *context = settings->context;
    ERR_clear_error();
    if (!context)
        context = context_of_files(settings, why);
    else if (SSL_CTX_up_ref(context) != 1) {
        fails_by_openssl(why, "TLS: ");
        context = NULL;
    }
    ERR_clear_error();
    return context;
}
