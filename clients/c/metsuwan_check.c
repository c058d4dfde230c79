/* Whether it is known, after a handshake of TLS, who the server is: whatever a context and OpenSSL's
   configuration say. */
#include "metsuwan_internal.h"

#include <arpa/inet.h>
#include <netinet/in.h>
#include <openssl/ssl.h>
#include <openssl/x509v3.h>
#include <stdio.h>
#include <string.h>

#if OPENSSL_VERSION_NUMBER < 0x30000000L
#define SSL_get1_peer_certificate SSL_get_peer_certificate
#endif

/* The least bits of a key by which a cipher encrypts. */
#define LEAST_BITS 112

/* Keeps a reason, and is false. */
static bool is_not(kmip_reason *why, const char *what, const char *text) {
    snprintf(why->text, sizeof why->text, "%s%.180s", what, text);
    return false;
}

/* What is wrong stays wrong, whatever a callback of the context's store would say. */
static int as_it_is(int is_right, X509_STORE_CTX *check) {
    (void)check;
    return is_right;
}

/* Sets up the verification of a chain as TLS does, but with no callback of the context; what verifies
   is what does so by itself, whatever the store has in its place. */
static bool prepare(X509_STORE_CTX *check, SSL *tls, X509_STORE *trusted, X509 *peer) {
    if (X509_STORE_CTX_init(check, NULL, peer, NULL) != 1) return false;
    X509_STORE_CTX_verify_fn verify = X509_STORE_CTX_get_verify(check);
    X509_STORE_CTX_cleanup(check);
    if (X509_STORE_CTX_init(check, trusted, peer, SSL_get_peer_cert_chain(tls)) != 1) return false;
    X509_VERIFY_PARAM *param = X509_STORE_CTX_get0_param(check);
    X509_VERIFY_PARAM_set_auth_level(param, SSL_get_security_level(tls));
    X509_STORE_CTX_set_verify(check, verify);
    X509_STORE_CTX_set_verify_cb(check, as_it_is);
    return X509_VERIFY_PARAM_set1(param, SSL_get0_param(tls)) == 1 &&
           X509_VERIFY_PARAM_set_purpose(param, X509_PURPOSE_SSL_SERVER) == 1 &&
           X509_VERIFY_PARAM_set_trust(param, X509_TRUST_SSL_SERVER) == 1;
}

/* The authorities of servers: a context may have them in a store apart. */
static X509_STORE *trusted_by(SSL *tls) {
    X509_STORE *apart = NULL;
#ifdef SSL_get0_verify_cert_store
    (void)SSL_get0_verify_cert_store(tls, &apart);
#endif
    return apart ? apart : SSL_CTX_get_cert_store(SSL_get_SSL_CTX(tls));
}

/* Verifies the server's certificate once more: in the handshake a callback of the context may have
   stood in the place of that. */
static bool is_verified(SSL *tls, struct ossl_lib_ctx_st *library, X509 *peer, kmip_reason *why) {
#if OPENSSL_VERSION_NUMBER >= 0x30000000L
    X509_STORE_CTX *check = X509_STORE_CTX_new_ex(library, NULL);
#else
    X509_STORE_CTX *check = X509_STORE_CTX_new();
    (void)library;
#endif
    bool is_ready = check && prepare(check, tls, trusted_by(tls), peer);
    bool is_right = is_ready && X509_verify_cert(check) == 1;
    int error = is_ready ? X509_STORE_CTX_get_error(check) : X509_V_ERR_OUT_OF_MEM;
    X509_STORE_CTX_free(check);
    if (is_right && error == X509_V_OK) return true;
    return is_not(why, "the server's certificate: ", X509_verify_cert_error_string(error));
}

/* Whether the certificate names the host, which is asked apart from all that a context can set. */
static bool is_named(X509 *peer, const char *host) {
    unsigned flags = X509_CHECK_FLAG_NO_PARTIAL_WILDCARDS | X509_CHECK_FLAG_NEVER_CHECK_SUBJECT;
    unsigned char address[sizeof(struct in6_addr)];
    char plain[256]; /* an address without its zone, as in fe80::1%eth0 */
    size_t length = strlen(host);
    snprintf(plain, sizeof plain, "%.*s", (int)strcspn(host, "%"), host);
    if (inet_pton(AF_INET, plain, address) == 1 || inet_pton(AF_INET6, plain, address) == 1)
        return X509_check_ip_asc(peer, plain, flags) == 1;
    /* The dot that ends a whole name, as in kms.example., is in no certificate. */
    if (length > 1 && host[length - 1] == '.') length--;
    return X509_check_host(peer, host, length, flags, NULL) == 1;
}

bool kmip_is_known(struct ssl_st *tls, struct ossl_lib_ctx_st *library, const char *host,
                   kmip_reason *why) {
    const SSL_CIPHER *cipher = SSL_get_current_cipher(tls);
    if (SSL_version(tls) < TLS1_2_VERSION)
        return is_not(why, "TLS: older than TLS 1.2: ", SSL_get_version(tls));
    if (!cipher || SSL_CIPHER_get_bits(cipher, NULL) < LEAST_BITS)
        return is_not(why, "TLS: nothing is encrypted, or weakly: ", SSL_get_cipher(tls));
    /* Of an earlier session no certificate is shown again. */
    if (SSL_session_reused(tls)) return is_not(why, "TLS: the session is an earlier one", "");
    X509 *peer = SSL_get1_peer_certificate(tls);
    if (!peer) return is_not(why, "TLS: the server has no certificate", "");
    long verified = SSL_get_verify_result(tls);
    bool is_right = false;
    if (verified != X509_V_OK)
        is_not(why, "the server's certificate: ", X509_verify_cert_error_string(verified));
    else if (!is_named(peer, host))
        is_not(why, "the server's certificate: it does not name ", host);
    else
        is_right = is_verified(tls, library, peer, why);
    X509_free(peer);
    return is_right;
}
