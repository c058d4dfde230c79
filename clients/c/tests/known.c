/* Servers that are not known, whatever a context says: known TEXT HOST PORT CERTIFICATE KEY AUTHORITY,
   where TEXT is a part of why the server is refused, after `weak:` by weak ciphers alone; or
   `taken`. */
#define _DEFAULT_SOURCE
#include "testing.h"

#include <openssl/ssl.h>
#include <openssl/x509v3.h>

/* The kinds of callbacks by which a context may take anybody. */

static int yes(int is_right, X509_STORE_CTX *chain) {
    (void)is_right, (void)chain;
    return 1;
}

static int yes_and_forgets(int is_right, X509_STORE_CTX *chain) {
    X509_STORE_CTX_set_error(chain, X509_V_OK);
    return yes(is_right, chain);
}

static int all_of_it(X509_STORE_CTX *chain, void *given) {
    (void)chain, (void)given;
    return 1;
}

static int no_chain(X509_STORE_CTX *chain) {
    (void)chain;
    return 1;
}

static unsigned shared_key(SSL *tls, const char *hint, char *who, unsigned room, unsigned char *key,
                           unsigned most) {
    (void)tls, (void)hint;
    snprintf(who, room, "client");
    if (most < 16) return 0;
    memset(key, 0x11, 16);
    return 16;
}

static void set_nothing(SSL_CTX *context) {
    SSL_CTX_set_verify(context, SSL_VERIFY_PEER, NULL);
}

static void set_none(SSL_CTX *context) {
    SSL_CTX_set_verify(context, SSL_VERIFY_NONE, NULL);
}

static void set_yes(SSL_CTX *context) {
    SSL_CTX_set_verify(context, SSL_VERIFY_PEER, yes);
}

static void set_forgets(SSL_CTX *context) {
    SSL_CTX_set_verify(context, SSL_VERIFY_NONE, yes_and_forgets);
}

static void set_whole(SSL_CTX *context) {
    SSL_CTX_set_cert_verify_callback(context, all_of_it, NULL);
}

static void set_store(SSL_CTX *context) {
    X509_STORE_set_verify_cb(SSL_CTX_get_cert_store(context), yes_and_forgets);
}

static void set_chain(SSL_CTX *context) {
    set_store(context);
    X509_STORE_set_verify(SSL_CTX_get_cert_store(context), no_chain);
}

static void set_purpose(SSL_CTX *context) {
    set_whole(context);
    if (SSL_CTX_set_purpose(context, X509_PURPOSE_ANY) != 1) exit(1);
}

/* Ciphers without a certificate, of TLS 1.2 and older. */
static void set_weak(SSL_CTX *context) {
    SSL_CTX_set_security_level(context, 0);
    if (SSL_CTX_set_cipher_list(context, "ALL:eNULL:aNULL:PSK:@SECLEVEL=0") != 1) exit(1);
    SSL_CTX_set_psk_client_callback(context, shared_key);
    if (SSL_CTX_set_min_proto_version(context, TLS1_VERSION) != 1) exit(1);
    set_whole(context);
}

static const struct {
    const char *what;
    void (*set)(SSL_CTX *);
} kinds[] = {
    {"with no callback", set_nothing},
    {"where nothing is verified", set_none},
    {"with a verify callback that says yes", set_yes},
    {"with one that forgets what was wrong", set_forgets},
    {"with a callback in the place of all that", set_whole},
    {"with a callback of the store", set_store},
    {"with another one in the place of the chain's", set_chain},
    {"with the purpose of anybody", set_purpose},
    {"with weak ciphers", set_weak},
};

/* A new connection with a context of this kind: the client, or a null pointer and why. */
static kmip_client *open_by(kmip_settings settings, void (*set)(SSL_CTX *), char *why,
                            size_t room) {
    SSL_CTX *context = SSL_CTX_new(TLS_client_method());
    if (!context || SSL_CTX_use_certificate_chain_file(context, settings.certificate) != 1 ||
        SSL_CTX_use_PrivateKey_file(context, settings.key, SSL_FILETYPE_PEM) != 1 ||
        SSL_CTX_load_verify_locations(context, settings.authority, NULL) != 1)
        exit(1);
    set(context);
    settings.context = context;
    settings.certificate = settings.key = settings.authority = NULL;
    kmip_client *client = kmip_open(&settings, why, room);
    SSL_CTX_free(context);
    return client;
}

/* A session of the connection before, which the next one takes up. */
static SSL_SESSION *kept;

static int keep_session(SSL *tls, SSL_SESSION *session) {
    (void)tls;
    SSL_SESSION_free(kept);
    kept = session;
    return 1;
}

static void take_up(const SSL *tls, int where, int result) {
    (void)result;
    SSL *changed = SSL_get_SSL_CTX(tls) ? (SSL *)(uintptr_t)tls : NULL;
    if (where == SSL_CB_HANDSHAKE_START && changed && kept) (void)SSL_set_session(changed, kept);
}

static void set_sessions(SSL_CTX *context) {
    SSL_CTX_set_session_cache_mode(context, SSL_SESS_CACHE_CLIENT | SSL_SESS_CACHE_NO_INTERNAL);
    SSL_CTX_sess_set_new_cb(context, keep_session);
    SSL_CTX_set_info_callback(context, take_up);
}

static void sessions(const kmip_settings *settings) {
    char why[300] = "";
    kmip_client *client = open_by(*settings, set_sessions, why, sizeof why);
    check(client && kmip_call(client, "query", NULL) == KMIP_ANSWERED && kept,
          "a connection whose session is kept");
    kmip_close(client);
    client = open_by(*settings, set_sessions, why, sizeof why);
    check(!client && strstr(why, "TLS: the session is an earlier one"),
          "the next takes it up, and is refused");
    kmip_close(client);
    SSL_SESSION_free(kept);
    kept = NULL;
}

int main(int argc, char **argv) {
    if (argc < 7) return 2;
    const kmip_settings settings = settings_of(argv + 1);
    bool is_taken = strcmp(argv[1], "taken") == 0;
    bool is_weak = strncmp(argv[1], "weak:", 5) == 0;
    const char *wanted = argv[1] + (is_weak ? 5 : 0);
    for (size_t i = 0; i < sizeof kinds / sizeof *kinds; i++) {
        char why[300] = "", what[200];
        if (is_weak && kinds[i].set != set_weak) continue;
        kmip_client *client = open_by(settings, kinds[i].set, why, sizeof why);
        snprintf(what, sizeof what, "%s, %s", wanted, kinds[i].what);
        if (is_taken)
            check(client && kmip_call(client, "query", NULL) == KMIP_ANSWERED, what);
        else
            check(!client && strstr(why, "\"ConnectError\"") && strstr(why, wanted), what);
        if (!is_taken && !strstr(why, wanted)) printf("        %s\n", client ? "open" : why);
        kmip_close(client);
    }
    if (is_taken) sessions(&settings);
    return outcome();
}
