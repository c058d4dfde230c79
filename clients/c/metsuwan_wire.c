/* A TLS connection over OpenSSL, of which each use ends by a deadline: the socket never blocks, and
   what waits is poll. */
#define _POSIX_C_SOURCE 200809L
#include "metsuwan_internal.h"

#include <arpa/inet.h>
#include <errno.h>
#include <float.h>
#include <netinet/in.h>
#include <openssl/bio.h>
#include <openssl/crypto.h>
#include <openssl/err.h>
#include <openssl/ssl.h>
#include <openssl/x509v3.h>
#include <poll.h>
#include <stdarg.h>
#include <stdio.h>
#include <stdlib.h>
#include <string.h>
#include <sys/random.h>
#include <sys/socket.h>
#include <sys/types.h>
#include <time.h>
#include <unistd.h>

struct kmip_wire {
    SSL_CTX *context;
    struct ossl_lib_ctx_st *library; /* of the context; null: the default one */
    SSL *tls;
    BIO_METHOD *carrier; /* how OpenSSL reads and writes the socket */
    int socket;
    kmip_time time;     /* of this use */
    int error;          /* the errno of a read or a write that failed, or 0 */
    kmip_process owner; /* the process that opened it */
    bool ended;         /* the other side has ended the connection */
    bool broken;        /* it cannot be ended in order */
    bool is_late;       /* the last use failed since its time was over */
    bool sending;       /* what goes to the socket is a request */
    bool sent;          /* a byte of it did */
    bool read;          /* a byte of an answer came */
    bool refused;       /* the server refused the certificate, and has read no request */
    char reason[256];
};

double kmip_now(void) {
    struct timespec at;
    if (clock_gettime(CLOCK_MONOTONIC, &at) != 0) return DBL_MAX;
    return (double)at.tv_sec + (double)at.tv_nsec / 1e9;
}

/* Keeps a reason, and is false. */
PRINTS(2, 3)
static bool fails(kmip_wire *wire, const char *format, ...) {
    va_list given;
    va_start(given, format);
    vsnprintf(wire->reason, sizeof wire->reason, format, given);
    va_end(given);
    wire->broken = true;
    wire->is_late = false;
    return false;
}

/* What strerror_r gives is a status, or with _GNU_SOURCE the text, which may stand elsewhere. */

static const char *text_by_status(int status, const char *text) {
    return status == 0 ? text : "an unknown error";
}

static const char *text_itself(const char *given, const char *text) {
    (void)text;
    return given;
}

/* What the system says of an error: in this room, or elsewhere. */
const char *kmip_said_of(int error, char *text, size_t room) {
#define SAID(given) _Generic((given), int : text_by_status, char * : text_itself)((given), text)
    return SAID(strerror_r(error, text, room));
#undef SAID
}

static bool fails_by_errno(kmip_wire *wire, const char *what, int error) {
    char text[160] = "";
    return fails(wire, "%s%s", what, kmip_said_of(error, text, sizeof text));
}

bool kmip_random(uint8_t *into, size_t count, char *reason, size_t room) {
    char text[160] = "";
    ssize_t got;
    do
        got = getrandom(into, count, 0);
    while (got < 0 && errno == EINTR);
    if (got >= 0 && (size_t)got == count) return true;
    snprintf(reason, room, "%s",
             got < 0 ? kmip_said_of(errno, text, sizeof text) : "they are too few");
    return false;
}

static bool runs_late(kmip_wire *wire) {
    fails(wire, "no answer within %g seconds", wire->time.seconds);
    wire->is_late = true;
    return false;
}

/* Whether an alert says that the client's certificate is refused (RFC 8446, 6.2). Without
   authentication after the handshake, which is not offered, a server sends it before it reads
   anything that comes after the handshake (4.4.2.4, 4.4.3). */
static bool is_refusal(int alert) {
    switch (alert) {
    case SSL_AD_BAD_CERTIFICATE:
    case SSL_AD_UNSUPPORTED_CERTIFICATE:
    case SSL_AD_CERTIFICATE_REVOKED:
    case SSL_AD_CERTIFICATE_EXPIRED:
    case SSL_AD_CERTIFICATE_UNKNOWN:
    case SSL_AD_UNKNOWN_CA:
    case SSL_AD_ACCESS_DENIED:
    case SSL_AD_CERTIFICATE_REQUIRED: return true;
    default: return false;
    }
}

/* The alert that an error of OpenSSL stands for, or 0. */
static int alert_of(unsigned long error) {
    int alert =
        ERR_GET_LIB(error) == ERR_LIB_SSL ? ERR_GET_REASON(error) - SSL_AD_REASON_OFFSET : 0;
    return alert > 0 && alert < 256 ? alert : 0;
}

/* The first thing that OpenSSL has said since its errors were cleared: the cause of the others. */
static bool fails_by_openssl(kmip_wire *wire, const char *what) {
    unsigned long error = ERR_peek_error();
    int alert = alert_of(error);
    if (is_refusal(alert) && !wire->read) {
        wire->refused = true;
        return fails(wire, "%sthe server refused the certificate: %s", what,
                     SSL_alert_desc_string_long(alert));
    }
    if (ERR_GET_LIB(error) == ERR_LIB_SYS) return fails_by_errno(wire, what, ERR_GET_REASON(error));
    const char *text = ERR_reason_error_string(error);
    return fails(wire, "%s%s", what, text ? text : "OpenSSL gives no reason");
}

bool kmip_time_is_over(const kmip_time *time) {
    return time->end > 0 && kmip_now() >= time->end;
}

/* Whether the time of this use is over. */
static bool is_late(const kmip_wire *wire) {
    return kmip_time_is_over(&wire->time);
}

/* Waits until the socket can be read or written, or the time is over. */
static bool wait_for(kmip_wire *wire, short events) {
    struct pollfd wanted = {.fd = wire->socket, .events = events};
    for (;;) {
        double left = wire->time.end > 0 ? wire->time.end - kmip_now() : 3600;
        if (left <= 0) return runs_late(wire);
        int ready = poll(&wanted, 1, left < 3600 ? (int)(1000 * left) + 1 : 3600000);
        if (ready > 0) return true;
        if (ready < 0 && errno != EINTR) return fails_by_errno(wire, "", errno);
    }
}

/* Whether the socket has bytes to read, or its end. */
static bool is_readable(const kmip_wire *wire) {
    struct pollfd wanted = {.fd = wire->socket, .events = POLLIN};
    return poll(&wanted, 1, 0) > 0;
}

/* How OpenSSL reads and writes the socket: with no SIGPIPE, and so that a cause is known. */

static int carrier_read(BIO *bio, char *into, int room) {
    kmip_wire *wire = BIO_get_data(bio);
    BIO_clear_retry_flags(bio);
    /* OpenSSL comes again and again where a peer sends what is no data, as tickets, without end. */
    if (is_late(wire)) {
        BIO_set_retry_read(bio);
        return -1;
    }
    ssize_t count = recv(wire->socket, into, (size_t)room, 0);
    if (count == 0) wire->ended = true;
    if (count >= 0) return (int)count;
    if (errno == EAGAIN || errno == EWOULDBLOCK || errno == EINTR)
        BIO_set_retry_read(bio);
    else
        wire->error = errno;
    return -1;
}

static int carrier_write(BIO *bio, const char *bytes, int length) {
    kmip_wire *wire = BIO_get_data(bio);
    BIO_clear_retry_flags(bio);
    if (is_late(wire)) {
        BIO_set_retry_write(bio);
        return -1;
    }
    ssize_t count = send(wire->socket, bytes, (size_t)length, MSG_NOSIGNAL);
    if (count > 0 && wire->sending) wire->sent = true;
    if (count >= 0) return (int)count;
    if (errno == EAGAIN || errno == EWOULDBLOCK || errno == EINTR)
        BIO_set_retry_write(bio);
    else
        wire->error = errno;
    return -1;
}

static long carrier_control(BIO *bio, int what, long number, void *pointer) {
    const kmip_wire *wire = BIO_get_data(bio);
    (void)number;
    (void)pointer;
    if (what == BIO_CTRL_EOF) return wire->ended;
    return what == BIO_CTRL_FLUSH;
}

static bool carry(kmip_wire *wire) {
    wire->carrier = BIO_meth_new(BIO_TYPE_SOURCE_SINK, "metsuwan");
    if (!wire->carrier) return false;
    BIO_meth_set_read(wire->carrier, carrier_read);
    BIO_meth_set_write(wire->carrier, carrier_write);
    BIO_meth_set_ctrl(wire->carrier, carrier_control);
    BIO *bio = BIO_new(wire->carrier);
    if (!bio) return false;
    BIO_set_data(bio, wire);
    BIO_set_init(bio, 1);
    SSL_set_bio(wire->tls, bio, bio);
    return true;
}

/* Whether an operation of TLS that was not done goes on; it waits for that. False with a reason. */
static bool goes_on(kmip_wire *wire, int result) {
    switch (SSL_get_error(wire->tls, result)) {
    case SSL_ERROR_WANT_READ: return wait_for(wire, POLLIN);
    case SSL_ERROR_WANT_WRITE: return wait_for(wire, POLLOUT);
    case SSL_ERROR_ZERO_RETURN: return fails(wire, "end of input");
    default: break;
    }
    long verified = SSL_get_verify_result(wire->tls);
    if (wire->error != 0) return fails_by_errno(wire, "", wire->error);
    if (wire->ended) return fails(wire, "end of input");
    if (verified == X509_V_OK) return fails_by_openssl(wire, "");
    return fails(wire, "the server's certificate: %s", X509_verify_cert_error_string(verified));
}

/* What the server's certificate has to name: an address, or a host. */
static bool expect(kmip_wire *wire, const char *host) {
    unsigned char address[sizeof(struct in6_addr)];
    char plain[256]; /* an address without its zone, as in fe80::1%eth0 */
    size_t length = strlen(host);
    snprintf(plain, sizeof plain, "%.*s", (int)strcspn(host, "%"), host);
    if (inet_pton(AF_INET, plain, address) == 1 || inet_pton(AF_INET6, plain, address) == 1)
        return X509_VERIFY_PARAM_set1_ip_asc(SSL_get0_param(wire->tls), plain) == 1;
    /* The dot that ends a whole name, as in kms.example., is in no certificate. */
    if (length > 1 && host[length - 1] == '.') length--;
    snprintf(plain, sizeof plain, "%.*s", (int)length, host);
    return SSL_set_tlsext_host_name(wire->tls, plain) == 1 && SSL_set1_host(wire->tls, plain) == 1;
}

/* What holds of each connection, whatever its context says; OpenSSL's own contexts are changed by
   its configuration, too. */
static bool insist(SSL *tls) {
    uint64_t options = SSL_OP_NO_RENEGOTIATION | SSL_OP_NO_COMPRESSION;
#ifdef SSL_OP_CLEANSE_PLAINTEXT
    options |= SSL_OP_CLEANSE_PLAINTEXT;
#endif
    SSL_set_options(tls, options);
    /* It comes back after what was no data, with no more of the socket's bytes than that. */
    SSL_clear_mode(tls, SSL_MODE_ASYNC | SSL_MODE_AUTO_RETRY);
    SSL_set_read_ahead(tls, 0);
    SSL_set_verify(tls, SSL_VERIFY_PEER, SSL_get_verify_callback(tls));
    /* Else the certificate could be refused after a request was read. */
    SSL_set_post_handshake_auth(tls, 0);
    /* A name is one of the certificate's alternative names, or one of these with a whole label for
       its `*`. */
    SSL_set_hostflags(tls,
                      X509_CHECK_FLAG_NO_PARTIAL_WILDCARDS | X509_CHECK_FLAG_NEVER_CHECK_SUBJECT);
    return SSL_get_min_proto_version(tls) >= TLS1_2_VERSION ||
           SSL_set_min_proto_version(tls, TLS1_2_VERSION) == 1;
}

/* Whether the server is known; else nothing is sent. */
static bool is_known(kmip_wire *wire, const char *host) {
    kmip_reason why = {""};
    return kmip_is_known(wire->tls, wire->library, host, &why) || fails(wire, "%s", why.text);
}

static bool shake_hands(kmip_wire *wire, const char *host) {
    wire->tls = SSL_new(wire->context);
    if (!wire->tls || !insist(wire->tls) || !expect(wire, host) || !carry(wire))
        return fails_by_openssl(wire, "TLS: ");
    for (;;) {
        if (is_late(wire)) return runs_late(wire);
        ERR_clear_error();
        int result = SSL_connect(wire->tls);
        if (result == 1) return is_known(wire, host);
        if (!goes_on(wire, result)) return false;
    }
}

/* Lets go of the address whose handshake failed. */
static void forget_address(kmip_wire *wire) {
    SSL_free(wire->tls);
    BIO_meth_free(wire->carrier);
    if (wire->socket >= 0) (void)close(wire->socket);
    wire->tls = NULL;
    wire->carrier = NULL;
    wire->socket = -1;
    wire->error = 0;
    wire->ended = false;
}

/* Connects and shakes hands with the first address of the race for which both come about; each has
   its share of the time. A refused certificate ends it: the addresses are those of one server. */
static bool open_one(kmip_wire *wire, kmip_race *race, const char *name, kmip_reason *why) {
    const kmip_time whole = wire->time;
    while (kmip_race_left(race) > 0 && !wire->refused && !kmip_time_is_over(&whole)) {
        wire->socket = kmip_race_next(race, &whole, why);
        if (wire->socket < 0) return false;
        size_t left = kmip_race_left(race);
        if (whole.end > 0 && left > 0)
            wire->time = kmip_time_share(&whole, (double)(left + 1), whole.seconds);
        if (shake_hands(wire, name)) return true;
        kmip_reason_add(why, wire->reason);
        forget_address(wire);
        wire->time = whole;
    }
    return false;
}

static bool open_wire(kmip_wire *wire, const kmip_way *way, kmip_reason *why) {
    char host[256]; /* without the brackets of [::1] */
    size_t length = strlen(way->host);
    bool bare = way->host[0] != '[' || way->host[length - 1] != ']';
    if (length >= sizeof host) {
        kmip_reason_add(why, "host: it is too long");
        return false;
    }
    snprintf(host, sizeof host, "%.*s", (int)(bare ? length : length - 2), way->host + !bare);
    wire->time = way->time;
    ERR_clear_error();
    kmip_race *race = kmip_race_begin(host, way->port, &way->time, why);
    bool open = race && open_one(wire, race, way->name ? way->name : host, why);
    kmip_race_end(race);
    return open;
}

kmip_wire *kmip_wire_open(const kmip_way *way, int *status, bool *refused, kmip_reason *why) {
    kmip_wire *wire = calloc(1, sizeof *wire);
    bool made = wire && kmip_process_here(&wire->owner) && SSL_CTX_up_ref(way->context) == 1;
    *status = made ? KMIP_LOST : KMIP_NO_MEMORY;
    *refused = false;
    *why = (kmip_reason){""};
    if (!made) {
        kmip_reason_add(why, "out of memory");
        free(wire);
        return NULL;
    }
    wire->context = way->context;
    wire->library = way->library;
    wire->socket = -1;
    bool open = open_wire(wire, way, why);
    ERR_clear_error();
    wire->broken = !open; /* whatever became of other addresses */
    *refused = wire->refused;
    if (open) return wire;
    kmip_wire_close(wire);
    return NULL;
}

kmip_time kmip_time_share(const kmip_time *whole, double parts, double most) {
    double now = kmip_now();
    double part = whole->end > 0 ? (whole->end - now) / parts : most;
    if (most > 0 && part > most) part = most;
    if (part <= 0) return *whole;
    /* (it is told in words) */
    return (kmip_time){.end = now + part, .seconds = (double)(long)(part * 100 + 0.5) / 100};
}

void kmip_wire_until(kmip_wire *wire, const kmip_time *time) {
    wire->time = *time;
}

void kmip_wire_begin(kmip_wire *wire, const kmip_time *time) {
    wire->time = *time;
    wire->sent = false;
}

bool kmip_wire_is_idle(kmip_wire *wire) {
    uint8_t byte;
    size_t count = 0;
    if (!kmip_process_is(&wire->owner)) return fails(wire, "the connection is another process's");
    for (;;) {
        if (is_late(wire)) return runs_late(wire);
        ERR_clear_error();
        int result = SSL_read_ex(wire->tls, &byte, 1, &count);
        if (result == 1) return fails(wire, "the server sent bytes that no call had asked for");
        int error = SSL_get_error(wire->tls, result);
        if (error != SSL_ERROR_WANT_READ && error != SSL_ERROR_WANT_WRITE)
            return goes_on(wire, result);
        /* Without more in the socket there is nothing to read; else it was no data. */
        if (!is_readable(wire)) return true;
    }
}

/* Writes all of them. */
static bool write_all(kmip_wire *wire, const uint8_t *bytes, size_t count) {
    for (size_t done = 0, sent = 0; done < count; done += sent) {
        sent = 0;
        if (is_late(wire)) return runs_late(wire);
        ERR_clear_error();
        int result = SSL_write_ex(wire->tls, bytes + done, count - done, &sent);
        if (result != 1 && !goes_on(wire, result)) return false;
    }
    return true;
}

/* Where a write failed the server may have refused the certificate, by an alert that is not read
   yet. */
static void look_for_alert(kmip_wire *wire) {
    uint8_t byte;
    size_t count = 0;
    ERR_clear_error();
    wire->error = 0;
    if (SSL_read_ex(wire->tls, &byte, 1, &count) != 1 && is_refusal(alert_of(ERR_peek_error())))
        (void)fails_by_openssl(wire, "");
}

bool kmip_wire_write(kmip_wire *wire, const uint8_t *bytes, size_t count) {
    wire->sending = true;
    bool written = write_all(wire, bytes, count);
    wire->sending = false;
    if (!written && !wire->is_late) look_for_alert(wire);
    return written;
}

bool kmip_wire_is_refused(const kmip_wire *wire) {
    return wire->refused;
}

bool kmip_wire_was_sent(const kmip_wire *wire) {
    return wire->sent;
}

void kmip_wire_abandon(kmip_wire *wire) {
    wire->broken = true;
}

bool kmip_wire_read(kmip_wire *wire, uint8_t *into, size_t count, size_t *done) {
    while (*done < count) {
        size_t got = 0;
        if (is_late(wire)) return runs_late(wire);
        ERR_clear_error();
        int result = SSL_read_ex(wire->tls, into + *done, count - *done, &got);
        wire->read = wire->read || got > 0;
        *done += got;
        if (result != 1 && !goes_on(wire, result)) return false;
    }
    return true;
}

const char *kmip_wire_reason(const kmip_wire *wire) {
    return wire->reason;
}

void kmip_wire_goes_on(kmip_wire *wire) {
    wire->is_late = wire->broken = false;
}

bool kmip_wire_is_late(const kmip_wire *wire) {
    return wire->is_late;
}

/* In the child of a fork its copy of the socket is closed, which says nothing to the server; else the
   connection would outlast its end in the parent. What belongs to OpenSSL stays: another thread of
   the parent may have had its locks. */
static void leave(kmip_wire *wire) {
    if (wire->socket >= 0) (void)close(wire->socket);
    wire->socket = -1;
}

void kmip_wire_close(kmip_wire *wire) {
    if (!wire) return;
    if (!kmip_process_is(&wire->owner)) {
        leave(wire);
        return;
    }
    /* It says that it ends, and does not wait until the other side says so too. What cannot be said
       at once is left out. */
    wire->time = (kmip_time){0};
    if (wire->tls && !wire->broken) (void)SSL_shutdown(wire->tls);
    SSL_free(wire->tls);
    BIO_meth_free(wire->carrier);
    SSL_CTX_free(wire->context);
    if (wire->socket >= 0) (void)close(wire->socket);
    ERR_clear_error();
    free(wire);
}
