/* Unique Batch Item IDs of operations, of calls of the table and of batches: ids MODE HOST PORT
   CERTIFICATE KEY AUTHORITY. It is linked with -Wl,--wrap=getrandom, so that the client's random
   bytes may be refused, and none of OpenSSL's. */
#define _DEFAULT_SOURCE
#include "ders.h"
#include "testing.h"

#include <errno.h>
#include <sys/random.h>

#define PAYLOAD(key)                                                                 \
    "{\"tag\":\"RequestPayload\",\"value\":[{\"tag\":\"UniqueIdentifier\",\"type\":" \
    "\"TextString\",\"value\":\"" key "\"}]}"

ssize_t __real_getrandom(void *into, size_t count, unsigned flags);
ssize_t __wrap_getrandom(void *into, size_t count, unsigned flags);

/* The errors of the next calls, as far as they are none that is 0. */
static int errors[3];
static size_t asked;
/* Whether the bytes of the next calls are all FF. */
static bool are_last;

ssize_t __wrap_getrandom(void *into, size_t count, unsigned flags) {
    int error = asked < sizeof errors / sizeof *errors ? errors[asked] : 0;
    asked++;
    if (error == 0 && are_last) memset(into, 0xFF, count);
    if (error == 0) return are_last ? (ssize_t)count : __real_getrandom(into, count, flags);
    errno = error;
    return -1;
}

static void next_errors(int first, int second) {
    errors[0] = first;
    errors[1] = second;
    asked = 0;
}

/* The ID that came, which the server answers as the data, at this path. */
static void id_of_last(kmip_client *client, const char *path, uint8_t into[8], const char *what) {
    size_t length = 0;
    const uint8_t *data = kmip_bytes(client, path, &length);
    check(data && length == 8, what);
    memset(into, 0, 8);
    if (data && length == 8) memcpy(into, data, 8);
}

/* Each operation, and each call of the table, has eight bytes of its own. */
static void own(kmip_client *client, const kmip_settings *settings) {
    enum { IDS = 5 };
    uint8_t ids[IDS][8];
    bool differ = true;
    for (size_t i = 0; i < 2; i++) {
        check(kmip_operation(client, "Encrypt", "1.2", PAYLOAD("k")) == KMIP_ANSWERED, "Encrypt");
        id_of_last(client, "Data", ids[i], "has an ID of eight bytes");
        check(kmip_call(client, "encrypt", "k", "00", NULL) == KMIP_ANSWERED, "encrypt");
        id_of_last(client, "data", ids[3 + i], "has one, too");
    }
    size_t length;
    uint8_t *der = der_of_certificate(settings->certificate, &length);
    check(kmip_register_certificate(client, der, length, NULL, NULL) == KMIP_ANSWERED, "Register");
    id_of_last(client, "Data", ids[2], "has one, too");
    OPENSSL_free(der);
    for (size_t i = 0; i < IDS; i++)
        for (size_t j = 0; j < i; j++)
            differ = differ && memcmp(ids[i], ids[j], 8) != 0;
    check(differ, "and each another one");
    check(kmip_call(client, "sign", "k", "00", NULL) == KMIP_ANSWERED, "a typed call");
    const uint8_t *data = kmip_bytes(client, "signature_data", &length);
    check(data && length == 5 && memcmp(data, "no id", 5) == 0, "has none");
}

/* Where the system has no random bytes, nothing is sent. */
static void no_random(const kmip_settings *settings, bool by_words) {
    kmip_client *client = opened(settings);
    next_errors(EINTR, 0);
    check(kmip_operation(client, "Encrypt", "1.2", PAYLOAD("k")) == KMIP_ANSWERED && asked == 2,
          "a signal while they are made is none of the call's");
    next_errors(ENOSYS, 0);
    check(kmip_call(client, "activate", "k", NULL) == KMIP_ANSWERED && asked == 0,
          "a typed call wants no random bytes");
    int status = by_words ? kmip_call(client, "encrypt", "k", "00", NULL)
                          : kmip_operation(client, "Encrypt", "1.2", PAYLOAD("k"));
    check(status == KMIP_LOST && !kmip_was_sent(client) &&
              kmip_error_kind(client) == KMIP_KIND_WRITE,
          "without random bytes nothing is sent");
    check_text(kmip_line(client),
               "{\"error\":\"RequestWriteError\",\"text\":\"no random bytes for the Unique Batch "
               "Item ID: Function not implemented; nothing was sent\"}",
               "and the cause is said");
    check(kmip_call(client, "activate", "k", NULL) == KMIP_LOST && !kmip_was_sent(client),
          "the connection is closed");
    kmip_close(client);
}

static char kept_line[4000];

static void keep_line(void *data, const char *line, size_t length) {
    (void)data, (void)length;
    snprintf(kept_line, sizeof kept_line, "%s", line);
}

/* Whether the record has these IDs, in this order: of the request, and of the response, which has
   the last item first. */
static bool has_recorded(const char *const *ids, size_t count) {
    const char *at = kept_line;
    for (size_t i = 0; at && i < count; i++) {
        at = strstr(at, "4200930800000008");
        if (at && strncmp(at + 16, ids[i], 16) != 0) at = NULL;
        if (at) at += 32;
    }
    return at && !strstr(at, "420093");
}

/* The IDs of a batch are numbers that follow each other, after the last one from 0. */
static void of_batch(kmip_settings settings) {
    static const char *const last[] = {"FFFFFFFFFFFFFFFF", "0000000000000000", "0000000000000001",
                                       "0000000000000001", "0000000000000000", "FFFFFFFFFFFFFFFF"};
    settings.record = keep_line;
    kmip_client *client = opened(&settings);
    kmip_batch *batch = kmip_batch_new(client, KMIP_ON_ERROR_CONTINUE);
    for (int i = 0; i < 3; i++)
        check(kmip_batch_call(batch, "activate", "k", NULL) == KMIP_ANSWERED, "a call is added");
    are_last = true;
    check(kmip_batch_send(batch) == KMIP_ANSWERED && has_recorded(last, 6), "a batch has IDs");
    are_last = false;
    check(kmip_batch_send(batch) == KMIP_ANSWERED && !has_recorded(last, 6), "and then others");
    next_errors(ENOSYS, 0);
    check(kmip_batch_send(batch) == KMIP_LOST && !kmip_was_sent(client) &&
              kmip_error_kind(client) == KMIP_KIND_WRITE,
          "without random bytes nothing is sent");
    check(strstr(kmip_line(client), "Unique Batch Item ID: Function not implemented") != NULL,
          "and the cause is said");
    check(kmip_batch_answer(batch, 0) == KMIP_CALL_GRAMMAR, "no call of it has an answer");
    kmip_batch_free(batch);
    kmip_close(client);
}

/* An answer that has not the ID of its request is none to it; without a payload, to one of words. */
static void is_lost(const kmip_settings *settings, const char *payload, const char *what) {
    kmip_client *client = opened(settings);
    static const char why[] = "{\"error\":\"InternalError\",\"text\":\"Response does not have the "
                              "request's Unique Batch Item ID\"";
    int status = payload ? kmip_operation(client, "Encrypt", "1.2", payload)
                         : kmip_call(client, "encrypt", "k", "00", NULL);
    check(status == KMIP_LOST && kmip_error_kind(client) == KMIP_KIND_OTHER_ANSWER &&
              kmip_was_sent(client),
          what);
    check(strncmp(kmip_line(client), why, sizeof why - 1) == 0, "and why is said");
    check(!kmip_text(client, "UniqueIdentifier", NULL) &&
              !kmip_text(client, "unique_identifier", NULL),
          "it has no value");
    check(kmip_call(client, "activate", "k", NULL) == KMIP_LOST && !kmip_was_sent(client),
          "the connection is closed");
    kmip_close(client);
}

static void other_ids(kmip_client *client, const kmip_settings *settings) {
    check(kmip_call(client, "activate", "k", NULL) == KMIP_ANSWERED, "a typed call has no ID");
    is_lost(settings, PAYLOAD("k"), "an answer without the ID of the request is lost");
    is_lost(settings, NULL, "so is one to a call of the table");
    is_lost(settings, PAYLOAD("failing"), "so is a failure");
    size_t length;
    uint8_t *der = der_of_certificate(settings->certificate, &length);
    check(kmip_register_certificate(client, der, length, NULL, NULL) == KMIP_LOST,
          "and an answer to a certificate");
    OPENSSL_free(der);
}

/* A server that could not read a request knows neither its operation nor its ID. */
static void unread(kmip_client *client) {
    for (int i = 0; i < 2; i++) {
        int status = i == 0 ? kmip_operation(client, "Encrypt", "1.2", PAYLOAD("k"))
                            : kmip_call(client, "encrypt", "k", "00", NULL);
        check(status == KMIP_REFUSED && kmip_error_kind(client) == KMIP_KIND_INVALID_MESSAGE,
              "a failure of the message is that of the call");
        check(strstr(kmip_line(client), "\"message\":\"not read\"") != NULL,
              "with the server's message");
    }
}

int main(int argc, char **argv) {
    if (argc < 7) return 2;
    const char *mode = argv[1];
    const kmip_settings settings = settings_of(argv + 1);
    kmip_client *client = opened(&settings);
    if (strcmp(mode, "ids") == 0) {
        own(client, &settings);
        no_random(&settings, false);
        no_random(&settings, true);
    }
    if (strcmp(mode, "batches") == 0) of_batch(settings);
    if (strcmp(mode, "no_id") == 0 || strcmp(mode, "other_id") == 0) other_ids(client, &settings);
    if (strcmp(mode, "unread") == 0) unread(client);
    kmip_close(client);
    return outcome();
}
