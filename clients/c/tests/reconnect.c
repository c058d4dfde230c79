/* Connections that are opened again, and what the log is told: reconnect MODE HOST PORT CERTIFICATE
   KEY AUTHORITY. */
#define _DEFAULT_SOURCE
#include "testing.h"

#include <sys/wait.h>
#include <unistd.h>

#define IDENTIFIER                                                                   \
    "{\"tag\":\"RequestPayload\",\"value\":[{\"tag\":\"UniqueIdentifier\",\"type\":" \
    "\"TextString\",\"value\":\"the key\"}]}"

/* What the log was told. */
static struct {
    size_t calls, repeated, reopened;
    int status;
    double seconds;
    char operation[40], text[2000], all[20000];
} seen;

static void keep(void *data, const kmip_event *event) {
    check(data == &seen && event->size == sizeof *event, "the log is called with what is its own");
    seen.calls += event->what == KMIP_EVENT_CALL;
    seen.repeated += event->what == KMIP_EVENT_REPEATED;
    seen.reopened += event->what == KMIP_EVENT_REOPENED;
    seen.status = event->status;
    seen.seconds = event->seconds;
    snprintf(seen.operation, sizeof seen.operation, "%s", event->operation);
    snprintf(seen.text, sizeof seen.text, "%s", event->text);
    size_t length = strlen(seen.all);
    snprintf(seen.all + length, sizeof seen.all - length, "%s\n", event->text);
}

static kmip_settings logged(kmip_settings settings, const char *user) {
    memset(&seen, 0, sizeof seen);
    settings.reconnect = true;
    settings.log = keep;
    settings.log_data = &seen;
    settings.user = user;
    settings.password = user ? "" : NULL;
    return settings;
}

static bool activates(kmip_client *client) {
    return kmip_call(client, "activate", "k", NULL) == KMIP_ANSWERED;
}

/* The server answers once on a connection, and then ends it. */
static void nothing_sent(kmip_settings settings) {
    settings = logged(settings, NULL);
    kmip_client *client = opened(&settings);
    check(activates(client) && seen.reopened == 0, "a call on the first connection");
    check(activates(client) && activates(client), "one that was not sent is made again");
    check(seen.reopened == 2 && seen.repeated == 2 && seen.calls == 3, "which the log is told");
    check(strstr(seen.all, "end of input; nothing was sent: the call is made again\n") != NULL,
          "with the reason");
    check(strstr(seen.all, ": the connection was lost, and is opened again\n") != NULL, "and how");
    kmip_batch *batch = kmip_batch_new(client, KMIP_ON_ERROR_CONTINUE);
    check(kmip_batch_call(batch, "activate", "k", NULL) == KMIP_ANSWERED &&
              kmip_batch_send(batch) == KMIP_LOST && seen.reopened == 3,
          "so is a batch, of which this server knows nothing");
    kmip_batch_free(batch);
    check(activates(client) && seen.reopened == 4 && seen.repeated == 3,
          "a lost connection is opened again for the next call");
    kmip_close(client);
    settings.reconnect = false;
    client = opened(&settings);
    check(activates(client) && !activates(client) && !activates(client), "but where it is wanted");
    kmip_close(client);
}

/* How many requests the server had, which is the last one's. */
static void came(kmip_client *client, const char *count, const char *what) {
    check(kmip_call(client, "query", NULL) == KMIP_ANSWERED, "query");
    check_text(kmip_text(client, "vendor_identification", NULL), count, what);
}

/* The first request of each user is lost after it was sent. */
static void sent(const kmip_settings *settings) {
    kmip_settings changed = logged(*settings, "C changeless");
    kmip_client *client = opened(&changed);
    check(kmip_call(client, "sign", "k", "78", NULL) == KMIP_ANSWERED && seen.repeated == 1,
          "what changes nothing is made again");
    came(client, "3", "once");
    kmip_close(client);
    changed = logged(*settings, "C by operation");
    client = opened(&changed);
    check(kmip_operation(client, "MAC", "1.2", IDENTIFIER) == KMIP_ANSWERED, "by its operation");
    came(client, "3", "too");
    kmip_close(client);
    changed = logged(*settings, "C by the table");
    client = opened(&changed);
    check(kmip_call(client, "encrypt", "k", "78", NULL) == KMIP_ANSWERED && seen.repeated == 1,
          "by a call of the table");
    came(client, "3", "too");
    kmip_close(client);
    changed = logged(*settings, "C changing");
    client = opened(&changed);
    check(kmip_call(client, "activate", "k", NULL) == KMIP_LOST && kmip_was_sent(client) &&
              kmip_error_kind(client) == KMIP_KIND_READ && seen.repeated == 0,
          "what may have been done is not");
    came(client, "2", "but the next call has a connection");
    kmip_close(client);
    changed = logged(*settings, "C archive");
    client = opened(&changed);
    check(kmip_operation(client, "Archive", "1.2", IDENTIFIER) == KMIP_LOST, "nor by operation");
    came(client, "2", "and goes on");
    kmip_close(client);
    changed = logged(*settings, "C archive by the table");
    client = opened(&changed);
    check(kmip_call(client, "archive", "k", NULL) == KMIP_LOST, "nor by a call of the table");
    came(client, "2", "and goes on");
    kmip_close(client);
}

/* The server ends the connection in the place of each answer. */
static void once(kmip_settings settings) {
    settings = logged(settings, NULL);
    kmip_client *client = opened(&settings);
    check(kmip_call(client, "query", NULL) == KMIP_LOST && seen.repeated == 1 &&
              kmip_was_sent(client) && kmip_error_kind(client) == KMIP_KIND_READ,
          "a call is made again once");
    check(seen.calls == 1 && seen.status == KMIP_LOST &&
              strstr(seen.text, ": query: ResponseReadError, ") != NULL,
          "and its end is told");
    kmip_close(client);
}

/* A call whose time is over is not made again. */
static void late(kmip_settings settings) {
    settings = logged(settings, NULL);
    kmip_client *client = NULL;
    for (settings.seconds = 2; !client && settings.seconds < 100; settings.seconds *= 5)
        client = kmip_open(&settings, NULL, 0);
    if (!client) exit(1);
    check(kmip_call(client, "query", NULL) == KMIP_LOST && seen.repeated == 0 && seen.reopened == 0,
          "a call whose time is over is not made again");
    check(seen.calls == 1 && seen.seconds >= 1, "its time is told");
    kmip_close(client);
}

/* In the child of a fork no connection is opened for its parent's client. */
static void forks(kmip_settings settings) {
    settings = logged(settings, NULL);
    kmip_client *client = opened(&settings);
    int status = 0;
    pid_t child = fork();
    if (child == 0) {
        bool lost = kmip_call(client, "query", NULL) == KMIP_LOST && !kmip_was_sent(client) &&
                    kmip_call(client, "query", NULL) == KMIP_LOST && seen.reopened == 0;
        kmip_close(client);
        _exit(lost ? 0 : 1);
    }
    check(child > 0 && waitpid(child, &status, 0) == child && WIFEXITED(status) &&
              WEXITSTATUS(status) == 0,
          "a child makes no call of its parent's client");
    check(activates(client), "whose connection is good");
    kmip_close(client);
}

/* The log tells of each call, and shows no value. */
static void log_of_calls(kmip_settings settings) {
    static const char *const secrets[] = {"the key",  "the%20key", "74686520",
                                          "the data", "signature", "geheim"};
    settings = logged(settings, "alice");
    settings.password = "geheim";
    kmip_client *client = opened(&settings);
    check(kmip_call(client, "sign", "the key", "7468652064617461", NULL) == KMIP_ANSWERED &&
              strcmp(seen.operation, "sign") == 0 && seen.status == KMIP_ANSWERED &&
              seen.seconds > 0 && seen.seconds < LONG_WAIT,
          "a call is told by its name, its status and its time");
    check(strstr(seen.text, ": sign: status 0, ") && strstr(seen.text, " bytes sent, ") &&
              strstr(seen.text, " ms") && strncmp(seen.text, "localhost:", 10) == 0,
          "and in words");
    check(kmip_operation(client, "Encrypt", "1.2", IDENTIFIER) == KMIP_ANSWERED &&
              strcmp(seen.operation, "Encrypt") == 0,
          "so is an operation");
    check(kmip_call(client, "encrypt", "the key", "7468652064617461", NULL) == KMIP_ANSWERED &&
              strcmp(seen.operation, "encrypt") == 0,
          "and a call of the table");
    kmip_batch *batch = kmip_batch_new(client, KMIP_ON_ERROR_CONTINUE);
    check(kmip_batch_call(batch, "query", NULL) == KMIP_ANSWERED &&
              kmip_batch_operation(batch, "Encrypt", "1.2", IDENTIFIER) == KMIP_ANSWERED &&
              seen.calls == 3,
          "what was not sent is not told");
    check(kmip_batch_send(batch) == KMIP_LOST && strcmp(seen.operation, "batch") == 0 &&
              strstr(seen.text, ": a batch of 2: InternalError, "),
          "a batch is told");
    kmip_batch_free(batch);
    check(kmip_call(client, "sign the key", NULL) == KMIP_CALL_GRAMMAR && seen.calls == 4,
          "what is no call is not");
    for (size_t i = 0; i < sizeof secrets / sizeof *secrets; i++)
        check(strstr(seen.all, secrets[i]) == NULL, "no value of it is told");
    kmip_close(client);
}

int main(int argc, char **argv) {
    if (argc < 7) return 2;
    const char *mode = argv[1];
    const kmip_settings settings = settings_of(argv + 1);
    if (strcmp(mode, "end_after") == 0) nothing_sent(settings);
    if (strcmp(mode, "first_lost") == 0) sent(&settings);
    if (strcmp(mode, "end") == 0) once(settings);
    if (strcmp(mode, "silent") == 0) late(settings);
    if (strcmp(mode, "good") == 0) forks(settings), log_of_calls(settings);
    return outcome();
}
