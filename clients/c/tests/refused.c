/* A server that refuses the client's certificate: refused after|within HOST PORT CERTIFICATE KEY
   AUTHORITY, after the client's handshake (TLS 1.3) or within it. */
#define _DEFAULT_SOURCE
#include "testing.h"

#include <unistd.h>

#define ROUNDS 12
#define WHY "the server refused the certificate: unknown CA"

static int repeated;

static void count(void *data, const kmip_event *event) {
    (void)data;
    repeated += event->what == KMIP_EVENT_REPEATED;
}

/* Calls with so many bytes of data, so long after the handshake: each is told the same. */
static void calls(const kmip_settings *settings, size_t length, useconds_t pause,
                  const char *what) {
    uint8_t *data = calloc(1, length + 1);
    int told = 0, unsent = 0, connects = 0;
    char line[400] = "";
    if (!data) exit(1);
    kmip_word words[] = {kmip_text_word("5"), kmip_data_word(data, length),
                         kmip_text_word("mode=ECB")};
    for (int i = 0; i < ROUNDS; i++) {
        kmip_client *client = opened(settings);
        usleep(pause);
        int status = kmip_call_array(client, "encrypt", words, 3);
        told += status == KMIP_LOST && strstr(kmip_line(client), WHY) != NULL;
        unsent += !kmip_was_sent(client);
        connects += kmip_error_kind(client) == KMIP_KIND_CONNECT;
        if (told <= i) snprintf(line, sizeof line, "%s", kmip_line(client));
        kmip_close(client);
    }
    free(data);
    check(told == ROUNDS, what);
    if (told != ROUNDS) printf("        %d of %d told, %s\n", told, ROUNDS, line);
    check(unsent == ROUNDS, "nothing was sent");
    check(connects == ROUNDS, "and it is an error of connecting");
}

static void after(kmip_settings settings) {
    calls(&settings, 16, 0, "the alert is told by its name");
    calls(&settings, 16, 200000, "also where it came before the call");
    calls(&settings, 4000000, 0, "and where the server did not read all");
    settings.reconnect = true;
    settings.log = count;
    calls(&settings, 16, 0, "also where a connection is opened again");
    calls(&settings, 16, 200000, "and where it came before the call");
    check(repeated == 0, "the call is not made again");
    kmip_client *client = opened(&settings);
    kmip_batch *batch = kmip_batch_new(client, KMIP_ON_ERROR_STOP);
    check(kmip_batch_call(batch, "activate", "4", NULL) == KMIP_ANSWERED &&
              kmip_batch_send(batch) == KMIP_LOST && !kmip_was_sent(client) &&
              strstr(kmip_line(client), WHY),
          "so is it of a batch");
    kmip_batch_free(batch);
    kmip_close(client);
}

int main(int argc, char **argv) {
    if (argc < 7) return 2;
    const kmip_settings settings = settings_of(argv + 1);
    if (strcmp(argv[1], "after") == 0) {
        after(settings);
    } else {
        char error[300] = "";
        kmip_client *client = kmip_open(&settings, error, sizeof error);
        check(!client && strstr(error, "\"ConnectError\"") && strstr(error, WHY),
              "within the handshake no client is opened, and the alert is told by its name");
        kmip_close(client);
    }
    return outcome();
}
