/* Calls of several servers: several SERVERS CERTIFICATE KEY AUTHORITY [NAME=VALUE]..., with settings.
   Each line of standard input is a call, or `sleep SECONDS`; what came of it is told in a line, after
   what the log was told. No check is made here: several.sh looks at the lines. */
#define _DEFAULT_SOURCE
#include "testing.h"

#include <unistd.h>

static void tell(void *data, const kmip_event *event) {
    (void)data;
    if (event->what != KMIP_EVENT_CALL) printf("  log %d %s\n", (int)event->what, event->text);
}

/* A setting of a word as `order=turns`; false where there is none of this name. */
static bool set(kmip_settings *settings, const char *word) {
    const char *value = strchr(word, '=');
    size_t length = value ? (size_t)(value - word) : 0;
    if (!value) return false;
    value++;
    if (strncmp(word, "seconds", length) == 0)
        settings->seconds = atof(value);
    else if (strncmp(word, "max_age", length) == 0)
        settings->max_age = atof(value);
    else if (strncmp(word, "order", length) == 0)
        settings->order = value;
    else if (strncmp(word, "server_name", length) == 0)
        settings->server_name = value;
    else if (strncmp(word, "reconnect", length) == 0)
        settings->reconnect = true;
    else
        return false;
    return true;
}

static void make_call(kmip_client *client, char *line) {
    const char *words[20] = {NULL};
    size_t count = 0;
    for (char *at = strtok(line, " \n"); at && count < 19; at = strtok(NULL, " \n"))
        words[count++] = at;
    if (count == 0) return;
    if (strcmp(words[0], "sleep") == 0 && words[1]) {
        usleep((useconds_t)(1e6 * atof(words[1])));
        return;
    }
    int status = kmip_call_words(client, words[0], words + 1);
    printf("%s %d kind=%x sent=%d at %s %s\n", words[0], status, (unsigned)kmip_error_kind(client),
           kmip_was_sent(client), kmip_server_of(client), kmip_line(client));
}

int main(int argc, char **argv) {
    if (argc < 5) return 2;
    char error[2048], line[1000];
    kmip_settings settings = kmip_defaults();
    settings.server = argv[1];
    settings.certificate = argv[2];
    settings.key = argv[3];
    settings.authority = argv[4];
    settings.log = tell;
    for (int i = 5; i < argc; i++)
        if (!set(&settings, argv[i])) return 2;
    if (setvbuf(stdout, NULL, _IOLBF, 0) != 0) return 2;
    kmip_client *client = kmip_open(&settings, error, sizeof error);
    printf("open %s\n", client ? kmip_server_of(client) : error);
    while (client && fgets(line, sizeof line, stdin))
        make_call(client, line);
    kmip_close(client);
    return 0;
}
