/* What a server or a caller says stands in no line as a terminal would take it: terminal MODE HOST
   PORT CERTIFICATE KEY AUTHORITY. With the mode `fails` the server fails with a text of each character
   to U+011F and some more, with `answers` it answers about the object that was asked about. */
#define _DEFAULT_SOURCE
#include "testing.h"

/* The characters that are looked for, in UTF-8: ESC, DEL, C1's CSI, U+202E, U+2066, U+200F, U+2028,
   U+FEFF. */
static const char *const odd[] = {"\x1B",         "\x7F",         "\xC2\x9B",     "\xE2\x80\xAE",
                                  "\xE2\x81\xA6", "\xE2\x80\x8F", "\xE2\x80\xA8", "\xEF\xBB\xBF"};
static const char *const escaped[] = {"\\u001B", "\\u007F", "\\u009B", "\\u202E",
                                      "\\u2066", "\\u200F", "\\u2028", "\\uFEFF"};

static void has_none(const char *line, const char *what) {
    bool none = true;
    for (size_t i = 0; i < sizeof odd / sizeof *odd; i++)
        none = none && !strstr(line, odd[i]);
    check(none, what);
}

/* All of them, in a text of its own. */
static void put_all(char *into) {
    *into = 0;
    for (size_t i = 0; i < sizeof odd / sizeof *odd; i++)
        strcat(into, odd[i]);
}

/* In an answer's line it is escaped, and its value is as it was. */
static void answers(const kmip_settings *settings) {
    char text[100];
    kmip_client *client = opened(settings);
    put_all(text);
    check(kmip_call(client, "sign", text, "00", NULL) == KMIP_ANSWERED,
          "an answer with an odd text");
    has_none(kmip_line(client), "which is escaped");
    check_text(kmip_text(client, "unique_identifier", NULL), text, "and whose value is as it was");
    kmip_close(client);
}

static void fails(const kmip_settings *settings) {
    char text[100], error[2048];
    kmip_client *client = opened(settings);
    check(kmip_call(client, "activate", "k", NULL) == KMIP_REFUSED, "a failure with an odd text");
    has_none(kmip_line(client), "which is escaped");
    check(strstr(kmip_line(client), "\\u009B") && strstr(kmip_line(client), "\\uFEFF") &&
              strstr(kmip_line(client), "\xC3\xA9"),
          "as JSON has it, and letters stand as they are");
    put_all(text);
    check(kmip_call(client, text, NULL) == KMIP_CALL_GRAMMAR, "a call with an odd name");
    has_none(kmip_line(client), "which is escaped");
    for (size_t i = 0; i < sizeof escaped / sizeof *escaped; i++)
        check(strstr(kmip_line(client), escaped[i]) != NULL, escaped[i]);
    kmip_close(client);
    kmip_settings other = *settings;
    other.host = text;
    check(!kmip_open(&other, error, sizeof error), "a host with an odd name");
    has_none(error, "which is escaped");
    other = *settings;
    other.authority = text;
    check(!kmip_open(&other, error, sizeof error), "a file with an odd name");
    has_none(error, "which is escaped");
    check(strstr(error, "\\u202E") != NULL, "and told");
}

int main(int argc, char **argv) {
    if (argc < 7) return 2;
    const kmip_settings settings = settings_of(argv + 1);
    if (strcmp(argv[1], "fails") == 0) fails(&settings);
    if (strcmp(argv[1], "answers") == 0) answers(&settings);
    return outcome();
}
