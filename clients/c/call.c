/* One call, whose arguments are texts. It writes the answer as one line of JSON.

   call HOST PORT CERTIFICATE KEY AUTHORITY CALL TEXT..

   Beside the calls of the grammar there are `pem IDENTIFIER`, and what registers the contents of a
   file: `register-private FILE`, `register-public FILE`, `register-certificate FILE` and
   `register-secret FILE`, each with `usage=..` and `name=..`; a secret also with `kind=Seed`.

   The environment may have KMIP_USER and KMIP_PASSWORD, a credential; KMIP_PASSPHRASE, that of an
   encrypted key; KMIP_LIMIT, the most bytes of a response (1048576 where it is not set; 0: no
   limit); KMIP_TIMEOUT, the most seconds of connecting and of the call (30; 0: no deadline). With
   KMIP_PEM set, a key or a certificate that was got is written as PEM.

   Status: 0 answered, 1 refused, 2 not of the grammar, 3 the connection is lost or there is none,
   4 the answer could not be written, 5 out of memory. What is no answer is a line of JSON on
   standard error. */
#define _POSIX_C_SOURCE 200809L
#include "metsuwan_tls.h"
#include <errno.h>
#include <fcntl.h>
#include <stdio.h>
#include <stdlib.h>
#include <string.h>
#include <unistd.h>

static int misused(const char *text) {
    fprintf(stderr, "{\"error\":\"GrammarError\",\"text\":\"%s\"}\n", text);
    return KMIP_CALL_GRAMMAR;
}

/* Says why an answer is not written, or would not be. Where that cannot be written, the status says
   it alone. */
static int not_written(const char *text, const char *more) {
    fprintf(stderr, "{\"error\":\"NotWritten\",\"text\":\"%s%s\"}\n", text, more);
    return 4;
}

/* Whether what is written can go anywhere: a stream may be closed. */
static bool is_open(int stream) {
    return fcntl(stream, F_GETFD) >= 0;
}

/* A number of the environment, where it is set: false where it is none, or not up to `most`. */
static bool read_variable(const char *name, double most, double *into) {
    const char *text = getenv(name);
    char *end = NULL;
    if (!text || !*text) return true;
    *into = strtod(text, &end);
    return *end == 0 && *into >= 0 && *into <= most;
}

/* Reads a file into memory of malloc, which ends with a byte 0; a null pointer where it cannot. */
static char *read_file(const char *path, size_t *length) {
    FILE *file = fopen(path, "rb");
    char *bytes = file ? malloc(1 << 20) : NULL;
    *length = bytes ? fread(bytes, 1, (1 << 20) - 1, file) : 0;
    bool whole = bytes && !ferror(file) && *length < (1 << 20) - 1;
    if (file) (void)fclose(file); /* which was read */
    if (bytes) bytes[*length] = 0;
    if (whole) return bytes;
    free(bytes);
    return NULL;
}

/* The value of an option NAME=VALUE among these words, or a null pointer. */
static const char *option(const char *const *words, const char *name) {
    size_t length = strlen(name);
    for (; *words; words++)
        if (strncmp(*words, name, length) == 0 && (*words)[length] == '=')
            return *words + length + 1;
    return NULL;
}

/* Whether each of these words is one of the three options. */
static bool are_options(const char *const *words, bool of_secret) {
    for (; *words; words++)
        if (strncmp(*words, "usage=", 6) != 0 && strncmp(*words, "name=", 5) != 0 &&
            (!of_secret || strncmp(*words, "kind=", 5) != 0))
            return false;
    return true;
}

/* Registers what a file has; -1 where it cannot be read, or a word is none. */
static int register_file(kmip_client *client, const char *what, const char *const *words) {
    size_t length = 0;
    bool of_secret = strcmp(what, "secret") == 0;
    char *bytes =
        words[0] && are_options(words + 1, of_secret) ? read_file(words[0], &length) : NULL;
    if (!bytes) return -1;
    const char *name = option(words + 1, "name"), *usage = option(words + 1, "usage");
    const char *kind = option(words + 1, "kind");
    int status = -1;
    if (strcmp(what, "private") == 0)
        status = kmip_register_private_key(client, bytes, length, name, usage);
    else if (strcmp(what, "public") == 0)
        status = kmip_register_public_key(client, bytes, length, name, usage);
    else if (strcmp(what, "certificate") == 0)
        status = kmip_register_certificate(client, bytes, length, name, usage);
    else if (of_secret)
        status = kmip_register_secret(client, bytes, length, kind ? kind : "Password", name, usage);
    free(bytes);
    return status;
}

/* Makes the call, and writes what came of it. */
static int make(kmip_client *client, const char *call, const char *const *words) {
    static const char registers[] = "register-";
    bool of_file = strncmp(call, registers, sizeof registers - 1) == 0;
    bool pem = strcmp(call, "pem") == 0;
    int status = of_file ? register_file(client, call + sizeof registers - 1, words)
                         : kmip_call_words(client, pem ? "get" : call, words);
    if (status < 0) return misused("the file cannot be read, or there is no such call or option");
    if (of_file && status == KMIP_ANSWERED) {
        const char *made = kmip_text(client, "UniqueIdentifier", NULL);
        printf("{\"answer\":{\"unique_identifier\":\"%s\"}}\n", made ? made : "");
        if (fflush(stdout) == 0) return status;
        return not_written("the answer cannot be written: ", strerror(errno));
    }
    if (status != KMIP_ANSWERED) {
        static const char no_memory[] = "{\"error\":\"OutOfMemory\",\"text\":\"out of memory\"}";
        const char *line = kmip_line(client);
        fprintf(stderr, "%s\n", *line ? line : no_memory);
        return status;
    }
    pem = pem || getenv("KMIP_PEM");
    const char *text = pem ? kmip_pem(client) : kmip_line(client);
    if (!text) {
        fputs("{\"error\":\"MissingValue\",\"text\":\"the answer has no PEM form\"}\n", stderr);
        return KMIP_REFUSED;
    }
    if (printf(pem ? "%s" : "%s\n", text) >= 0 && fflush(stdout) == 0) return status;
    return not_written("the answer cannot be written: ", strerror(errno));
}

int main(int argc, char **argv) {
    if (!is_open(STDOUT_FILENO) || !is_open(STDERR_FILENO))
        return not_written("standard output or standard error is closed", "; nothing was sent");
    if (argc < 7) return misused("usage: call HOST PORT CERTIFICATE KEY AUTHORITY CALL TEXT..");
    kmip_settings settings = kmip_defaults();
    settings.host = argv[1];
    settings.port = argv[2];
    settings.certificate = argv[3];
    settings.key = argv[4];
    settings.authority = argv[5];
    settings.user = getenv("KMIP_USER");
    settings.password = getenv("KMIP_PASSWORD");
    settings.passphrase = getenv("KMIP_PASSPHRASE");
    double limit = settings.limit;
    if (!read_variable("KMIP_LIMIT", UINT32_MAX, &limit))
        return misused("KMIP_LIMIT is no number of 0 to 4294967295");
    if (!read_variable("KMIP_TIMEOUT", 1e8, &settings.seconds))
        return misused("KMIP_TIMEOUT is no number of seconds");
    settings.limit = (uint32_t)limit;
    if (!settings.user != !settings.password)
        return misused("KMIP_USER and KMIP_PASSWORD: a credential is a user and a password");
    char error[300];
    kmip_client *client;
    int status = kmip_connect(&settings, &client, error, sizeof error);
    if (status != KMIP_ANSWERED) {
        fprintf(stderr, "%s\n", error);
        return status;
    }
    status = make(client, argv[6], (const char *const *)argv + 7);
    kmip_close(client);
    return status;
}
