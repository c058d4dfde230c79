/* Key rotation: a new RSA pair is made, made active and tried; it takes over the name of the old
   private key, which is then revoked and destroyed. It writes the new private key's identifier.

   rotate HOST PORT CERTIFICATE KEY AUTHORITY OLD-PRIVATE-KEY NAME

   The status is that of the first call that was not answered; or 4, where the identifier could not
   be written. */
#include "metsuwan_tls.h"
#include <stdio.h>
#include <stdlib.h>

static kmip_client *client;

/* Ends the program where a call was not answered: the steps after it are not to be done. */
static void need_answer(int status) {
    if (status == KMIP_ANSWERED) return;
    fprintf(stderr, "%s\n", kmip_line(client));
    kmip_close(client);
    exit(status);
}

/* A name with something after it. */
static void name_of(char into[300], const char *name, const char *more) {
    int length = snprintf(into, 300, "%s%s", name, more);
    if (length < 0 || length >= 300) {
        fputs("{\"error\":\"GrammarError\",\"text\":\"the name is too long\"}\n", stderr);
        exit(KMIP_CALL_GRAMMAR);
    }
}

/* Writes the identifier of the new key, and returns the status. */
static int print_outcome(const char *new) {
    if (puts(new) >= 0 && fflush(stdout) == 0) return 0;
    fputs("{\"error\":\"NotWritten\",\"text\":\"locate finds the new private key by its name\"}\n",
          stderr);
    return 4;
}

static int rotate(const char *old, const char *name) {
    char new_name[300], public_name[300], old_name[300], new[300];
    name_of(new_name, name, ", new");
    name_of(public_name, name, ", public");
    name_of(old_name, name, ", old");
    need_answer(kmip_call(client, "create-rsa", "2048", new_name, public_name, NULL));
    const char *made = kmip_text(client, "private_key", NULL);
    if (!made) {
        fputs("{\"error\":\"MissingValue\",\"text\":\"the answer has no private_key\"}\n", stderr);
        kmip_close(client);
        exit(1);
    }
    name_of(new, made, "");
    need_answer(kmip_call(client, "activate", new, NULL));
    need_answer(kmip_call(client, "sign", new, "68656C6C6F", NULL));
    need_answer(kmip_call(client, "rename", old, old_name, NULL));
    need_answer(kmip_call(client, "rename", new, name, NULL));
    need_answer(kmip_call(client, "revoke", old, NULL));
    need_answer(kmip_call(client, "destroy", old, NULL));
    return print_outcome(new);
}

int main(int argc, char **argv) {
    if (argc != 8) {
        fputs("{\"error\":\"GrammarError\",\"text\":\"usage: rotate HOST PORT CERTIFICATE KEY "
              "AUTHORITY OLD-PRIVATE-KEY NAME\"}\n",
              stderr);
        return KMIP_CALL_GRAMMAR;
    }
    kmip_settings settings = kmip_defaults();
    settings.host = argv[1];
    settings.port = argv[2];
    settings.certificate = argv[3];
    settings.key = argv[4];
    settings.authority = argv[5];
    char error[300];
    int status = kmip_connect(&settings, &client, error, sizeof error);
    if (status != KMIP_ANSWERED) {
        fprintf(stderr, "%s\n", error);
        return status;
    }
    status = rotate(argv[6], argv[7]);
    kmip_close(client);
    return status;
}
