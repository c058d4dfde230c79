/* What a server's certificate has to name, and whose it has to be: names MODE HOST PORT CERTIFICATE
   KEY AUTHORITY, where every name is one of 127.0.0.1. */
#define _DEFAULT_SOURCE
#include "testing.h"

#include <arpa/inet.h>
#include <netdb.h>
#include <netinet/in.h>

/* In place of the system's. */
int getaddrinfo(const char *host, const char *port, const struct addrinfo *hints,
                struct addrinfo **found) {
    (void)host;
    if (hints->ai_flags & AI_NUMERICHOST) return EAI_NONAME;
    struct sockaddr_in *at = calloc(1, sizeof *at);
    struct addrinfo *address = calloc(1, sizeof *address);
    if (!at || !address) exit(1);
    at->sin_family = AF_INET;
    at->sin_port = htons((uint16_t)atoi(port));
    at->sin_addr.s_addr = htonl(INADDR_LOOPBACK);
    address->ai_family = AF_INET;
    address->ai_addr = (struct sockaddr *)at;
    address->ai_addrlen = sizeof *at;
    *found = address;
    return 0;
}

void freeaddrinfo(struct addrinfo *address) {
    free(address->ai_addr);
    free(address);
}

static void is_taken(kmip_settings settings, const char *host) {
    settings.host = host;
    kmip_client *client = opened(&settings);
    check(kmip_call(client, "query", NULL) == KMIP_ANSWERED, host);
    kmip_close(client);
}

static void connect_fails(kmip_settings settings, const char *host, int status, const char *why) {
    char error[300];
    kmip_client *client = NULL;
    settings.host = host;
    check(kmip_connect(&settings, &client, error, sizeof error) == status && !client, host);
    check(strstr(error, why) != NULL, why);
    kmip_close(client);
}

static void is_refused(kmip_settings settings, const char *host, const char *why) {
    connect_fails(settings, host, KMIP_LOST, why);
}

int main(int argc, char **argv) {
    if (argc < 7) return 2;
    const char *mode = argv[1];
    const kmip_settings settings = settings_of(argv + 1);
    if (strcmp(mode, "good") == 0) {
        is_taken(settings, "localhost");
        is_taken(settings, "localhost."); /* a name that is complete */
        is_refused(settings, "kms.example.test", "ostname mismatch");
        is_refused(settings, "127.0.0.1", "IP address mismatch");
        connect_fails(settings, ".", KMIP_CALL_GRAMMAR, "ConfigurationError");
    }
    if (strcmp(mode, "cn_only") == 0) is_refused(settings, "localhost", "ostname mismatch");
    if (strcmp(mode, "wildcard") == 0) {
        is_refused(settings, "kms.example.test", "ostname mismatch"); /* it has k*.example.test */
        connect_fails(settings, ".example.test", KMIP_CALL_GRAMMAR, "host begins with a dot");
    }
    if (strcmp(mode, "of_between") == 0) {
        /* Its authority, which is no root, is all that is trusted, and all that is known of. */
        is_taken(settings, "localhost");
        is_refused(settings, "kms.example.test", "ostname mismatch");
    }
    return outcome();
}
