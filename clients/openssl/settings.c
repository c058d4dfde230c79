/* The settings: those of the provider's section of openssl.cnf, or else of the environment. */
#define _GNU_SOURCE
#include "provider.h"

#include <ctype.h>
#include <errno.h>
#include <math.h>
#include <openssl/bio.h>
#include <openssl/crypto.h>
#include <openssl/err.h>
#include <openssl/params.h>
#include <stdio.h>
#include <stdlib.h>
#include <string.h>

#define MOST_SECONDS 86400
#define MOST_CONNECTIONS 1000
#define ROOM_OF_NAME 40

/* What openssl.cnf says; null: nothing. */
static const char *of_file(const provider *prov, const char *name) {
    char *value = NULL;
    OSSL_PARAM ask[] = {OSSL_PARAM_construct_utf8_ptr(name, &value, 0), OSSL_PARAM_construct_end()};
    return prov->get_params(prov->core, ask) && value && *value ? value : NULL;
}

static void name_variable(const char *name, char into[ROOM_OF_NAME]) {
    size_t at = OPENSSL_strlcpy(into, "METSUWAN_", ROOM_OF_NAME);
    for (; *name && at + 1 < ROOM_OF_NAME; name++, at++)
        into[at] = (char)toupper((unsigned char)*name);
    into[at] = 0;
}

/* What openssl.cnf says, or METSUWAN_NAME of the environment, which a program with the rights of
   another user does not look at; null: neither. */
static const char *setting(const provider *prov, const char *name) {
    char variable[ROOM_OF_NAME];
    const char *value = of_file(prov, name);
    if (value) return value;
    name_variable(name, variable);
    const char *given = secure_getenv(variable);
    return given && *given ? given : NULL;
}

/* Refuses a setting, where it was set: what is wrong with it, and its value where that is told. */
static bool refuse(provider *prov, const char *name, const char *what, const char *value) {
    char variable[ROOM_OF_NAME];
    name_variable(name, variable);
    bool in_file = of_file(prov, name) != NULL;
    return provider_refuse(prov, REASON_SETTINGS, "%s%s%s %s%s%s", in_file ? name : variable,
                           in_file ? " in openssl.cnf, in the section of " : "",
                           in_file ? prov->name : "", what, value ? ": " : "", value ? value : "");
}

static bool copy_setting(const provider *prov, const char *name, char **into) {
    const char *value = setting(prov, name);
    if (!value) return true;
    *into = OPENSSL_strdup(value);
    return *into || RAISE(prov, REASON_MEMORY, "the setting %s", name);
}

static bool read_order(provider *prov) {
    const char *order = setting(prov, "order"), *name = setting(prov, "server_name");
    if (order && strcmp(order, "first") != 0 && strcmp(order, "turns") != 0)
        return refuse(prov, "order", "is neither first nor turns", order);
    if (name && (*name == '.' || strlen(name) > 255))
        return refuse(prov, "server_name", "is no name, and no address", name);
    return copy_setting(prov, "order", &prov->settings.order) &&
           copy_setting(prov, "server_name", &prov->settings.server_name);
}

/* The servers, by the client's own reader. */
static bool read_servers(provider *prov) {
    const char *wrong = NULL;
    kmip_settings how = kmip_defaults();
    if (!read_order(prov) || !copy_setting(prov, "server", &prov->settings.server)) return false;
    if (!prov->settings.server) return true;
    how.server = prov->settings.server;
    how.order = prov->settings.order;
    prov->servers = kmip_servers_of(&how, &wrong);
    if (prov->servers) return true;
    if (strcmp(wrong, KMIP_SERVERS_MEMORY) == 0) return RAISE(prov, REASON_MEMORY, "the servers");
    char what[100];
    snprintf(what, sizeof what, "is wrong: %s", wrong);
    return refuse(prov, "server", what, how.server);
}

/* The first line of the file that a setting names, which is to be its only one. */
static bool read_line(provider *prov, const char *name, const char *path, char **into) {
    char line[1024] = "", more[2];
    ERR_set_mark();
    BIO *file = BIO_new_file(path, "r");
    int count = file ? BIO_gets(file, line, sizeof line) : -1;
    bool whole = count > 0 && BIO_gets(file, more, sizeof more) <= 0;
    int cause = errno;
    BIO_free(file);
    ERR_pop_to_mark();
    line[strcspn(line, "\r\n")] = 0;
    bool good = whole && *line;
    if (good) *into = OPENSSL_strdup(line);
    OPENSSL_cleanse(line, sizeof line);
    if (!file) return refuse(prov, name, strerror(cause), path);
    if (good) return *into || RAISE(prov, REASON_MEMORY, "the setting %s", name);
    return refuse(prov, name, "is not one line of at most 1000 characters", path);
}

/* A secret, which stands in a setting, or in the file that another one names. */
static bool read_secret(provider *prov, const char *name, const char *file_name, char **into) {
    const char *path = setting(prov, file_name);
    if (!copy_setting(prov, name, into)) return false;
    if (!path) return true;
    if (*into) return refuse(prov, file_name, "and another setting exclude each other", name);
    return read_line(prov, file_name, path, into);
}

static bool read_credential(provider *prov) {
    settings *set = &prov->settings;
    if (!copy_setting(prov, "user", &set->user) ||
        !read_secret(prov, "password", "password_file", &set->password))
        return false;
    if (!set->user == !set->password) return true;
    const char *name = set->user                        ? "user"
                       : setting(prov, "password_file") ? "password_file"
                                                        : "password";
    return refuse(prov, name, "stands alone: a user and a password belong together", NULL);
}

/* A number from 0 to `most`; the setting's own default stays where it is not set. */
static bool read_number(provider *prov, const char *name, double most, double *into) {
    const char *text = setting(prov, name);
    char *end = NULL, what[60];
    if (!text) return true;
    *into = strtod(text, &end);
    if (end != text && !*end && isfinite(*into) && *into >= 0 && *into <= most) return true;
    snprintf(what, sizeof what, "is no number from 0 to %.0f", most);
    return refuse(prov, name, what, text);
}

static bool read_numbers(provider *prov) {
    double connections = 8;
    prov->settings.seconds = 30;
    if (!read_number(prov, "seconds", MOST_SECONDS, &prov->settings.seconds) ||
        !read_number(prov, "max_age", MOST_SECONDS, &prov->settings.max_age) ||
        !read_number(prov, "connections", MOST_CONNECTIONS, &connections))
        return false;
    prov->settings.connections = (unsigned)connections;
    if (connections >= 1 && (double)prov->settings.connections >= connections) return true;
    return refuse(prov, "connections", "is no whole number of 1 or more",
                  setting(prov, "connections"));
}

static bool read_salt(provider *prov) {
    const char *salt = setting(prov, "pss_salt");
    prov->settings.salts_are_max = salt && strcmp(salt, "max") == 0;
    return !salt || prov->settings.salts_are_max || strcmp(salt, "digest") == 0 ||
           refuse(prov, "pss_salt", "is neither digest nor max", salt);
}

bool settings_read(provider *prov) {
    settings *set = &prov->settings;
    return read_servers(prov) && copy_setting(prov, "certificate", &set->certificate) &&
           copy_setting(prov, "key", &set->key) &&
           copy_setting(prov, "authority", &set->authority) &&
           read_secret(prov, "passphrase", "passphrase_file", &set->passphrase) &&
           read_credential(prov) && read_numbers(prov) && read_salt(prov);
}

static void secret_free(char *text) {
    if (text) OPENSSL_clear_free(text, strlen(text));
}

void settings_free(provider *prov) {
    settings *given = &prov->settings;
    /* (a client that was abandoned in the child of a fork still counts) */
    if (prov->servers) prov->servers->users = 1;
    kmip_servers_leave(prov->servers);
    OPENSSL_free(given->server);
    OPENSSL_free(given->order);
    OPENSSL_free(given->server_name);
    OPENSSL_free(given->certificate);
    OPENSSL_free(given->key);
    OPENSSL_free(given->authority);
    OPENSSL_free(given->user);
    secret_free(given->passphrase);
    secret_free(given->password);
}
