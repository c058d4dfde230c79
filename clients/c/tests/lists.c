/* Lists of an answer: lists HOST PORT CERTIFICATE KEY AUTHORITY, where the server answers `locate` with
   as many identifiers as the name says, and `attributes` with as many as the identifier does. */
#define _DEFAULT_SOURCE
#include "testing.h"

/* So many have to be read within a second of the processor's time, and under a sanitizer within as
   many as it takes more. One line a value took 149. */
#define MANY 20000
#define SECONDS 5.0

static double spent(void) {
    return (double)clock() / CLOCKS_PER_SEC;
}

static void is_quick(double from, const char *what) {
    double seconds = spent() - from;
    check(seconds < SECONDS, what);
    printf("        in %.2f seconds\n", seconds);
}

/* Whether a text is that of the identifier at a place. */
static bool is_object(const char *text, size_t place) {
    char wanted[40];
    snprintf(wanted, sizeof wanted, "object \"%zu\"", place);
    return text && strcmp(text, wanted) == 0;
}

static const char *at_path(kmip_client *client, const char *format, size_t place) {
    char path[100];
    snprintf(path, sizeof path, format, place);
    return kmip_text(client, path, NULL);
}

/* Each of a list, three ways. */
static void walks(kmip_client *client, const char *path, const char *format) {
    size_t right = 0, done = 0;
    double from = spent();
    check(kmip_count(client, path) == MANY, "how many there are");
    kmip_list *list = kmip_list_new(client, path);
    for (; kmip_list_next(list); done++)
        right += is_object(kmip_list_text(list, NULL, NULL), done);
    check(list && done == MANY && right == MANY, "each of a list");
    check(!kmip_list_next(list) && !kmip_list_text(list, NULL, NULL), "and none behind them");
    kmip_list_free(list);
    is_quick(from, "by the list");
    from = spent();
    for (done = right = 0; done < MANY; done++)
        right += is_object(at_path(client, format, done), done);
    check(right == MANY, "each by its path");
    check(!at_path(client, format, MANY), "and none behind them");
    is_quick(from, "in their order");
    for (done = right = 0; done < 20; done++)
        right += is_object(at_path(client, format, MANY - 1 - 997 * done), MANY - 1 - 997 * done);
    check(right == 20, "and in another order");
}

static void attributes(kmip_client *client, const char *path, const char *name,
                       const char *format) {
    size_t done = 0, right = 0;
    char wanted[40];
    kmip_list *list = kmip_list_new(client, path);
    check(kmip_count(client, path) == 300, "how many structures there are");
    for (; kmip_list_next(list); done++) {
        snprintf(wanted, sizeof wanted, "x-%zu", done);
        const char *own = kmip_list_text(list, name, NULL), *other = at_path(client, format, done);
        right += own && other && strcmp(own, wanted) == 0 && strcmp(other, wanted) == 0;
    }
    check(done == 300 && right == 300, "a value of each");
    kmip_list_free(list);
}

/* What kmip_value says of the line of the last answer, and what the client does: the same. */
static bool is_same(kmip_client *client, const char *path, bool hex) {
    uint8_t wanted[400];
    size_t length = 0;
    const uint8_t *line = (const uint8_t *)kmip_line(client);
    int64_t count = kmip_value(line, strlen(kmip_line(client)), (const uint8_t *)path, strlen(path),
                               hex, wanted, sizeof wanted);
    const void *found = hex ? (const void *)kmip_bytes(client, path, &length)
                            : (const void *)kmip_text(client, path, &length);
    if (count < 0) return !found;
    return found && length == (size_t)count && memcmp(found, wanted, length) == 0;
}

/* Whatever the path, a value is that of the library. */
static void as_the_library(kmip_client *client, const char *const *paths, size_t count) {
    for (size_t i = 0; i < count; i++) {
        bool same = is_same(client, paths[i], false) && is_same(client, paths[i], true);
        check(same, "a path has what it has for the library");
        if (!same) printf("        %s\n", paths[i]);
    }
}

#define EACH(paths) (paths), sizeof(paths) / sizeof *(paths)

static void plain(kmip_client *client) {
    static const char *const paths[] = {
        "attributes.0.name",
        "attributes.1.value.Other",
        "attributes.1.value",
        "attributes.1",
        "attributes.299.name",
        "attributes.300.name",
        "attributes.01.name",
        "attributes.1.name.",
        "attributes.1.name.0",
        "attributes.1.0",
        "attributes..name",
        "attributes.-1.name",
        "attributes.+1.name",
        "attributes.1.nam",
        "attributes.4294967296.name",
        "attributes.999999999",
        "attributes.18446744073709",
        "attributes",
        "unique_identifier",
        "unique_identifier.0",
        "unique_identifier.0.0",
        "0",
        "0.0",
        "",
        ".",
        "..0",
        ".0",
        "attributes.0",
        "attributes. 0.name",
        "attributes.0x1.name",
    };
    check(kmip_call(client, "attributes", "300", NULL) == KMIP_ANSWERED, "attributes");
    attributes(client, "attributes", "name", "attributes.%zu.name");
    as_the_library(client, EACH(paths));
    check(kmip_count(client, "unique_identifier") == 1, "another value is one item");
    check(kmip_count(client, "attributes.0.name") == 1 && kmip_count(client, "attributes.0") == 1,
          "below an item, too");
    check(kmip_count(client, "attributes.300") == 0 && kmip_count(client, "none") == 0 &&
              kmip_count(client, "") == 0 && kmip_count(client, "unique_identifier.0") == 0,
          "nothing is none");
    kmip_list *one = kmip_list_new(client, "unique_identifier"), *none = kmip_list_new(client, "a");
    check(kmip_list_next(one), "the one item");
    check_text(kmip_list_text(one, NULL, NULL), "300", "is the value");
    check(!kmip_list_next(one) && none && !kmip_list_next(none), "and no more");
    kmip_list_free(one);
    kmip_list_free(none);
}

#define LOCATE                                                                                   \
    "{\"tag\":\"RequestPayload\",\"value\":[{\"tag\":\"Attribute\",\"value\":[{\"tag\":"         \
    "\"AttributeName\",\"type\":\"TextString\",\"value\":\"Name\"},{\"tag\":\"AttributeValue\"," \
    "\"value\":[{\"tag\":\"NameValue\",\"type\":\"TextString\",\"value\":\"20000\"},{\"tag\":"   \
    "\"NameType\",\"type\":\"Enumeration\",\"value\":\"UninterpretedTextString\"}]}]}]}"
#define ATTRIBUTES                                                                   \
    "{\"tag\":\"RequestPayload\",\"value\":[{\"tag\":\"UniqueIdentifier\",\"type\":" \
    "\"TextString\",\"value\":\"300\"}]}"

static void trees(kmip_client *client) {
    static const char *const paths[] = {
        "UniqueIdentifier",
        "UniqueIdentifier.0",
        "UniqueIdentifier.0.0",
        "UniqueIdentifier.1",
        "Attribute.1.AttributeName",
        "Attribute.AttributeName",
        "Attribute.1.AttributeName.0",
        "Attribute.1.AttributeName.1",
        "Attribute.0.AttributeName.0.0",
        "Attribute.299.AttributeValue",
        "Attribute.300.AttributeValue",
        "Attribute.01.AttributeName",
        "Attribute",
        "Attribute.0",
        "Attribute.0.0",
        "Attribute..AttributeName",
        "Attribute.1.AttributeName.",
        "attribute.1.AttributeName",
        "Attribut.1.AttributeName",
        "0",
        "0.1",
        "",
        ".1",
    };
    check(kmip_operation(client, "Locate", "1.0", LOCATE) == KMIP_ANSWERED, "Locate");
    walks(client, "UniqueIdentifier", "UniqueIdentifier.%zu");
    check(kmip_operation(client, "GetAttributes", "1.0", ATTRIBUTES) == KMIP_ANSWERED,
          "GetAttributes");
    attributes(client, "Attribute", "AttributeName", "Attribute.%zu.AttributeName");
    as_the_library(client, EACH(paths));
    check(kmip_count(client, "UniqueIdentifier") == 1 && kmip_count(client, "Attribute.0") == 0 &&
              kmip_count(client, "Attribute.7.AttributeName") == 1 &&
              kmip_count(client, "Attribute.AttributeValue") == 1 &&
              kmip_count(client, "Attribute.300.AttributeName") == 0 &&
              kmip_count(client, "Attribute.0.None") == 0 && kmip_count(client, "") == 0,
          "how many items a structure has with a tag");
}

/* A list is a copy: calls are made meanwhile, and the client is closed. */
static void copies(const kmip_settings *settings) {
    kmip_client *client = opened(settings);
    check(!kmip_list_new(client, "unique_identifiers") && kmip_count(client, "a") == 0,
          "no list before a call");
    check(kmip_call(client, "locate", "5", NULL) == KMIP_ANSWERED, "locate");
    kmip_list *list = kmip_list_new(client, "unique_identifiers");
    size_t done = 0, right = 0;
    for (; done < 3 && kmip_list_next(list); done++) {
        right += kmip_call(client, "attributes", "2", NULL) == KMIP_ANSWERED;
        right += is_object(kmip_list_text(list, NULL, NULL), done);
        const char *name = kmip_text(client, "attributes.1.name", NULL);
        right += name && strcmp(name, "x-1") == 0;
    }
    kmip_close(client);
    for (; kmip_list_next(list); done++)
        right += is_object(kmip_list_text(list, NULL, NULL), done);
    check(done == 5 && right == 11, "calls go between, and the client goes before");
    check(!kmip_list_bytes(list, NULL, NULL), "behind the last there is nothing");
    kmip_list_free(list);
    kmip_list_free(NULL);
    check(!kmip_list_next(NULL) && !kmip_list_text(NULL, NULL, NULL) &&
              !kmip_list_bytes(NULL, NULL, NULL) && !kmip_list_new(NULL, "a") &&
              kmip_count(NULL, "a") == 0,
          "of a null client, and a null list, there is nothing");
}

int main(int argc, char **argv) {
    if (argc < 6) return 2;
    const kmip_settings settings = settings_of(argv);
    kmip_client *client = opened(&settings);
    check(kmip_call(client, "locate", "20000", NULL) == KMIP_ANSWERED, "locate");
    walks(client, "unique_identifiers", "unique_identifiers.%zu");
    check(kmip_call(client, "locate", "0", NULL) == KMIP_ANSWERED &&
              kmip_count(client, "unique_identifiers") == 0,
          "an empty list");
    plain(client);
    trees(client);
    check(kmip_call(client, "sing", NULL) == KMIP_CALL_GRAMMAR &&
              !kmip_list_new(client, "Attribute") && !kmip_text(client, "Attribute.0", NULL),
          "after a call that was not answered there is no list");
    kmip_close(client);
    copies(&settings);
    return outcome();
}
