/* kmip:NAME-OR-ID, or kmip:id=2;public-id=1 and so on; %XX stands for a byte. */
#include "provider.h"

#include <openssl/crypto.h>
#include <string.h>
#include <strings.h>

/* A part with its %XX made bytes; null where one is none, or stands for 0, or memory ran out. */
static char *decoded(const char *from, size_t count) {
    char *into = OPENSSL_malloc(count + 1), *at = into;
    for (size_t i = 0; into && i < count; i++) {
        int byte = (unsigned char)from[i];
        if (byte == '%') {
            int high = i + 2 < count ? OPENSSL_hexchar2int((unsigned char)from[i + 1]) : -1;
            int low = high >= 0 ? OPENSSL_hexchar2int((unsigned char)from[i + 2]) : -1;
            byte = low >= 0 ? 16 * high + low : 0;
            i += 2;
        }
        if (byte == 0) {
            OPENSSL_free(into);
            return NULL;
        }
        *at++ = (char)byte;
    }
    if (into) *at = 0;
    return into;
}

static char **field_of(uri *parts, const char *name, size_t count) {
    const struct {
        const char *name;
        char **at;
    } places[] = {{"id", &parts->id},
                  {"name", &parts->name},
                  {"public-id", &parts->public_id},
                  {"public-name", &parts->public_name},
                  {"public-file", &parts->public_file}};
    for (size_t i = 0; i < sizeof places / sizeof *places; i++)
        if (strlen(places[i].name) == count && memcmp(places[i].name, name, count) == 0)
            return places[i].at;
    return NULL;
}

static bool take_part(uri *parts, const char *part, size_t count, bool first) {
    const char *equals = memchr(part, '=', count);
    char **at = equals  ? field_of(parts, part, (size_t)(equals - part))
                : first ? &parts->any
                        : NULL;
    size_t skipped = equals ? (size_t)(equals - part) + 1 : 0;
    if (!at || *at || count == skipped) return false;
    *at = decoded(part + skipped, count - skipped);
    return *at != NULL;
}

/* Whether one object is told, and its public key by one way at most. */
static bool is_whole(const uri *parts) {
    int objects = (parts->any != NULL) + (parts->id != NULL) + (parts->name != NULL);
    int publics =
        (parts->public_id != NULL) + (parts->public_name != NULL) + (parts->public_file != NULL);
    return objects == 1 && publics <= 1;
}

static bool read_parts(uri *parts, const char *text) {
    for (bool first = true;; first = false) {
        size_t count = strcspn(text, ";");
        if (!take_part(parts, text, count, first)) return false;
        if (!text[count]) return is_whole(parts);
        text += count + 1;
    }
}

bool uri_read(const provider *prov, const char *text, uri *into) {
    memset(into, 0, sizeof *into);
    if (strncasecmp(text, "kmip:", 5) == 0 && read_parts(into, text + 5)) return true;
    uri_free(into);
    return RAISE(prov, REASON_URI,
                 "%s: it is kmip:NAME-OR-ID, kmip:id=ID or kmip:name=NAME, and then one of "
                 ";public-id=ID, ;public-name=NAME and ;public-file=PATH, with %%XX for ; = and %%",
                 text);
}

void uri_free(uri *parts) {
    OPENSSL_free(parts->any);
    OPENSSL_free(parts->id);
    OPENSSL_free(parts->name);
    OPENSSL_free(parts->public_id);
    OPENSSL_free(parts->public_name);
    OPENSSL_free(parts->public_file);
    memset(parts, 0, sizeof *parts);
}
