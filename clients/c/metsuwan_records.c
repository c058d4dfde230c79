/* Records of exchanges, lines of a script of kmip_run; and items of requests. */
#include "metsuwan_internal.h"

#include <stdio.h>
#include <string.h>

#define HEAD ((size_t)8)
#define AUTHENTICATION 0x42000C /* KMIP 1.0, 6.6 */
#define ITEM_ID 0x420093        /* 6.4 */

/* How many bytes an item has, with its head and its pad. */
static size_t whole_at(const uint8_t *item) {
    return HEAD + ((size_t)kmip_number_at(item + 4) + 7) / 8 * 8;
}

/* Where the item with this tag stands in the structure that begins there in a request, which was
   made here; 0: there is none. */
static size_t place_of(uint32_t tag, size_t structure, const uint8_t *request) {
    size_t at = structure + HEAD, end = at + kmip_number_at(request + structure + 4);
    while (at < end && kmip_number_at(request + at) >> 8 != tag)
        at += whole_at(request + at);
    return at < end ? at : 0;
}

/* Where the batch item of a request begins, which stands after its header. */
static size_t batch_item_of(const uint8_t *request) {
    return HEAD + whole_at(request + HEAD);
}

uint8_t *kmip_item_id_in(uint8_t *request) {
    size_t at = place_of(ITEM_ID, batch_item_of(request), request);
    return at > 0 ? request + at + HEAD : NULL;
}

/* Takes an item out of the structure that begins there, in its own place; the length that the
   request has then. */
static size_t without(uint32_t tag, size_t structure, uint8_t *request, size_t length) {
    size_t at = place_of(tag, structure, request);
    if (at == 0) return length;
    size_t whole = whole_at(request + at), contents = kmip_number_at(request + structure + 4);
    memmove(request + at, request + at + whole, length - at - whole);
    kmip_number_into(request + structure + 4, (uint32_t)(contents - whole));
    kmip_number_into(request + 4, (uint32_t)(length - HEAD - whole));
    return length - whole;
}

/* Takes the credential out of the request, and of a single call the Unique Batch Item ID, which the
   call of a script has not. */
static size_t request_of_record(const kmip_client *client) {
    uint8_t *request = client->request.bytes;
    size_t length = without(AUTHENTICATION, HEAD, request, client->request_len);
    if (client->item_id_len == 0) return length;
    return without(ITEM_ID, batch_item_of(request), request, length);
}

static uint8_t *put_hex(uint8_t *into, const uint8_t *bytes, size_t count) {
    static const char digits[] = "0123456789ABCDEF";
    for (size_t i = 0; i < count; i++) {
        *into++ = (uint8_t)digits[bytes[i] >> 4];
        *into++ = (uint8_t)digits[bytes[i] & 15];
    }
    return into;
}

/* Whether the call `raw` has this request. */
static bool is_raw(const uint8_t *request, size_t length, kmip_room *made) {
    const kmip_word words[] = {kmip_text_word("raw"), kmip_data_word(request, length)};
    int64_t found =
        kmip_request(words, 2, request, 0, false, request, 0, request, 0, made->bytes, made->room);
    return found >= 0 && (uint64_t)found == length && memcmp(made->bytes, request, length) == 0;
}

bool kmip_tell_record(kmip_client *client) {
    static const char message[] = "message ", raw[] = "raw ";
    kmip_room line = {NULL, 0}, made = {NULL, 0};
    if (!client->record) return true;
    size_t length = request_of_record(client);
    const uint8_t *request = client->request.bytes;
    size_t most = (SIZE_MAX - sizeof message - 2) / 4;
    bool fits = length <= most && client->response_len <= most &&
                kmip_room_has(&line, sizeof message + 2 * (length + client->response_len) + 2) &&
                kmip_room_has(&made, length);
    if (fits) {
        /* Where it is `raw`, the line begins at its last four bytes. */
        size_t front = sizeof message - 1, less = sizeof message - sizeof raw;
        memcpy(line.bytes + less, raw, sizeof raw - 1);
        uint8_t *at = put_hex(line.bytes + front, request, length);
        if (!is_raw(request, length, &made)) less = 0;
        if (less == 0) memcpy(line.bytes, message, front);
        *at++ = ' ';
        at = put_hex(at, client->response.bytes, client->response_len);
        *at++ = '\n';
        *at = 0;
        client->record(client->record_data, (const char *)line.bytes + less,
                       (size_t)(at - line.bytes) - less);
    }
    kmip_room_free(&line);
    kmip_room_free(&made);
    return fits;
}
