/* Several calls in one message. Each item of a batch is that of the request of a single call, and
   each item of the response is read as the response to a single call: so nothing of either is
   new. */
#define _POSIX_C_SOURCE 200809L
#include "metsuwan_internal.h"

#include <stdarg.h>
#include <stdio.h>
#include <stdlib.h>
#include <string.h>

enum { STRUCTURE = 1, INTEGER = 2, ENUMERATION = 5, BYTES = 8, HEAD = 8 };
enum { FAILED = 1, UNDONE = 3 }; /* of a Result Status */
enum {
    BATCH_COUNT = 0x42000D,
    CONTINUATION = 0x42000E,
    BATCH_ITEM = 0x42000F,
    OPERATION = 0x42005C,
    VERSION = 0x420069,
    REQUEST_HEADER = 0x420077,
    REQUEST_MESSAGE = 0x420078,
    RESPONSE_HEADER = 0x42007A,
    RESPONSE_MESSAGE = 0x42007B,
    RESULT_STATUS = 0x42007F,
    ITEM_ID = 0x420093
};

/* A call, and what came of it. */
typedef struct {
    char *name, *version, *payload; /* of a call of words the last two are null pointers, .. */
    kmip_words words;               /* .. and these are its words, whose bytes .. */
    kmip_room bytes;                /* .. are here */
    kmip_room request;
    size_t request_len;
    size_t place; /* that of its item in the response; 0: the server has not come to it */
    bool failed;  /* the item says that it has failed, .. */
    bool undone;  /* .. or that the server has undone it */
} item;

struct kmip_batch {
    kmip_client *client;
    kmip_on_error on_error;
    item *items;
    size_t count, room;
    uint64_t first_id;  /* that of the first call, random; the others have those that follow it */
    kmip_room response; /* the last one, .. */
    size_t response_len;
    size_t answered; /* .. and of how many calls it says something */
};

/* An item of a structure: its tag and type, the whole of it with its pad, and its contents. */
typedef struct {
    uint32_t tag;
    uint8_t type;
    const uint8_t *whole, *contents;
    size_t whole_len, length;
} part;

static uint64_t id_at(const uint8_t *bytes) {
    return (uint64_t)kmip_number_at(bytes) << 32 | kmip_number_at(bytes + 4);
}

/* The item of a structure that begins here, of so many bytes to the structure's end; or what is
   wrong with it. */
static const char *read_part(const uint8_t *at, size_t left, part *into) {
    if (left < HEAD) return "an item without its head";
    *into = (part){kmip_number_at(at) >> 8, at[3], at, at + HEAD, 0, kmip_number_at(at + 4)};
    size_t pad = into->type == STRUCTURE ? 0 : (8 - into->length % 8) % 8;
    if (into->length > left - HEAD || pad > left - HEAD - into->length)
        return "an item without its end";
    into->whole_len = HEAD + into->length + pad;
    return NULL;
}

/* What is wrong with the items of a structure, or a null pointer. */
static const char *wrong_with(const part *structure) {
    const char *wrong = NULL;
    part own;
    for (size_t at = 0; !wrong && at < structure->length; at += own.whole_len)
        wrong = read_part(structure->contents + at, structure->length - at, &own);
    return wrong;
}

/* Goes to the next item of a structure that is well formed, from the first where `own` has none of
   its bytes; false: there is none. */
static bool next_part(const part *structure, part *own) {
    size_t at = own->whole ? (size_t)(own->whole - structure->contents) + own->whole_len : 0;
    return at < structure->length &&
           !read_part(structure->contents + at, structure->length - at, own);
}

static bool is_structure(const part *own, uint32_t tag) {
    return own->tag == tag && own->type == STRUCTURE;
}

/* The first item with this tag in a structure that is well formed. */
static bool find_part(const part *structure, uint32_t tag, part *into) {
    *into = (part){0};
    while (next_part(structure, into))
        if (into->tag == tag) return true;
    return false;
}

/* Bytes that are written; once it has failed, nothing more is. */
typedef struct {
    kmip_room room;
    size_t length;
    bool failed;
} writer;

static void append(writer *out, const uint8_t *bytes, size_t count) {
    size_t room = out->room.room;
    if (!out->failed && count > room - out->length)
        out->failed = count > SIZE_MAX / 4 || room > SIZE_MAX / 4 ||
                      !kmip_room_has(&out->room, 2 * (room + count));
    if (out->failed || count == 0) return;
    memcpy(out->room.bytes + out->length, bytes, count);
    out->length += count;
}

static void put_head(writer *out, uint32_t tag, uint8_t type, uint32_t length) {
    uint8_t head[HEAD];
    kmip_number_into(head, tag << 8 | type);
    kmip_number_into(head + 4, length);
    append(out, head, HEAD);
}

/* An item of four bytes: an integer or an enumeration. */
static void put_number(writer *out, uint32_t tag, uint8_t type, uint32_t number) {
    uint8_t value[8] = {0};
    kmip_number_into(value, number);
    put_head(out, tag, type, 4);
    append(out, value, sizeof value);
}

static void put_id(writer *out, uint64_t id) {
    uint8_t value[8];
    kmip_number_into(value, (uint32_t)(id >> 32));
    kmip_number_into(value + 4, (uint32_t)id);
    put_head(out, ITEM_ID, BYTES, sizeof value);
    append(out, value, sizeof value);
}

/* Begins a structure, and says where its contents do. */
static size_t put_structure(writer *out, uint32_t tag) {
    put_head(out, tag, STRUCTURE, 0);
    return out->length;
}

static void end_structure(writer *out, size_t from) {
    if (!out->failed) kmip_number_into(out->room.bytes + from - 4, (uint32_t)(out->length - from));
}

/* The header and the batch item of a request that the library made. */
static bool parts_of(const item *one, part *header, part *batch_item) {
    part message;
    return !read_part(one->request.bytes, one->request_len, &message) &&
           find_part(&message, REQUEST_HEADER, header) &&
           find_part(&message, BATCH_ITEM, batch_item);
}

/* The highest version that a request of the batch names: as the whole item, whose bytes have the
   order of the versions. */
static part highest_version(const kmip_batch *batch) {
    part header, batch_item, version, highest = {0};
    for (size_t i = 0; i < batch->count; i++) {
        if (!parts_of(&batch->items[i], &header, &batch_item)) continue;
        if (!find_part(&header, VERSION, &version)) continue;
        bool higher = !highest.whole || highest.whole_len != version.whole_len ||
                      memcmp(version.whole, highest.whole, version.whole_len) > 0;
        if (higher) highest = version;
    }
    return highest;
}

/* The header of the first request, with the version, the option and the count of the batch. */
static void put_header(writer *out, const kmip_batch *batch, const part *first) {
    part version = highest_version(batch), own = {0};
    size_t header = put_structure(out, REQUEST_HEADER);
    while (next_part(first, &own)) {
        if (own.tag == BATCH_COUNT) {
            put_number(out, CONTINUATION, ENUMERATION, (uint32_t)batch->on_error);
            put_number(out, BATCH_COUNT, INTEGER, (uint32_t)batch->count);
            continue;
        }
        const part *chosen = own.tag == VERSION ? &version : &own;
        append(out, chosen->whole, chosen->whole_len);
    }
    end_structure(out, header);
}

/* A batch item of a request with its Unique Batch Item ID, which stands after its operation. */
static void put_item(writer *out, const part *batch_item, uint64_t id) {
    part own = {0};
    size_t made = put_structure(out, BATCH_ITEM);
    while (next_part(batch_item, &own)) {
        append(out, own.whole, own.whole_len);
        if (own.tag == OPERATION) put_id(out, id);
    }
    end_structure(out, made);
}

/* Writes one message of the requests; its length, or a negative number. */
static int64_t write_message(const kmip_batch *batch, kmip_room *into) {
    writer out = {*into, 0, false};
    part header, batch_item;
    size_t message = put_structure(&out, REQUEST_MESSAGE);
    for (size_t i = 0; i < batch->count && !out.failed; i++) {
        out.failed = !parts_of(&batch->items[i], &header, &batch_item);
        if (i == 0 && !out.failed) put_header(&out, batch, &header);
        if (!out.failed) put_item(&out, &batch_item, batch->first_id + i);
    }
    end_structure(&out, message);
    *into = out.room;
    if (out.failed) return KMIP_LENGTH_MEMORY;
    return out.length > UINT32_MAX ? KMIP_LENGTH_NO_FORM : (int64_t)out.length;
}

/* The header of a response, which counts one batch item. */
static void put_header_of_one(writer *out, const part *header) {
    part own = {0};
    size_t made = put_structure(out, RESPONSE_HEADER);
    while (next_part(header, &own)) {
        if (own.tag == BATCH_COUNT)
            put_number(out, BATCH_COUNT, INTEGER, 1);
        else
            append(out, own.whole, own.whole_len);
    }
    end_structure(out, made);
}

/* A batch item of a response without its Unique Batch Item ID. */
static void put_item_alone(writer *out, const part *batch_item) {
    part own = {0};
    size_t made = put_structure(out, BATCH_ITEM);
    while (next_part(batch_item, &own))
        if (own.tag != ITEM_ID) append(out, own.whole, own.whole_len);
    end_structure(out, made);
}

/* Writes the response to a single call, the message with the batch item at this place and no other,
   and says how long it is; 0: memory ran out. */
static size_t write_single(const kmip_batch *batch, size_t place, kmip_room *into) {
    const uint8_t *response = batch->response.bytes;
    writer out = {*into, 0, false};
    part message, header, batch_item;
    if (read_part(response, batch->response_len, &message) ||
        read_part(message.contents, message.length, &header) ||
        read_part(response + place, batch->response_len - place, &batch_item))
        return 0;
    size_t single = put_structure(&out, message.tag);
    put_header_of_one(&out, &header);
    put_item_alone(&out, &batch_item);
    end_structure(&out, single);
    *into = out.room;
    return out.failed ? 0 : out.length;
}

/* What is wrong with a message, down to the items of its header and of its batch items. */
static const char *wrong_with_message(const part *message) {
    const char *wrong = wrong_with(message);
    part own = {0};
    while (!wrong && next_part(message, &own))
        if (is_structure(&own, RESPONSE_HEADER) || is_structure(&own, BATCH_ITEM))
            wrong = wrong_with(&own);
    return wrong;
}

/* The number of the only item with this tag in a structure that is well formed; false: there is none,
   or more, or it is of another type. */
static bool only_number(const part *structure, uint32_t tag, uint8_t type, uint32_t *into) {
    part own = {0};
    size_t count = 0;
    bool is_number = true;
    while (next_part(structure, &own)) {
        if (own.tag != tag) continue;
        is_number = own.type == type && own.length == 4;
        if (is_number) *into = kmip_number_at(own.contents);
        count++;
    }
    return count == 1 && is_number;
}

/* What is wrong with a message that is well formed as the response to a batch (KMIP 1.0, 7.1): it has
   one header, which stands first, and behind it batch items, so many as its Batch Count says (6.14);
   or a null pointer. */
static const char *wrong_with_response(const part *message) {
    static const char other[] = "not a response message";
    part own = {0}, header;
    size_t items = 0;
    uint32_t count = 0;
    if (!is_structure(message, RESPONSE_MESSAGE) || !next_part(message, &own) ||
        !is_structure(&own, RESPONSE_HEADER))
        return other;
    header = own;
    for (; next_part(message, &own); items++)
        if (!is_structure(&own, BATCH_ITEM)) return other;
    return only_number(&header, BATCH_COUNT, INTEGER, &count) && count == items
               ? NULL
               : "the Batch Count is not that of the items of the response";
}

/* The place of the call that a batch item of a response is of; the batch's count: it is of none. */
static size_t place_of_call(const kmip_batch *batch, const part *batch_item) {
    part own = {0};
    size_t ids = 0;
    uint64_t place = batch->count;
    while (batch_item->type == STRUCTURE && next_part(batch_item, &own)) {
        if (own.tag != ITEM_ID) continue;
        bool is_id = own.type == BYTES && own.length == 8;
        place = is_id ? id_at(own.contents) - batch->first_id : batch->count;
        ids++;
    }
    return ids == 1 && place < batch->count ? (size_t)place : batch->count;
}

/* Whether a batch item of a response says that this came of its call. */
static bool has_status(const part *batch_item, uint32_t wanted) {
    uint32_t status = 0;
    return only_number(batch_item, RESULT_STATUS, ENUMERATION, &status) && status == wanted;
}

/* Whether the response is a failure of the whole message, as where a server takes no batches: one
   batch item, which has failed and says of no call that it is its own. */
static bool fails_whole(const part *message, part *batch_item) {
    part own = {0}, id;
    size_t count = 0;
    while (next_part(message, &own)) {
        if (!is_structure(&own, BATCH_ITEM)) continue;
        *batch_item = own;
        count++;
    }
    return count == 1 && !find_part(batch_item, ITEM_ID, &id) && has_status(batch_item, FAILED);
}

/* Gives a call its item in the response: KMIP_ANSWERED, or what went wrong. */
static int give(kmip_batch *batch, size_t call, const part *batch_item) {
    if (call >= batch->count || batch->items[call].place > 0)
        return kmip_fails_as(batch->client, KMIP_LOST, "InternalError",
                             "an item of the response is of no call of the batch");
    batch->items[call].place = (size_t)(batch_item->whole - batch->response.bytes);
    batch->items[call].failed = has_status(batch_item, FAILED);
    batch->items[call].undone = has_status(batch_item, UNDONE);
    return KMIP_ANSWERED;
}

/* Each call has a response, but for those after one that failed, where the batch ends there. */
static int check_missing(kmip_batch *batch) {
    bool ends = false;
    for (size_t i = 0; i < batch->count; i++) {
        const item *one = &batch->items[i];
        ends = ends || (one->failed && batch->on_error != KMIP_ON_ERROR_CONTINUE);
        if (one->place == 0 && !ends)
            return kmip_fails_as(batch->client, KMIP_LOST, "InternalError",
                                 "a call of the batch has no item in the response");
    }
    return KMIP_ANSWERED;
}

/* Gives each call its item in the response. */
static int give_each(kmip_batch *batch) {
    part message, own = {0};
    const char *wrong = read_part(batch->response.bytes, batch->response_len, &message);
    int status = KMIP_ANSWERED;
    if (!wrong) wrong = wrong_with_message(&message);
    if (wrong) return kmip_fails_as(batch->client, KMIP_LOST, "DeserializeError", wrong);
    wrong = wrong_with_response(&message);
    if (wrong) return kmip_fails_as(batch->client, KMIP_LOST, "InternalError", wrong);
    if (fails_whole(&message, &own)) {
        for (size_t i = 0; i < batch->count && status == KMIP_ANSWERED; i++)
            status = give(batch, i, &own);
        return status;
    }
    own = (part){0};
    while (status == KMIP_ANSWERED && next_part(&message, &own))
        if (own.tag == BATCH_ITEM) status = give(batch, place_of_call(batch, &own), &own);
    return status == KMIP_ANSWERED ? check_missing(batch) : status;
}

/* What the client has where there is no answer of a call, and no error. */
static int says_nothing(kmip_client *client) {
    static const char nothing[] = "{\"answer\":{}}";
    memcpy(client->line.bytes, nothing, sizeof nothing);
    client->walk.item.at = NULL;
    client->response_len = 0;
    return client->status = KMIP_ANSWERED;
}

/* Has the answer to a call be the client's. */
static int read_item(const kmip_batch *batch, const item *one) {
    kmip_client *client = batch->client;
    client->response_len = 0;
    if (one->place == 0)
        return kmip_says(client, KMIP_REFUSED, "NotDone",
                         "the server has not done this call of the batch");
    client->response_len = write_single(batch, one->place, &client->response);
    if (client->response_len == 0) return kmip_says_no_memory(client);
    client->words = one->words;
    client->name = one->version ? one->name : NULL;
    client->version = one->version;
    client->payload = one->payload;
    int status = kmip_read_answer(client);
    kmip_forget_call(client);
    if (status == KMIP_REFUSED && one->undone)
        return kmip_says(client, KMIP_REFUSED, "Undone",
                         "the server has undone this call of the batch");
    return status;
}

/* Reads all answers once: where one is none to its call, the connection is lost. */
static int read_each(kmip_batch *batch) {
    kmip_client *client = batch->client;
    bool lost = false;
    for (size_t i = 0; i < batch->count; i++) {
        int status = read_item(batch, &batch->items[i]);
        if (status == KMIP_NO_MEMORY) return kmip_out_of_memory(client);
        lost = lost || status == KMIP_LOST;
    }
    if (lost) kmip_ends_as(client, KMIP_LOST);
    return says_nothing(client);
}

static void forget_response(kmip_batch *batch) {
    kmip_room_free(&batch->response);
    batch->answered = batch->response_len = 0;
    for (size_t i = 0; i < batch->count; i++) {
        batch->items[i].place = 0;
        batch->items[i].failed = batch->items[i].undone = false;
    }
}

static bool is_changeless(const kmip_batch *batch) {
    bool changeless = true;
    for (size_t i = 0; i < batch->count; i++)
        changeless = changeless && kmip_is_changeless(batch->items[i].name);
    return changeless;
}

/* Chooses the Unique Batch Item IDs, which no answer to another batch has. */
static int choose_ids(kmip_batch *batch) {
    uint8_t id[8] = {0};
    int status = kmip_choose_item_id(batch->client, id);
    batch->first_id = id_at(id);
    return status;
}

static int send_batch(kmip_batch *batch) {
    kmip_client *client = batch->client;
    char said[50];
    int status = kmip_begin(client, "batch");
    if (status != KMIP_ANSWERED) return status;
    if (batch->count == 0)
        return kmip_fails_as(client, KMIP_CALL_GRAMMAR, "GrammarError", "the batch has no calls");
    status = choose_ids(batch);
    if (status != KMIP_ANSWERED) return status;
    int64_t length = write_message(batch, &client->request);
    if (length == KMIP_LENGTH_NO_FORM)
        return kmip_fails_as(client, KMIP_REFUSED, "SerializeError", "request has no wire form");
    if (length < 0) return kmip_out_of_memory(client);
    status = kmip_exchange(client, (size_t)length, is_changeless(batch));
    batch->response = client->response;
    batch->response_len = client->response_len;
    client->response = (kmip_room){NULL, 0};
    if (status == KMIP_ANSWERED) status = give_each(batch);
    if (status == KMIP_ANSWERED) status = read_each(batch);
    if (status == KMIP_ANSWERED) batch->answered = batch->count;
    client->response_len = status == KMIP_ANSWERED ? batch->response_len : 0;
    snprintf(said, sizeof said, "a batch of %zu", batch->count);
    kmip_tell_call(client, said);
    client->response_len = 0;
    return status;
}

int kmip_batch_send(kmip_batch *batch) {
    if (!batch) return KMIP_LOST;
    kmip_queue queue;
    kmip_queue_take(&queue);
    forget_response(batch);
    int status = send_batch(batch);
    kmip_queue_give_back(&queue);
    return status;
}

int kmip_batch_answer(kmip_batch *batch, size_t at) {
    if (!batch) return KMIP_LOST;
    kmip_client *client = batch->client;
    if (at < batch->answered) {
        int status = read_item(batch, &batch->items[at]);
        kmip_clean_stack();
        return status;
    }
    client->response_len = 0;
    return kmip_says(client, KMIP_CALL_GRAMMAR, "GrammarError",
                     "the batch has no answer to such a call");
}

kmip_batch *kmip_batch_new(kmip_client *client, kmip_on_error on_error) {
    bool known = on_error >= KMIP_ON_ERROR_CONTINUE && on_error <= KMIP_ON_ERROR_UNDO;
    kmip_batch *batch = client && known ? calloc(1, sizeof *batch) : NULL;
    if (!batch) return NULL;
    batch->client = client;
    batch->on_error = on_error;
    return batch;
}

static void free_item(item *one) {
    kmip_copy_free(one->name);
    kmip_copy_free(one->version);
    kmip_copy_free(one->payload);
    free(one->words.at);
    kmip_room_free(&one->bytes);
    kmip_room_free(&one->request);
}

void kmip_batch_free(kmip_batch *batch) {
    if (!batch) return;
    for (size_t i = 0; i < batch->count; i++)
        free_item(&batch->items[i]);
    kmip_room_free(&batch->response);
    free(batch->items);
    free(batch);
}

size_t kmip_batch_count(const kmip_batch *batch) {
    return batch ? batch->count : 0;
}

/* Room for one more call; false where memory runs out. */
static bool has_room_for_call(kmip_batch *batch) {
    if (batch->count < batch->room) return true;
    size_t room = 2 * batch->room + 4;
    item *items = room < SIZE_MAX / sizeof *items ? calloc(room, sizeof *items) : NULL;
    if (!items) return false;
    if (batch->count > 0) memcpy(items, batch->items, batch->count * sizeof *items);
    free(batch->items);
    batch->items = items;
    batch->room = room;
    return true;
}

/* Keeps the words of a call with their bytes, but for its name; false where memory runs out. */
static bool keep_words(item *into, const kmip_words *words) {
    size_t done = 0;
    for (size_t i = 1; i < words->count; i++)
        done += words->at[i].length;
    into->words = kmip_words_of_array(into->name, words->at + 1, words->count - 1);
    if (!into->words.at || !kmip_room_has(&into->bytes, done + 1)) return false;
    done = 0;
    for (size_t i = 1; i < words->count; i++) {
        kmip_word *own = &into->words.at[i];
        if (own->length > 0) memcpy(into->bytes.bytes + done, own->bytes, own->length);
        own->bytes = into->bytes.bytes + done;
        done += own->length;
    }
    return true;
}

/* A copy of the call that the client has; false where memory runs out. */
static bool keep_call(item *into, const kmip_client *client) {
    into->name = kmip_copy_of(client->operation);
    if (client->words.at) return into->name && keep_words(into, &client->words);
    into->version = kmip_copy_of(client->version);
    into->payload = kmip_copy_of(client->payload);
    return into->name && into->version && into->payload;
}

/* Adds the call that the client has, whose request has this length. */
static int add(kmip_batch *batch, size_t length) {
    kmip_client *client = batch->client;
    item made = {0};
    if (!keep_call(&made, client) || !has_room_for_call(batch)) {
        free_item(&made);
        return kmip_out_of_memory(client);
    }
    made.request = client->request;
    made.request_len = length;
    client->request = (kmip_room){NULL, 0};
    batch->items[batch->count++] = made;
    return says_nothing(client);
}

static int add_words(kmip_batch *batch, const char *call, kmip_words words) {
    kmip_client *client = batch->client;
    size_t length = 0;
    int status = kmip_begin_unsent(client, call);
    if (status == KMIP_ANSWERED) status = kmip_make_call(client, words, false, &length);
    if (status == KMIP_ANSWERED) status = add(batch, length);
    kmip_forget_call(client);
    return status;
}

/* Adds a call of words, whose room is freed. */
static int add_given(kmip_batch *batch, const char *call, kmip_words words) {
    int status = KMIP_LOST;
    if (batch) {
        kmip_queue queue;
        kmip_queue_take(&queue);
        status = add_words(batch, call, words);
        kmip_queue_give_back(&queue);
    }
    free(words.at);
    return status;
}

int kmip_batch_call(kmip_batch *batch, const char *call, ...) {
    va_list given;
    va_start(given, call);
    kmip_words words = kmip_words_of_list(call, given);
    va_end(given);
    return add_given(batch, call, words);
}

int kmip_batch_words(kmip_batch *batch, const char *call, const char *const *words) {
    return add_given(batch, call, kmip_words_of_texts(call, words));
}

int kmip_batch_array(kmip_batch *batch, const char *call, const kmip_word *words, size_t count) {
    return add_given(batch, call, kmip_words_of_array(call, words, count));
}

static int add_operation(kmip_batch *batch, const char *name, const char *version,
                         const char *payload) {
    kmip_client *client = batch->client;
    size_t length = 0;
    int status = kmip_begin_unsent(client, name);
    if (status == KMIP_ANSWERED)
        status = kmip_make_operation(client, name, version, payload, false, &length);
    if (status == KMIP_ANSWERED) status = add(batch, length);
    kmip_forget_call(client);
    return status;
}

int kmip_batch_operation(kmip_batch *batch, const char *name, const char *version,
                         const char *payload) {
    if (!batch) return KMIP_LOST;
    kmip_queue queue;
    kmip_queue_take(&queue);
    int status = add_operation(batch, name, version, payload);
    kmip_queue_give_back(&queue);
    return status;
}
