/* Calls the library of metsuwan.h with random input, in buffers of exactly the size that is told.

   fuzz CORPUS SEED ROUNDS LINES

   CORPUS has calls and responses, as NAME.call, whose words stand on a line each, and NAME.response,
   and each call as any operation: NAME.operation is its name, its version and its payload in JSON,
   on three lines. They and mutations of them are the input of the calls, with no ID, with that of
   some of the responses, or with another; words are texts, or data. Each line of an answer is
   written to LINES with its status in front. What is checked: the results are among those of the header; nothing is
   written where it does not fit, and nothing past the length that is told; the same input gives the
   same output; a request is one message; kmip_contents_len is as its definition says. What is read
   or written out of place, and what is not freed, is found by the sanitizers. A round that takes
   over 20 seconds of the processor ends the run. */
#define _POSIX_C_SOURCE 200809L
#include "metsuwan.h"

#include <dirent.h>
#include <signal.h>
#include <stdio.h>
#include <stdlib.h>
#include <string.h>
#include <sys/time.h>
#include <unistd.h>

#define MOST_FILES 400
#define UNTOUCHED 0xC5

typedef struct {
    uint8_t *bytes;
    size_t length;
} blob;

/* A call: its words, or any operation's name, version and payload, and whether its answer is plain;
   and a Unique Batch Item ID. */
enum { MOST_PARTS = 12 };
typedef struct {
    blob parts[MOST_PARTS], id;
    bool are_data[MOST_PARTS];
    size_t count;
    bool any, plain;
} asked;

/* The ID that responses of the corpus have, where they have one. */
static const uint8_t known_id[] = {1, 2, 3, 4, 5, 6, 7, 8};

static blob responses[MOST_FILES];
static asked calls[MOST_FILES], operations[MOST_FILES];
static size_t files;
static uint64_t state;
static volatile long at_round;

static void found(const char *what) {
    fprintf(stderr, "FOUND in round %ld: %s\n", at_round, what);
    abort();
}

static void end_late(int number) {
    (void)number;
    static const char text[] = "FOUND: a round took over 20 seconds\n";
    if (write(2, text, sizeof text - 1) < 0) _exit(98);
    _exit(99);
}

static uint64_t any(void) {
    state ^= state << 13;
    state ^= state >> 7;
    state ^= state << 17;
    return state;
}

static size_t below(size_t bound) {
    return bound ? (size_t)(any() % bound) : 0;
}

/* A block of exactly these bytes; one of none has a pointer too. */
static blob copy_of(const uint8_t *bytes, size_t length) {
    blob made = {malloc(length ? length : 1), length};
    if (!made.bytes) exit(9);
    if (length) memcpy(made.bytes, bytes, length);
    return made;
}

static blob load_file(const char *folder, const char *name, size_t stem, const char *end) {
    char path[1000];
    static uint8_t bytes[1 << 20];
    snprintf(path, sizeof path, "%s/%.*s%s", folder, (int)stem, name, end);
    FILE *file = fopen(path, "rb");
    if (!file) exit(9);
    size_t length = fread(bytes, 1, sizeof bytes, file);
    fclose(file);
    return copy_of(bytes, length);
}

/* A call whose parts stand on a line each. */
static asked parts_in(blob file, bool any) {
    asked call = {.id = copy_of(NULL, 0), .any = any};
    for (size_t from = 0, at = 0; at <= file.length && call.count < MOST_PARTS; at++) {
        if (at < file.length && file.bytes[at] != '\n') continue;
        call.parts[call.count++] = copy_of(file.bytes + from, at - from);
        from = at + 1;
    }
    free(file.bytes);
    return call;
}

static void let_go(asked call) {
    for (size_t i = 0; i < call.count; i++)
        free(call.parts[i].bytes);
    free(call.id.bytes);
}

static void load_all(const char *folder) {
    DIR *entries = opendir(folder);
    if (!entries) exit(9);
    for (struct dirent *entry = readdir(entries); entry && files < MOST_FILES;
         entry = readdir(entries)) {
        const char *end = strrchr(entry->d_name, '.');
        if (!end || strcmp(end, ".call") != 0) continue;
        size_t stem = (size_t)(end - entry->d_name);
        calls[files] = parts_in(load_file(folder, entry->d_name, stem, ".call"), false);
        responses[files] = load_file(folder, entry->d_name, stem, ".response");
        operations[files] = parts_in(load_file(folder, entry->d_name, stem, ".operation"), true);
        files++;
    }
    closedir(entries);
    if (files == 0) exit(9);
}

static uint32_t number_at(const uint8_t *at) {
    return (uint32_t)at[0] << 24 | (uint32_t)at[1] << 16 | (uint32_t)at[2] << 8 | at[3];
}

static void set_number(uint8_t *at, uint32_t number) {
    for (int i = 0; i < 4; i++)
        at[i] = (uint8_t)(number >> (24 - 8 * i));
}

/* Changes of a message: each has room for 300 bytes more. */

static void turn_a_bit(blob *into) {
    if (into->length) into->bytes[below(into->length)] ^= (uint8_t)(1 << below(8));
}

static void set_a_byte(blob *into) {
    if (into->length) into->bytes[below(into->length)] = (uint8_t)any();
}

static void cut(blob *into) {
    into->length = below(into->length + 1);
}

static void insert(blob *into) {
    size_t at = below(into->length + 1), more = 1 + below(64);
    memmove(into->bytes + at + more, into->bytes + at, into->length - at);
    for (size_t i = 0; i < more; i++)
        into->bytes[at + i] = below(3) ? (uint8_t)any() : 0;
    into->length += more;
}

static void take_out(blob *into) {
    if (!into->length) return;
    size_t at = below(into->length), less = 1 + below(64);
    if (less > into->length - at) less = into->length - at;
    memmove(into->bytes + at, into->bytes + at + less, into->length - at - less);
    into->length -= less;
}

static void set_a_length(blob *into) {
    if (into->length < 8) return;
    uint32_t odd = below(2) ? UINT32_MAX - (uint32_t)below(16) : (uint32_t)any();
    set_number(into->bytes + below(into->length / 8) * 8 + 4, below(2) ? (uint32_t)below(64) : odd);
}

static void set_a_type(blob *into) {
    if (into->length >= 8) into->bytes[below(into->length / 8) * 8 + 3] = (uint8_t)(1 + below(11));
}

static void set_a_tag(blob *into) {
    static const uint8_t tags[] = {0x08, 0x0A, 0x0B, 0x0D, 0x0F, 0x28, 0x2A, 0x40, 0x42, 0x43,
                                   0x45, 0x57, 0x5C, 0x64, 0x66, 0x6D, 0x6F, 0x7A, 0x7B, 0x7C,
                                   0x7D, 0x7E, 0x7F, 0x92, 0x93, 0x94, 0x9D, 0xC2, 0xC3};
    if (into->length >= 8) into->bytes[below(into->length / 8) * 8 + 2] = tags[below(sizeof tags)];
}

static void copy_a_word(blob *into) {
    if (into->length < 16) return;
    size_t from = below(into->length / 8) * 8, to = below(into->length / 8) * 8;
    memmove(into->bytes + to, into->bytes + from, 8);
}

static void take_from_another(blob *into) {
    blob other = responses[below(files)];
    if (!other.length || !into->length) return;
    size_t from = below(other.length), to = below(into->length), count = 1 + below(200);
    if (count > other.length - from) count = other.length - from;
    if (count > into->length - to) count = into->length - to;
    memcpy(into->bytes + to, other.bytes + from, count);
}

static void set_the_length(blob *into) {
    if (into->length >= 8) set_number(into->bytes + 4, (uint32_t)into->length - 8);
}

static void (*const changes[])(blob *) = {
    turn_a_bit,     set_a_byte, cut,       insert,      take_out,
    set_a_length,   set_a_type, set_a_tag, copy_a_word, take_from_another,
    set_the_length,
};

/* A mutation, by up to so many changes. */
static blob changed(blob from, size_t most) {
    blob into = {malloc(from.length + 64 * most + 1), from.length};
    if (!into.bytes) exit(9);
    memcpy(into.bytes, from.bytes, from.length);
    for (size_t left = 1 + below(most); left; left--)
        changes[below(sizeof changes / sizeof *changes)](&into);
    blob exact = copy_of(into.bytes, into.length);
    free(into.bytes);
    return exact;
}

static blob random_bytes(size_t most) {
    size_t length = below(most);
    blob into = {malloc(length ? length : 1), length};
    if (!into.bytes) exit(9);
    for (size_t i = 0; i < into.length; i++)
        into.bytes[i] = (uint8_t)any();
    return into;
}

static blob a_response(size_t file) {
    switch (below(8)) {
    case 0: return random_bytes(300);
    case 1: return copy_of(responses[file].bytes, responses[file].length);
    case 2: return changed(responses[below(files)], 6);
    case 3: return changed(responses[below(files)], 2);
    default: return changed(responses[file], 1 + below(4));
    }
}

static blob an_id(void) {
    switch (below(4)) {
    case 0: return random_bytes(20);
    case 1: return copy_of(known_id, sizeof known_id);
    default: return copy_of(NULL, 0);
    }
}

static void add_word(asked *call, blob word, bool is_data) {
    call->are_data[call->count] = is_data;
    call->parts[call->count++] = word;
}

/* Words of calls and words that are nearly so, in any order. */
static void add_any_words(asked *call) {
    static const char *const some[] = {"query",       "create-rsa",
                                       "create-aes",  "rng",
                                       "activate",    "revoke",
                                       "destroy",     "sign",
                                       "rename",      "get",
                                       "locate",      "attributes",
                                       "discover",    "raw",
                                       "encrypt",     "decrypt",
                                       "mac",         "mac-verify",
                                       "hash",        "derive-key",
                                       "create-ec",   "rng-seed",
                                       "operation",   "message",
                                       "-",           "%2D",
                                       "%",           "%ZZ",
                                       "=",           "a=b",
                                       "2048",        "-1",
                                       "00",          "0",
                                       "2147483647",  "2147483648",
                                       "4294967296",  "0102",
                                       "abc",         "DEADBEEF",
                                       "a b",         "",
                                       "user=x",      "\xFF",
                                       "\xC3\xA9",    "\n",
                                       "\r",          "\t",
                                       " ",           "-0",
                                       "+1",          "01",
                                       "hash=SHA384", "hash=SHA_256",
                                       "mode=CBC",    "iv=00",
                                       "where",       "name=%",
                                       "name=a=b",    "state=Active",
                                       "prehashed",   "index=0",
                                       "item-id=00",  "99999999999999999999999"};
    for (size_t left = 1 + below(5); left; left--) {
        const char *word = some[below(sizeof some / sizeof *some)];
        add_word(call, copy_of((const uint8_t *)word, strlen(word)), below(8) == 0);
    }
}

/* A call with a very long word: digits, or data. */
static void add_long_words(asked *call) {
    size_t length = below(200000);
    blob into = {malloc(length ? length : 1), length};
    if (!into.bytes) exit(9);
    bool is_data = below(2);
    for (size_t i = 0; i < length; i++)
        into.bytes[i] = is_data ? (uint8_t)any() : (uint8_t) "0123456789ABCDEFabcdef"[below(22)];
    add_word(call, copy_of((const uint8_t *)(below(2) ? "sign" : "hash"), 4), false);
    if (below(2)) add_word(call, copy_of((const uint8_t *)"a", 1), false);
    add_word(call, into, is_data);
    add_word(call, copy_of((const uint8_t *)"hash=SHA_256", 12), false);
}

/* The words of this call, some of which are others, or data. */
static void add_words_of(asked *call, const asked *own, bool changes_some) {
    for (size_t i = 0; i < own->count; i++) {
        bool is_other = changes_some && !below(3);
        blob word = own->parts[i];
        word = is_other ? changed(word, 1) : copy_of(word.bytes, word.length);
        add_word(call, word, changes_some && !below(6));
    }
    if (changes_some && !below(4) && call->count < MOST_PARTS)
        add_word(call, random_bytes(30), below(2));
}

static asked a_call(size_t file) {
    asked call = {.id = an_id()};
    switch (below(10)) {
    case 0:
        for (size_t left = below(5); left; left--)
            add_word(&call, random_bytes(40), below(2));
        break;
    case 1: add_any_words(&call); break;
    case 2: add_words_of(&call, &calls[below(files)], true); break;
    case 3: below(40) ? add_any_words(&call) : add_long_words(&call); break;
    default: add_words_of(&call, &calls[file], false);
    }
    return call;
}

/* Changes of a text of JSON. */

static const char *const tokens[] = {"{",
                                     "}",
                                     "[",
                                     "]",
                                     ",",
                                     ":",
                                     "\"\"",
                                     "\"",
                                     "null",
                                     "true",
                                     "false",
                                     "0",
                                     "-0",
                                     "-1",
                                     "1e9",
                                     "1.5",
                                     "007",
                                     "9007199254740993",
                                     "18446744073709551616",
                                     "-2147483649",
                                     "\"0x420094\"",
                                     "\"0x54AAAA\"",
                                     "\"0xFFFFFFFF\"",
                                     "\"0x8000000000000000\"",
                                     "\"0x\"",
                                     "\"\\u0000\"",
                                     "\"\\ud800\"",
                                     "\"\\ud83d\\ude00\"",
                                     "\"\\x\"",
                                     "\"\xC3\xA9\"",
                                     "\"\xFF\"",
                                     " ",
                                     "\n",
                                     "\"tag\":",
                                     "\"type\":",
                                     "\"value\":",
                                     "\"name\":",
                                     "\"RequestPayload\"",
                                     "\"UniqueIdentifier\"",
                                     "\"CryptographicAlgorithm\"",
                                     "\"Structure\"",
                                     "\"Integer\"",
                                     "\"LongInteger\"",
                                     "\"BigInteger\"",
                                     "\"Enumeration\"",
                                     "\"Boolean\"",
                                     "\"TextString\"",
                                     "\"ByteString\"",
                                     "\"DateTime\"",
                                     "\"Interval\"",
                                     "\"AES\"",
                                     "\"Sign|Verify\"",
                                     "\"2038-01-19T03:14:08+00:00\"",
                                     "\"-0001-01-01T00:00:00+25:00\"",
                                     "\"00FF\"",
                                     "\"0\"",
                                     "{\"tag\":\"Data\",\"type\":\"ByteString\",\"value\":\"\"},",
                                     "{\"tag\":\"0x420008\",\"value\":[]},"};

static bool is_sign(uint8_t byte) {
    return byte && strchr("{}[],:", byte);
}

/* A token is put in, at a place where another begins, or takes the place of one or of some. */
static void set_a_token(blob *into) {
    size_t at = below(into->length + 1), end, more = 0;
    while (at < into->length && !is_sign(into->bytes[at]))
        at++;
    for (end = at; below(3) && end < into->length; end++)
        while (end + 1 < into->length && !is_sign(into->bytes[end]))
            end++;
    const char *token = below(6) ? tokens[below(sizeof tokens / sizeof *tokens)] : "";
    more = strlen(token);
    memmove(into->bytes + at + more, into->bytes + end, into->length - end);
    memcpy(into->bytes + at, token, more);
    into->length += more - (end - at);
}

/* A part is doubled: of many levels, then. */
static void double_a_part(blob *into) {
    if (!into->length) return;
    size_t at = below(into->length), count = 1 + below(60);
    if (count > into->length - at) count = into->length - at;
    memmove(into->bytes + at + count, into->bytes + at, into->length - at);
    into->length += count;
}

static blob changed_json(blob from) {
    enum { MOST = 6 };
    blob into = {malloc(from.length + 64 * MOST + 1), from.length};
    if (!into.bytes) exit(9);
    memcpy(into.bytes, from.bytes, from.length);
    for (size_t left = 1 + below(MOST); left; left--) {
        if (below(4))
            set_a_token(&into);
        else if (below(2))
            double_a_part(&into);
        else
            changes[below(5)](&into);
    }
    blob exact = copy_of(into.bytes, into.length);
    free(into.bytes);
    return exact;
}

/* Structures within each other, so many, and what of them is not closed. */
static blob nested_json(void) {
    static const char in[] = "{\"tag\":\"RequestPayload\",\"value\":[", out[] = "]}";
    size_t levels = below(4) ? below(80) : below(3000),
           left = below(3) ? levels : below(levels + 1);
    blob into = {malloc((sizeof in + sizeof out) * levels + 1), 0};
    if (!into.bytes) exit(9);
    for (size_t i = 0; i < levels; i++, into.length += sizeof in - 1)
        memcpy(into.bytes + into.length, in, sizeof in - 1);
    for (size_t i = 0; i < left; i++, into.length += sizeof out - 1)
        memcpy(into.bytes + into.length, out, sizeof out - 1);
    blob exact = copy_of(into.bytes, into.length);
    free(into.bytes);
    return exact;
}

static blob a_text(const char *const *some, size_t count, blob own) {
    const char *text = some[below(count)];
    switch (below(6)) {
    case 0: return copy_of((const uint8_t *)text, strlen(text));
    case 1: return below(4) ? changed(own, 1) : random_bytes(30);
    default: return copy_of(own.bytes, own.length);
    }
}

static blob a_payload(blob own) {
    switch (below(8)) {
    case 0: return copy_of(own.bytes, own.length);
    case 1: return changed_json(operations[below(files)].parts[2]);
    case 2: return below(4) ? changed(own, 2) : nested_json();
    case 3: return below(4) ? changed_json(own) : random_bytes(80);
    default: return changed_json(own);
    }
}

static asked random_operation(size_t file) {
    static const char *const names[] = {"Encrypt", "Decrypt",    "MACVerify", "Rekey",
                                        "encrypt", "Encrypt ",   "",          "Query",
                                        "Create",  "0x0000001F", "Re-key",    "Poll",
                                        "Notify",  "Put",        "RNGSeed",   "CreateKeyPair"};
    static const char *const versions[] = {"1.0", "1.1", "1.2",  "1.3", "2.0",
                                           "1",   "",    "1.2 ", "01.2"};
    const blob *own = operations[file].parts;
    asked call = {.id = an_id(), .count = 3, .any = true, .plain = below(2)};
    call.parts[0] = a_text(names, sizeof names / sizeof *names, own[0]);
    call.parts[1] = a_text(versions, sizeof versions / sizeof *versions, own[1]);
    call.parts[2] = a_payload(own[2]);
    return call;
}

static size_t a_room(void) {
    static const size_t most[] = {1, 16, 400, 5000, 70000};
    return below(most[below(5)]);
}

/* A block to write into, and whether it is as it has to be after that. */
static uint8_t *to_write(size_t room) {
    uint8_t *into = malloc(room ? room : 1);
    if (!into) exit(9);
    memset(into, UNTOUCHED, room ? room : 1);
    return into;
}

static void check_written(const uint8_t *into, size_t room, int64_t length) {
    size_t from = length < 0 || (uint64_t)length > room ? 0 : (size_t)length;
    for (size_t i = from; i < room; i++)
        if (into[i] != UNTOUCHED) found("a byte is written past what is told");
}

/* The words of a call, in a block of exactly that size, which is to be freed. */
static kmip_word *words_of(asked call) {
    kmip_word *words = malloc(call.count ? call.count * sizeof *words : 1);
    if (!words) exit(9);
    for (size_t i = 0; i < call.count; i++)
        words[i] = (kmip_word){call.parts[i].bytes, call.parts[i].length, call.are_data[i]};
    return words;
}

static int64_t request_of(asked call, bool has, blob user, blob password, uint8_t *into,
                          size_t room) {
    const blob *part = call.parts;
    if (call.any)
        return kmip_operation_request(part[0].bytes, part[0].length, part[1].bytes, part[1].length,
                                      call.id.bytes, call.id.length, part[2].bytes, part[2].length,
                                      has, user.bytes, user.length, password.bytes, password.length,
                                      into, room);
    kmip_word *words = words_of(call);
    int64_t length = kmip_request(words, call.count, call.id.bytes, call.id.length, has, user.bytes,
                                  user.length, password.bytes, password.length, into, room);
    free(words);
    return length;
}

static int32_t answer_of(asked call, blob response, uint8_t *into, size_t room, int64_t *length) {
    const blob *part = call.parts;
    if (call.any)
        return kmip_operation_answer(part[0].bytes, part[0].length, part[1].bytes, part[1].length,
                                     call.id.bytes, call.id.length, part[2].bytes, part[2].length,
                                     response.bytes, response.length, call.plain, into, room,
                                     length);
    kmip_word *words = words_of(call);
    int32_t status = kmip_answer(words, call.count, call.id.bytes, call.id.length, response.bytes,
                                 response.length, into, room, length);
    free(words);
    return status;
}

static int64_t refusal_of(asked call, uint8_t *into, size_t room) {
    const blob *part = call.parts;
    if (call.any)
        return kmip_operation_refusal(part[0].bytes, part[0].length, part[1].bytes, part[1].length,
                                      part[2].bytes, part[2].length, into, room);
    kmip_word *words = words_of(call);
    int64_t length = kmip_refusal(words, call.count, into, room);
    free(words);
    return length;
}

static void check_request(asked call) {
    bool has = below(2);
    blob user = random_bytes(40), password = random_bytes(40);
    for (size_t i = 0; i < user.length; i++)
        user.bytes[i] &= below(20) ? 0x7F : 0xFF;
    for (size_t i = 0; i < password.length; i++)
        password.bytes[i] &= below(20) ? 0x7F : 0xFF;
    size_t room = a_room();
    uint8_t *into = to_write(room);
    int64_t length = request_of(call, has, user, password, into, room);
    check_written(into, room, length);
    if (length < 0) {
        if (length != KMIP_LENGTH_GRAMMAR && length != KMIP_LENGTH_NO_FORM)
            found("another code of a request");
    } else {
        uint8_t *again = to_write((size_t)length);
        if (request_of(call, has, user, password, again, (size_t)length) != length)
            found("another length of the same request");
        if (length < 8 || number_at(again) != 0x42007801 || number_at(again + 4) + 8 != length)
            found("a request that is not one message");
        if ((uint64_t)length <= room && memcmp(into, again, (size_t)length) != 0)
            found("other bytes of the same request");
        free(again);
    }
    free(into);
    free(user.bytes);
    free(password.bytes);
}

/* Whether it is a call, and why not: exactly one of the two. */
static void check_refusal(asked call) {
    size_t room = a_room();
    uint8_t *into = to_write(room);
    int64_t length = refusal_of(call, into, room);
    check_written(into, room, length);
    bool is_none = request_of(call, false, call.id, call.id, into, 0) == KMIP_LENGTH_GRAMMAR;
    if (is_none ? length <= 0 : length != KMIP_LENGTH_ABSENT) found("a refusal of another call");
    free(into);
}

static void check_contents_len(blob response) {
    blob head = random_bytes(17);
    if (below(4) && response.length >= 8) {
        free(head.bytes);
        head = changed((blob){response.bytes, 8}, 1);
    }
    uint32_t limit = below(3) ? (uint32_t)(below(2) ? below(70000) : any()) : 0;
    int64_t length = kmip_contents_len(head.bytes, head.length, limit),
            wanted = KMIP_LENGTH_GRAMMAR;
    if (head.length == 8) {
        wanted = number_at(head.bytes + 4);
        if (limit && wanted + 8 > limit) wanted = KMIP_LENGTH_LIMIT;
        if (head.bytes[3] != 1) wanted = KMIP_LENGTH_ABSENT;
    }
    if (length != wanted) found("another length of the contents");
    free(head.bytes);
}

/* A value of a line, of a mutation of it, or of another text. */
static void check_value(blob own) {
    static const char *const paths[] = {"",
                                        ".",
                                        "unique_identifier",
                                        "signature_data",
                                        "private_key",
                                        "data",
                                        "operations.0",
                                        "operations.007",
                                        "operations.99999999999999999999",
                                        "attributes.0.name",
                                        "answer",
                                        "\xFF",
                                        "cryptographic_object.PrivateKey.key_block.key_value."
                                        "key_material.Bytes",
                                        "random_bytes",
                                        "unique_identifiers.0",
                                        "attributes.0.value.Integer",
                                        "..",
                                        "unique_identifier.",
                                        "UniqueIdentifier",
                                        "UniqueIdentifier.0",
                                        "UniqueIdentifier.0.0",
                                        "Attribute.1.AttributeName",
                                        "PrivateKey.KeyBlock.KeyValue.KeyMaterial",
                                        "Attribute.99999999999999999999"};
    blob line = below(3) ? copy_of(own.bytes, own.length) : changed_json(own);
    const char *path = paths[below(sizeof paths / sizeof *paths)];
    blob exact = copy_of((const uint8_t *)path, strlen(path));
    if (!below(8)) {
        free(exact.bytes);
        exact = random_bytes(30);
    }
    bool hex = below(2);
    size_t room = a_room();
    uint8_t *into = to_write(room);
    int64_t length =
        kmip_value(line.bytes, line.length, exact.bytes, exact.length, hex, into, room);
    if (length < 0 && length != KMIP_LENGTH_GRAMMAR && length != KMIP_LENGTH_ABSENT)
        found("another code of a value");
    if (length > (int64_t)line.length) found("a value that is longer than its line");
    check_written(into, room, length);
    free(into);
    free(exact.bytes);
    free(line.bytes);
}

static void check_answer(asked call, blob response, FILE *lines) {
    size_t room = below(4) ? 4096 + 8 * response.length : a_room();
    uint8_t *into = to_write(room);
    int64_t length = -77, again = -78;
    int32_t status = answer_of(call, response, into, room, &length);
    if (status != KMIP_ANSWERED && status != KMIP_REFUSED && status != KMIP_CALL_GRAMMAR &&
        status != KMIP_LOST)
        found("another status");
    if (length < 0 || (status == KMIP_CALL_GRAMMAR) != (length == 0)) found("another length");
    check_written(into, room, length);
    uint8_t *same = to_write((size_t)length);
    if (answer_of(call, response, same, (size_t)length, &again) != status || again != length)
        found("another answer of the same response");
    if ((uint64_t)length <= room && length && memcmp(into, same, (size_t)length) != 0)
        found("another line of the same response");
    if (length) {
        fprintf(lines, "%d ", status);
        fwrite(same, 1, (size_t)length, lines);
    }
    check_value((blob){same, (size_t)length});
    free(same);
    free(into);
}

static void a_round(FILE *lines) {
    size_t file = below(files);
    asked call = a_call(file), any = random_operation(file);
    blob response = a_response(file);
    check_request(call);
    check_request(any);
    check_refusal(call);
    check_refusal(any);
    check_contents_len(response);
    check_answer(call, response, lines);
    check_answer(any, response, lines);
    let_go(call);
    let_go(any);
    free(response.bytes);
}

int main(int argc, char **argv) {
    static const struct itimerval some = {.it_value = {20, 0}}, none;
    if (argc != 5) return 2;
    load_all(argv[1]);
    state = strtoull(argv[2], NULL, 10) * 0x9E3779B97F4A7C15U + 1;
    long rounds = strtol(argv[3], NULL, 10);
    FILE *lines = fopen(argv[4], "wb");
    if (!lines) return 9;
    signal(SIGPROF, end_late);
    for (at_round = 0; at_round < rounds; at_round++) {
        setitimer(ITIMER_PROF, &some, NULL);
        a_round(lines);
    }
    setitimer(ITIMER_PROF, &none, NULL);
    for (size_t i = 0; i < files; i++) {
        let_go(calls[i]);
        free(responses[i].bytes);
        let_go(operations[i]);
    }
    return fclose(lines) == 0 ? 0 : 9;
}
