/* Large answers: what the library takes of memory, and leaves there. It is linked with
   -Wl,--wrap=malloc,--wrap=free, so that each block of the library is seen. */
#define _DEFAULT_SOURCE
#include "testing.h"

#include <malloc.h>

void *__real_malloc(size_t size);
void __real_free(void *block);
void *__wrap_malloc(size_t size);
void __wrap_free(void *block);

static long asked;
static bool looks, left; /* whether what is freed is looked at, and whether any had data */

void *__wrap_malloc(size_t size) {
    asked++;
    return __real_malloc(size);
}

/* Whether these are bytes of the key, or their digits in the line. */
static bool is_key(const uint8_t *at) {
    return memcmp(at, "\xC5\xC5\xC5\xC5", 4) == 0 || memcmp(at, "C5C5", 4) == 0;
}

void __wrap_free(void *block) {
    size_t room = looks && block ? malloc_usable_size(block) : 0;
    for (size_t i = 0; i + 4 <= room; i++)
        if (is_key((const uint8_t *)block + i)) left = true;
    __real_free(block);
}

static uint8_t *put_head(uint8_t *at, uint32_t tag, uint8_t type, size_t length) {
    const uint8_t head[8] = {
        (uint8_t)(tag >> 16),    (uint8_t)(tag >> 8),     (uint8_t)tag,           type,
        (uint8_t)(length >> 24), (uint8_t)(length >> 16), (uint8_t)(length >> 8), (uint8_t)length};
    memcpy(at, head, sizeof head);
    return at + sizeof head;
}

static uint8_t *put_number(uint8_t *at, uint32_t tag, uint8_t type, uint8_t number) {
    at = put_head(at, tag, type, 4);
    memset(at, 0, 8);
    at[3] = number;
    return at + 8;
}

/* The response to `get k` with a raw key of so many bytes, a multiple of eight: each 0xC5. */
static uint8_t *response_of(size_t count, size_t *length) {
    enum { STRUCTURE = 1, INTEGER = 2, ENUMERATION = 5, TEXT = 7, BYTES = 8, DATE = 9 };
    size_t value = 8 + count, block = 16 + 8 + value, key = 8 + block;
    size_t payload = 16 + 16 + 8 + key, item = 16 + 16 + 8 + payload, header = 40 + 16 + 16;
    uint8_t *made = calloc(1, count + 1000), *at = made;
    if (!made) exit(1);
    at = put_head(at, 0x42007B, STRUCTURE, 8 + header + 8 + item);
    at = put_head(at, 0x42007A, STRUCTURE, header);
    at = put_head(at, 0x420069, STRUCTURE, 32);
    at = put_number(at, 0x42006A, INTEGER, 1);
    at = put_number(at, 0x42006B, INTEGER, 2);
    at = put_head(at, 0x420092, DATE, 8) + 8;
    at = put_number(at, 0x42000D, INTEGER, 1);
    at = put_head(at, 0x42000F, STRUCTURE, item);
    at = put_number(at, 0x42005C, ENUMERATION, 10);
    at = put_number(at, 0x42007F, ENUMERATION, 0);
    at = put_head(at, 0x42007C, STRUCTURE, payload);
    at = put_number(at, 0x420057, ENUMERATION, 2);
    at = put_head(at, 0x420094, TEXT, 1);
    *at = 'k';
    at = put_head(at + 8, 0x42008F, STRUCTURE, key);
    at = put_head(at, 0x420040, STRUCTURE, block);
    at = put_number(at, 0x420042, ENUMERATION, 1);
    at = put_head(at, 0x420045, STRUCTURE, value);
    at = put_head(at, 0x420043, BYTES, count);
    memset(at, 0xC5, count);
    *length = (size_t)(at - made) + count;
    return made;
}

/* Reads a key of so many bytes out of its response: how often the library asked for memory. */
static long reads(size_t count) {
    static const uint8_t none[1];
    static const char path[] =
        "cryptographic_object.SymmetricKey.key_block.key_value.key_material.Bytes";
    const kmip_word call[] = {kmip_text_word("get"), kmip_text_word("k")};
    size_t length, room = 2 * count + 4096, right = 0;
    int64_t line_len = 0;
    uint8_t *response = response_of(count, &length), *line = malloc(room), *key = malloc(count);
    if (!line || !key) exit(1);
    asked = 0;
    looks = true;
    left = false;
    double from = seconds_now();
    int32_t status = kmip_answer(call, 2, none, 0, response, length, line, room, &line_len);
    check(status == KMIP_ANSWERED && line_len > 2 * (int64_t)count, "a large key is read");
    int64_t found = kmip_value(line, (size_t)line_len, (const uint8_t *)path, sizeof path - 1, true,
                               key, count);
    looks = false;
    printf("        %zu bytes in %.2f seconds\n", count, seconds_now() - from);
    while (right < count && key[right] == 0xC5)
        right++;
    check(found == (int64_t)count && right == count, "as it is");
    check(!left, "and no memory that was freed has any of it");
    long times = asked;
    explicit_bzero(line,
                   room); /* a block that is larger than what was asked for may have it again */
    explicit_bzero(key, count);
    explicit_bzero(response, length);
    free(key);
    free(line);
    free(response);
    return times;
}

int main(void) {
    long small = reads(1000000), large = reads(16000000);
    /* The blocks double, and do not grow by as much each time: with 65536 bytes more at a time it
       would be 15 times as often. */
    check(large < small + 50,
          "what is sixteen times as large does not ask for memory as often again");
    if (large >= small + 50) printf("        %ld times in place of %ld\n", large, small);
    return outcome();
}
