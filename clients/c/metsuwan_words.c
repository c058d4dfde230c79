/* The words of a call as the library takes them, texts, and the lines of errors. */
#define _POSIX_C_SOURCE 200809L
#include "metsuwan_internal.h"

#include <openssl/crypto.h>
#include <stdio.h>
#include <stdlib.h>
#include <string.h>

/* Room for the words of a call, with its name, which is one of them. */
static kmip_words room_for_words(const char *call, size_t count) {
    bool fits = count < SIZE_MAX / sizeof(kmip_word);
    kmip_words made = {fits ? calloc(count + 1, sizeof(kmip_word)) : NULL, 0};
    if (!made.at) return made;
    made.at[0] = kmip_text_word(call);
    made.count = count + 1;
    return made;
}

/* A null array is one word that is null. */
kmip_words kmip_words_of_array(const char *call, const kmip_word *words, size_t count) {
    size_t taken = 0;
    while (words && taken < count && words[taken].bytes)
        taken++;
    if (taken < count) taken++; /* the null one, which kmip_make_call refuses */
    kmip_words made = room_for_words(call, taken);
    if (made.at && words && taken > 0) memcpy(made.at + 1, words, taken * sizeof *words);
    return made;
}

kmip_words kmip_words_of_texts(const char *call, const char *const *texts) {
    size_t count = 0;
    while (texts && texts[count])
        count++;
    kmip_words made = room_for_words(call, texts ? count : 1);
    for (size_t i = 0; made.at && i < count; i++)
        made.at[i + 1] = kmip_text_word(texts[i]);
    return made;
}

kmip_words kmip_words_of_list(const char *call, va_list given) {
    va_list counted;
    size_t count = 0;
    va_copy(counted, given);
    while (va_arg(counted, const char *))
        count++;
    va_end(counted);
    kmip_words made = room_for_words(call, count);
    for (size_t i = 0; made.at && i < count; i++)
        made.at[i + 1] = kmip_text_word(va_arg(given, const char *));
    return made;
}

bool kmip_room_has(kmip_room *into, size_t room) {
    if (into->room >= room) return true;
    uint8_t *bytes = malloc(room);
    if (!bytes) return false;
    if (into->bytes) memcpy(bytes, into->bytes, into->room);
    kmip_room_free(into);
    into->bytes = bytes;
    into->room = room;
    return true;
}

void kmip_room_free(kmip_room *into) {
    if (into->bytes) OPENSSL_cleanse(into->bytes, into->room);
    free(into->bytes);
    into->bytes = NULL;
    into->room = 0;
}

/* Overwrites the vector registers, by which memory is copied: the dynamic linker saves them on the
   stack at the first call of a function. */
static void clean_registers(void) {
#if defined __x86_64__ && defined __GNUC__
#define CLEAN(number) "vpxord %%zmm" number ", %%zmm" number ", %%zmm" number "\n\t"
    if (__builtin_cpu_supports("avx512f"))
        __asm__ volatile(CLEAN("16") CLEAN("17") CLEAN("18") CLEAN("19") CLEAN("20") CLEAN("21")
                             CLEAN("22") CLEAN("23") CLEAN("24") CLEAN("25") CLEAN("26") CLEAN("27")
                                 CLEAN("28") CLEAN("29") CLEAN("30") CLEAN("31")::);
    if (__builtin_cpu_supports("avx"))
        __asm__ volatile("vzeroall" ::
                             : "xmm0", "xmm1", "xmm2", "xmm3", "xmm4", "xmm5", "xmm6", "xmm7",
                               "xmm8", "xmm9", "xmm10", "xmm11", "xmm12", "xmm13", "xmm14",
                               "xmm15");
#undef CLEAN
#endif
}

/* How far down. */
#define CLEANED 32768

NOT_INLINE void kmip_clean_stack(void) {
    uint8_t below[CLEANED];
    OPENSSL_cleanse(below, sizeof below);
    clean_registers();
}

char *kmip_copy_of(const char *text) {
    size_t size = strlen(text) + 1;
    char *made = malloc(size);
    return made ? memcpy(made, text, size) : NULL;
}

void kmip_copy_free(char *text) {
    if (text) OPENSSL_cleanse(text, strlen(text));
    free(text);
}

/* How many bytes the character at the front of a text has in UTF-8 (RFC 3629, 4); 0: it is none. */
static size_t character(const unsigned char *text) {
    static const struct {
        unsigned char first, last, low, high; /* of the first byte, and of the second */
        size_t count;
    } rows[] = {
        {0x00, 0x7F, 0x00, 0x00, 1}, {0xC2, 0xDF, 0x80, 0xBF, 2}, {0xE0, 0xE0, 0xA0, 0xBF, 3},
        {0xE1, 0xEC, 0x80, 0xBF, 3}, {0xED, 0xED, 0x80, 0x9F, 3}, {0xEE, 0xEF, 0x80, 0xBF, 3},
        {0xF0, 0xF0, 0x90, 0xBF, 4}, {0xF1, 0xF3, 0x80, 0xBF, 4}, {0xF4, 0xF4, 0x80, 0x8F, 4},
    };
    size_t row = 0, rows_count = sizeof rows / sizeof *rows;
    while (row < rows_count && (*text < rows[row].first || *text > rows[row].last))
        row++;
    if (row == rows_count) return 0;
    if (rows[row].count > 1 && (text[1] < rows[row].low || text[1] > rows[row].high)) return 0;
    for (size_t i = 2; i < rows[row].count; i++)
        if (text[i] < 0x80 || text[i] > 0xBF) return 0;
    return rows[row].count;
}

bool kmip_is_utf8(const char *text) {
    while (*text) {
        size_t count = character((const unsigned char *)text);
        if (count == 0) return false;
        text += count;
    }
    return true;
}

/* The code of a character of so many bytes of UTF-8, at most three. */
static unsigned code_of(const unsigned char *text, size_t count) {
    if (count == 2) return (text[0] & 0x1FU) << 6 | (text[1] & 0x3FU);
    if (count == 3) return (text[0] & 0xFU) << 12 | (text[1] & 0x3FU) << 6 | (text[2] & 0x3FU);
    return *text;
}

/* Whether a terminal would not show a character of so many bytes, but do something: controls, and what
   turns the direction of writing, ends a line or has no width. */
static bool acts_on_terminal(const char *text, size_t count) {
    static const struct {
        unsigned first, last;
    } rows[] = {
        {0, 0x1F},        {0x7F, 0x9F},     {0xAD, 0xAD},     {0x61C, 0x61C},   {0x180E, 0x180E},
        {0x200B, 0x200F}, {0x2028, 0x202E}, {0x2060, 0x206F}, {0xFEFF, 0xFEFF}, {0xFFF9, 0xFFFB},
    };
    unsigned code = count < 4 ? code_of((const unsigned char *)text, count) : 'x';
    bool found = false;
    for (size_t i = 0; i < sizeof rows / sizeof *rows; i++)
        found = found || (code >= rows[i].first && code <= rows[i].last);
    return found;
}

size_t kmip_write_character(const char *text, char into[8]) {
    size_t count = character((const unsigned char *)text);
    unsigned char byte = (unsigned char)*text;
    if (count == 0)
        snprintf(into, 8, "?");
    else if (byte == '"' || byte == '\\')
        snprintf(into, 8, "\\%c", byte);
    else if (acts_on_terminal(text, count))
        snprintf(into, 8, "\\u%04X", code_of((const unsigned char *)text, count) & 0xFFFF);
    else
        snprintf(into, 8, "%.*s", (int)count, text);
    return count == 0 ? 1 : count;
}

/* How many more bytes a line has once each character that acts on a terminal is escaped. */
static size_t more_escaped(const char *line) {
    size_t more = 0;
    while (*line) {
        unsigned char byte = (unsigned char)*line;
        /* (what is ASCII and shown is nearly all of it) */
        bool is_plain = byte >= ' ' && byte < 0x7F;
        size_t count = is_plain ? 1 : character((const unsigned char *)line);
        if (count == 0) count = 1;
        if (!is_plain && acts_on_terminal(line, count)) more += 6 - count;
        line += count;
    }
    return more;
}

bool kmip_escape_line(kmip_room *line) {
    char *from = (char *)line->bytes;
    size_t more = more_escaped(from), length = strlen(from);
    if (more == 0) return true;
    kmip_room made = {NULL, 0};
    if (!kmip_room_has(&made, length + more + 1 > KMIP_LINE ? length + more + 1 : KMIP_LINE))
        return false;
    char *at = (char *)made.bytes;
    while (*from) {
        size_t count = character((const unsigned char *)from);
        if (count == 0) count = 1;
        if (acts_on_terminal(from, count))
            at += snprintf(at, 7, "\\u%04X", code_of((const unsigned char *)from, count) & 0xFFFF);
        else
            for (size_t i = 0; i < count; i++)
                *at++ = from[i];
        from += count;
    }
    *at = 0;
    kmip_room_free(line);
    *line = made;
    return true;
}

void kmip_error_line(char *into, size_t room, const char *kind, const char *text) {
    static const char end[] = "\"}";
    if (!into) return;
    int front = snprintf(into, room, "{\"error\":\"%s\",\"text\":\"", kind);
    if (front < 0 || (size_t)front + sizeof end > room) {
        if (room > 0) *into = 0;
        return;
    }
    size_t done = (size_t)front;
    while (*text) {
        char shown[8];
        text += kmip_write_character(text, shown);
        size_t width = strlen(shown);
        if (done + width + sizeof end > room) break;
        memcpy(into + done, shown, width);
        done += width;
    }
    memcpy(into + done, end, sizeof end);
}
