/* The exports of kmip_web on this machine: native EXPORT FILE [FILE | SIDE]. It writes the text, or
   `code N` for a number below zero. */
#include <stdint.h>
#include <stdio.h>
#include <stdlib.h>
#include <string.h>

typedef struct {
    size_t ok;
    void *place;
} tried;

typedef struct {
    uint8_t *bytes;
    size_t size;
} given;

tried rattle_alloc(size_t size, size_t align);
tried rattle_realloc(void *place, size_t kept, size_t size, size_t align);
void rattle_dealloc(void *place);
int64_t web_skeleton(const uint8_t *bytes, size_t size, uint8_t *into, size_t room);
int64_t web_listing(const uint8_t *bytes, size_t size, uint8_t *into, size_t room);
int64_t web_decode(const uint8_t *bytes, size_t size, uint8_t *into, size_t room);
int64_t web_fault(const uint8_t *bytes, size_t size, uint8_t *into, size_t room);
int64_t web_report(const uint8_t *sent, size_t sent_size, const uint8_t *received,
                   size_t received_size, uint8_t *into, size_t room);
int64_t web_bytes(const uint8_t *text, size_t size, uint64_t side, uint8_t *into, size_t room);
int64_t web_frame(const uint8_t *bytes, size_t size);

tried rattle_alloc(size_t size, size_t align) {
    void *place = malloc(size > align ? size : align);
    return (tried){place != NULL, place};
}

tried rattle_realloc(void *place, size_t kept, size_t size, size_t align) {
    void *moved = realloc(place, size > align ? size : align);
    (void)kept;
    return (tried){moved != NULL, moved};
}

void rattle_dealloc(void *place) {
    free(place);
}

static given contents(const char *name) {
    FILE *file = fopen(name, "rb");
    given made = {malloc(1), 0};
    size_t room = 1, got;
    if (!file || !made.bytes) {
        perror(name);
        exit(2);
    }
    while ((got = fread(made.bytes + made.size, 1, room - made.size, file)) > 0) {
        made.size += got;
        if (made.size < room) continue;
        room *= 2;
        made.bytes = realloc(made.bytes, room);
        if (!made.bytes) {
            perror(name);
            exit(2);
        }
    }
    if (fclose(file) != 0) {
        perror(name);
        exit(2);
    }
    return made;
}

int main(int count, char **words) {
    enum { ROOM = 1 << 28 };
    if (count < 3) {
        fputs("usage: native EXPORT FILE [FILE | SIDE]\n", stderr);
        return 2;
    }
    const char *name = words[1];
    given a = contents(words[2]);
    uint8_t *into = malloc(ROOM);
    int64_t length = -9;
    if (!into) {
        perror("native");
        return 2;
    }
    if (!strcmp(name, "web_frame")) {
        printf("%lld\n", (long long)web_frame(a.bytes, a.size));
        return 0;
    }
    if (!strcmp(name, "web_skeleton")) length = web_skeleton(a.bytes, a.size, into, ROOM);
    if (!strcmp(name, "web_listing")) length = web_listing(a.bytes, a.size, into, ROOM);
    if (!strcmp(name, "web_decode")) length = web_decode(a.bytes, a.size, into, ROOM);
    if (!strcmp(name, "web_fault")) length = web_fault(a.bytes, a.size, into, ROOM);
    if (!strcmp(name, "web_bytes") && count == 4)
        length = web_bytes(a.bytes, a.size, (uint64_t)atoi(words[3]), into, ROOM);
    if (!strcmp(name, "web_report") && count == 4) {
        given b = contents(words[3]);
        length = web_report(a.bytes, a.size, b.bytes, b.size, into, ROOM);
    }
    if (length < 0 || length > ROOM) {
        printf("code %lld", (long long)length);
        return 0;
    }
    return fwrite(into, 1, (size_t)length, stdout) == (size_t)length && fflush(stdout) == 0 ? 0 : 2;
}
