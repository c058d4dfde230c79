/* The memory of the proved code: the three functions that it asks for, over malloc, in place of the
   toolchain's. What is given back is overwritten first, since requests hold passwords, and
   responses keys. */
#define _DEFAULT_SOURCE
#include <stdbool.h>
#include <stddef.h>
#include <stdint.h>
#include <stdlib.h>
#include <string.h>

/* In front of a block, in as many bytes as malloc aligns by: how many bytes it has room for, and
   how many were ever asked for, which are all that hold anything. */
typedef struct {
    size_t room, most;
} front;
#define FRONT 16
_Static_assert(sizeof(front) <= FRONT, "it stands in front of a block");

/* Whether there is memory, and where; where there is none, the pointer is never followed. */
typedef struct {
    bool ok;
    void *place;
} tried;

tried rattle_alloc(size_t size, size_t align);
tried rattle_realloc(void *place, size_t kept, size_t size, size_t align);
void rattle_dealloc(void *place);

static front *front_of(void *place) {
    return (front *)((uint8_t *)place - FRONT);
}

/* A new block for so many bytes, with so much room. */
static tried block_of(size_t size, size_t room) {
    static uint8_t nothing[FRONT];
    uint8_t *block = room <= SIZE_MAX - FRONT ? malloc(room + FRONT) : NULL;
    if (!block) return (tried){.ok = false, .place = nothing};
    *(front *)block = (front){.room = room, .most = size};
    return (tried){.ok = true, .place = block + FRONT};
}

/* A new block; of `align` bytes where none are asked for. No alignment is larger than 16. */
tried rattle_alloc(size_t size, size_t align) {
    if (size == 0) size = align;
    return block_of(size, size);
}

/* The room of a block that grows to so many bytes: at least twice what it had, so that one that
   grows step by step is copied no more often than its size doubles. */
static size_t room_for(size_t room, size_t size) {
    return size > room && size / 2 < room && room <= SIZE_MAX / 2 ? 2 * room : size;
}

/* A block of another size, whose first bytes are those of the old one; the old one is as it was
   where there is no memory. It is the same one where that has the room, and not far too much. */
tried rattle_realloc(void *place, size_t kept, size_t size, size_t align) {
    enum { LARGE = 65536 };
    front *own = front_of(place);
    if (size == 0) size = align;
    if (size <= own->room && (own->room <= LARGE || size > own->room / 4)) {
        if (size > own->most) own->most = size;
        return (tried){.ok = true, .place = place};
    }
    size_t room = room_for(own->room, size);
    tried made = block_of(size, room);
    if (!made.ok && room > size) made = block_of(size, size);
    if (made.ok) {
        memcpy(made.place, place, kept);
        rattle_dealloc(place);
    }
    return made;
}

void rattle_dealloc(void *place) {
    front *own = front_of(place);
    explicit_bzero(place, own->most);
    free(own);
}
