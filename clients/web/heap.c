// The heap that std's Global asks for, over the module's own memory. A block has 16 bytes before it and is aligned to 16.
// A small block has a power of two of bytes, and goes to a list of its size when it is freed. A large one has its own
// size, grows in place where it is the last, and is joined to the rest where it is freed as the last.
typedef unsigned long size_t;
typedef struct { size_t ok; void *block; } Tried; // two words, as the module for x86-64 takes it
typedef struct Block { size_t size; struct Block *next; } Block;
extern unsigned char __heap_base;
static unsigned char *top, *end;
static Block *small[16], *large;
enum { SMALL = 12 };
static const size_t LIMIT = (size_t)1 << 40;

// Whether the memory grew. The number that memory.grow returns is not looked at: where binaryen lowers 64-bit memory, a
// refusal is 2^32 - 1 and not -1.
static int grew(size_t pages) {
    size_t before = __builtin_wasm_memory_size(0);
    __builtin_wasm_memory_grow(0, pages);
    return __builtin_wasm_memory_size(0) == before + pages;
}

static int room(size_t size) { // whether so many bytes are there after `top`
    if (!top) {
        top = (unsigned char *)(((size_t)&__heap_base + 15) & ~15ul);
        end = (unsigned char *)(__builtin_wasm_memory_size(0) * 65536ul);
    }
    if ((size_t)(end - top) >= size) return 1;
    // A quarter more at a time, since a browser may copy all memory when it grows; what is needed, where that is refused.
    size_t pages = (size - (size_t)(end - top) + 65535) / 65536, more = __builtin_wasm_memory_size(0) / 4;
    if (more > pages && grew(more)) pages = more;
    else if (!grew(pages)) return 0;
    end += pages * 65536;
    return 1;
}

static Block *fresh(size_t size) {
    if (!room(size)) return 0;
    Block *block = (Block *)top;
    top += size;
    block->size = size;
    return block;
}

static int power_of(size_t size) {
    int power = 5;
    while (((size_t)1 << power) < size) power++;
    return power;
}

static void *get(size_t bytes) {
    if (bytes > LIMIT) return 0;
    size_t size = (bytes + 31) & ~15ul;
    Block *block;
    if (size <= 1ul << SMALL) {
        int power = power_of(size);
        block = small[power];
        if (block) small[power] = block->next; else block = fresh((size_t)1 << power);
    } else {
        Block **at = &large;
        while (*at && ((*at)->size < size || (*at)->size > 2 * size)) at = &(*at)->next;
        block = *at;
        if (block) *at = block->next; else block = fresh(size);
    }
    return block ? block + 1 : 0;
}

static void put(void *place) {
    if (!place) return;
    Block *block = (Block *)place - 1;
    if (block->size <= 1ul << SMALL) {
        Block **list = &small[power_of(block->size)];
        block->next = *list;
        *list = block;
    } else if ((unsigned char *)block + block->size == top) {
        top = (unsigned char *)block;
    } else {
        block->next = large;
        large = block;
    }
}

Tried rattle_alloc(size_t size, size_t align) {
    void *place = get(size);
    (void)align;
    return (Tried){ place != 0, place };
}

Tried rattle_realloc(void *place, size_t kept, size_t size, size_t align) {
    Block *block = (Block *)place - 1;
    (void)align;
    if (size > LIMIT) return (Tried){ 0, place };
    if (size + 16 <= block->size) return (Tried){ 1, place };
    size_t more = ((size + 31) & ~15ul) - block->size;
    if (block->size > 1ul << SMALL && (unsigned char *)block + block->size == top && room(more)) {
        block->size += more;
        top += more;
        return (Tried){ 1, place };
    }
    void *moved = get(size);
    if (!moved) return (Tried){ 0, place };
    __builtin_memcpy(moved, place, kept < size ? kept : size);
    put(place);
    return (Tried){ 1, moved };
}

void rattle_dealloc(void *place) { put(place); }

// For the page: a block for the bytes that it hands in or takes out, and all blocks given up at once.
void *web_alloc(size_t size) { return get(size); }
void web_free(void *place) { put(place); }
void web_reset(void) {
    for (int i = 0; i < 16; i++) small[i] = 0;
    large = 0;
    top = 0;
}
