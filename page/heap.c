// The heap of the page's module: the three functions that the kit's `Global` calls. Nothing proves this file: it stands where
// the C library's malloc stands for the program. Memory comes from memory.grow alone, so what the page's script grows for
// itself is never touched here. Blocks of up to 128 KiB come in sizes of powers of two, larger ones in whole pages; what is
// let go is kept in lists and used again.
typedef unsigned long u64;
typedef struct {
    u64 ok; // 1 or 0
    unsigned char *at;
} Tried;
typedef struct Block {
    u64 room;           // how many bytes may be used behind this header of 16 bytes
    struct Block *next; // of a free block
} Block;

enum { PAGE = 65536, CLASSES = 13, LEAST = 32, FRESH_PAGES = 16 };
static const u64 most_small = (u64)LEAST << (CLASSES - 1);
static Block *small[CLASSES]; // free blocks of LEAST << class bytes, their header included
static Block *large;          // free blocks of whole pages
static unsigned char *fresh, *fresh_end;

static unsigned char *grow(u64 pages) {
    u64 before = __builtin_wasm_memory_grow(0, pages);
    return before == ~0ul ? 0 : (unsigned char *)(before * PAGE);
}

static int class_of(u64 whole) {
    int class = 0;
    while ((u64)LEAST << class < whole)
        class++;
    return class;
}

// A free block that is not twice as large, or new pages.
static unsigned char *take_large(u64 count) {
    for (Block **at = &large; *at; at = &(*at)->next)
        if ((*at)->room >= count && (*at)->room / 2 <= count) {
            Block *block = *at;
            *at = block->next;
            return (unsigned char *)(block + 1);
        }
    u64 pages = (count + sizeof(Block) + PAGE - 1) / PAGE;
    Block *block = (Block *)grow(pages);
    if (!block)
        return 0;
    block->room = pages * PAGE - sizeof(Block);
    return (unsigned char *)(block + 1);
}

static unsigned char *take(u64 count) {
    u64 whole = count + sizeof(Block);
    if (whole > most_small)
        return take_large(count);
    int class = class_of(whole);
    u64 size = (u64)LEAST << class;
    Block *block = small[class];
    if (block) {
        small[class] = block->next;
        return (unsigned char *)(block + 1);
    }
    if ((u64)(fresh_end - fresh) < size) {
        unsigned char *more = grow(FRESH_PAGES);
        if (!more)
            return 0;
        fresh = more;
        fresh_end = more + FRESH_PAGES * PAGE;
    }
    block = (Block *)fresh;
    fresh += size;
    block->room = size - sizeof(Block);
    return (unsigned char *)(block + 1);
}

void rattle_dealloc(unsigned char *at) {
    if (!at)
        return;
    Block *block = (Block *)at - 1;
    u64 whole = block->room + sizeof(Block);
    Block **list = whole <= most_small ? &small[class_of(whole)] : &large;
    block->next = *list;
    *list = block;
}

static unsigned char *try_take(u64 count) {
    return count >> 47 ? 0 : take(count ? count : 1);
}

// Every block stands at a multiple of 16, which each alignment that is asked for divides.
Tried rattle_alloc(u64 count, u64 align) {
    (void)align;
    unsigned char *at = try_take(count);
    return (Tried){at != 0, at};
}

Tried rattle_realloc(unsigned char *at, u64 kept, u64 count, u64 align) {
    (void)align;
    Block *block = (Block *)at - 1;
    if (count <= block->room && count >= block->room / 4)
        return (Tried){1, at};
    unsigned char *other = try_take(count);
    if (!other)
        return (Tried){0, at};
    __builtin_memcpy(other, at, kept < count ? kept : count);
    rattle_dealloc(at);
    return (Tried){1, other};
}
