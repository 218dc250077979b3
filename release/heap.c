/*
 * The heap of the module for the web: what malloc, realloc and free of the C library are elsewhere. No
 * proof covers it; release/heap_test and player/test/test_module.js try it.
 *
 * What it gives: a block of at least the size that is asked for, whose address is a multiple of 16, and which
 * overlaps with no other block in use. A block whose size is changed keeps its bytes, as far as both sizes go.
 * A block is refused only if no free one is large enough, and the host has less memory than is missing behind
 * the last one, or 4 GiB are reached; then all blocks stay as they are, and smaller ones may still be had.
 *
 * How: each block has a header of 16 bytes, and the next one follows at once; a block that is freed is joined
 * with the free ones beside it, so that no two of these ever lie side by side. Free ones stand in lists by
 * their size, eight for each power of two. A block is taken from the first list in which each is large enough,
 * or from the head of the list before it; a list is searched only before the host is asked for more. Memory is
 * taken in pages of 64 KiB, an eighth more than there is if the host gives it, and none is given back.
 *
 * It is for one thread, as the module is.
 */
typedef unsigned long long u64;
typedef long long i64;
typedef unsigned char u8;

#define PAGE 65536ull
#define HEAD 16ll
#define LEAST 32ull
#define USED 1ull
#define IN_BITS 32 /* addresses and sizes have so many */

/* Its size has the header and is a multiple of 16; the lowest bit says that the block is in use. */
typedef struct Block {
    u64 before; /* the size of the block before it, without the bit; 0 if there is none */
    u64 size;
    struct Block *next, *last; /* of a free block: its list */
} Block;

/* What rattle_alloc and rattle_realloc return; ok is 0 or 1, in all of its bits. */
typedef struct {
    u64 ok;
    u8 *at;
} Tried;

extern u8 __heap_base; /* where memory begins that nothing else uses */

static Block *lists[64][8]; /* by the power of two and the next three bits of the size */
static u64 powers;          /* which rows have a block */
static u8 eighths[64];      /* and which lists of each row */
static Block *end;          /* the block of size 0 behind all others, in use; 0 before the first one */
static u64 in_use;
static u8 none;

static u64 size_of(const Block *b) { return b->size & ~USED; }
static int is_used(const Block *b) { return (b->size & USED) != 0; }
static Block *at(void *p, i64 n) { return (Block *)((u8 *)p + n); }
static Block *behind(Block *b) { return at(b, (i64)size_of(b)); }
static Block *ahead(Block *b) { return at(b, -(i64)b->before); }
static Block *first(void) { return (Block *)(((u64)&__heap_base + HEAD - 1) & ~(u64)(HEAD - 1)); }

static void list_of(u64 size, int *power, int *eighth) {
    *power = 63 - __builtin_clzll(size);
    *eighth = (size >> (*power - 3)) & 7;
}

static void put(Block *b) {
    int p, e;
    list_of(b->size, &p, &e);
    b->last = 0;
    b->next = lists[p][e];
    if (b->next) b->next->last = b;
    lists[p][e] = b;
    powers |= 1ull << p;
    eighths[p] |= 1 << e;
}

static void take(Block *b) {
    int p, e;
    list_of(b->size, &p, &e);
    if (b->next) b->next->last = b->last;
    if (b->last) {
        b->last->next = b->next;
        return;
    }
    lists[p][e] = b->next;
    if (b->next) return;
    eighths[p] &= ~(1 << e);
    if (!eighths[p]) powers &= ~(1ull << p);
}

/* Puts a block that is in no list into one, joined with its free neighbours; the whole is returned. */
static Block *released(Block *b) {
    Block *other = behind(b);
    b->size = size_of(b);
    if (!is_used(other)) {
        take(other);
        b->size += other->size;
    }
    if (b->before && !is_used(ahead(b))) {
        other = ahead(b);
        take(other);
        other->size += b->size;
        b = other;
    }
    behind(b)->before = b->size;
    put(b);
    return b;
}

/* Cuts a block in use down to its first bytes, if what is left is enough for a block. */
static void cut(Block *b, u64 size) {
    u64 left = size_of(b) - size;
    if (left < LEAST) return;
    b->size = size | USED;
    Block *rest = behind(b);
    rest->before = size;
    rest->size = left;
    released(rest);
}

/* Whether the host gave so many pages more. It is seen by the size: where the module has been lowered to
 * addresses of 32 bits, what memory.grow gives for a refusal may be another number than -1. */
static int has_grown(u64 pages) {
    u64 had = __builtin_wasm_memory_size(0);
    __builtin_wasm_memory_grow(0, pages);
    return __builtin_wasm_memory_size(0) >= had + pages;
}

/* The last block, free and of at least so many bytes, by more memory; or 0 if the host has too little. It is
 * asked where no free block is large enough. */
static Block *grown(u64 size) {
    Block *b = end ? end : first();
    Block *from = end && !is_used(ahead(end)) ? ahead(end) : b;
    u64 want = (u64)from + size + HEAD;
    if (want >> IN_BITS) return 0;
    u64 had = __builtin_wasm_memory_size(0);
    if (want > had * PAGE) {
        u64 pages = (want + PAGE - 1) / PAGE - had;
        u64 more = had / 8;
        if (!(more > pages && has_grown(more)) && !has_grown(pages)) return 0;
    }
    if (!end) b->before = 0;
    end = (Block *)(__builtin_wasm_memory_size(0) * PAGE - HEAD);
    b->size = (u64)((u8 *)end - (u8 *)b);
    end->size = USED;
    end->before = b->size;
    return released(b);
}

/* A block of the first list in which each is large enough, or the head of the list before it; or 0. */
static Block *found(u64 size) {
    int p, e;
    list_of(size, &p, &e);
    if (lists[p][e] && lists[p][e]->size >= size) return lists[p][e];
    list_of(size + (1ull << (p - 3)) - 1, &p, &e);
    u8 here = eighths[p] & (0xff << e);
    if (!here) {
        u64 above = p == 63 ? 0 : powers & (~0ull << (p + 1));
        if (!above) return 0;
        p = __builtin_ctzll(above);
        here = eighths[p];
    }
    return lists[p][__builtin_ctz(here)];
}

/* A block that is large enough, of the list that a block of this size stands in; or 0. */
static Block *searched(u64 size) {
    int p, e;
    list_of(size, &p, &e);
    Block *b = lists[p][e];
    while (b && b->size < size) b = b->next;
    return b;
}

static u64 whole(u64 n) {
    u64 size = (n + HEAD + 15) & ~15ull;
    return size < LEAST ? LEAST : size;
}

static u8 *allocated(u64 n) {
    if (n >> IN_BITS) return 0;
    u64 size = whole(n);
    Block *b = found(size);
    if (!b) b = searched(size);
    if (!b) b = grown(size);
    if (!b) return 0;
    take(b);
    b->size |= USED;
    cut(b, size);
    in_use += size_of(b);
    return (u8 *)b + HEAD;
}

static void freed(u8 *p) {
    Block *b = at(p, -HEAD);
    in_use -= size_of(b);
    released(b);
}

/* Makes a block in use larger, by the free one behind it, if there is one of enough bytes. */
static int widened(Block *b, u64 size) {
    Block *next = behind(b);
    if (is_used(next) || size_of(b) + size_of(next) < size) return 0;
    take(next);
    b->size += next->size;
    behind(b)->before = size_of(b);
    return 1;
}

/* What the code that Rattle compiles calls. No alignment that it asks for is more than 16. */
Tried rattle_alloc(u64 n, u64 align) {
    u8 *p = align > (u64)HEAD ? 0 : allocated(n);
    return (Tried){p != 0, p ? p : &none};
}

void rattle_dealloc(u8 *p) { freed(p); }

Tried rattle_realloc(u8 *p, u64 kept, u64 n, u64 align) {
    Block *b = at(p, -HEAD);
    if (n >> IN_BITS) return (Tried){0, &none};
    u64 size = whole(n), had = size_of(b);
    if (size <= had || widened(b, size)) {
        cut(b, size);
        in_use += size_of(b) - had;
        return (Tried){1, p};
    }
    Tried made = rattle_alloc(n, align);
    if (made.ok) {
        __builtin_memcpy(made.at, p, kept < n ? kept : n);
        freed(p);
    }
    return made;
}

/* For the host: a block of so many bytes, or 0; gives one back; how many bytes are in use, with headers. */
u8 *neqysbar_room(u64 n) { return allocated(n); }
void neqysbar_free(u8 *p) { freed(p); }
u64 neqysbar_in_use(void) { return in_use; }

/* By lines of assembly: the attribute export_name would give the module a table of functions whose numbers
 * have 64 bits, which older engines and wasm-opt don't read. */
#ifdef __wasm__
__asm__(".export_name neqysbar_room, neqysbar_room");
__asm__(".export_name neqysbar_free, neqysbar_free");
__asm__(".export_name neqysbar_in_use, neqysbar_in_use");
#endif
