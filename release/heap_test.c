/*
 * Tests heap.c by random sequences of its calls, with ample memory and with too little. The host of this test
 * is an area of memory that grows by pages of 64 KiB up to a bound. release/heap_test builds and runs it.
 */
#include <stdio.h>
#include <stdlib.h>
#include <string.h>
#include <sys/mman.h>

static unsigned long long pages, most_pages;

static unsigned long long memory_size(void) { return pages; }

/* A refusal gives what the module that is lowered to 32 bits gives. */
static unsigned long long memory_grow(unsigned long long more) {
    if (pages + more > most_pages) return 0xffffffffull;
    pages += more;
    return pages - more;
}

#define __builtin_wasm_memory_size(memory) memory_size()
#define __builtin_wasm_memory_grow(memory, more) memory_grow(more)
#include "heap.c"

#define BASE 0x20000000ull /* the linker puts __heap_base behind it, at no multiple of 16 */
#define ROOM (1ull << 30)
#define BLOCKS 2000
#define CALLS 20000
#define SEEDS 24
#define AMPLE 12000 /* pages */
#define LITTLE 200

static struct {
    u8 *at;
    u64 size;
    u8 value;
} held[BLOCKS];
static u64 refused;

static void stop(const char *what) {
    printf("heap: %s\n", what);
    exit(1);
}

static void fill(int i, u8 *at, u64 size) {
    if ((u64)at % 16) stop("an address that is no multiple of 16");
    held[i].at = at;
    held[i].size = size;
    held[i].value = (u8)rand();
    memset(at, held[i].value, size);
}

static void still_holds(int i, u64 size) {
    const u8 *at = held[i].at;
    if (size && (*at != held[i].value || memcmp(at, at + 1, size - 1))) stop("a block's bytes are changed");
}

/* Each block follows the one before, no two free ones lie side by side, and the bytes in use are counted. */
static void walk(void) {
    u64 before = 0, used = 0;
    int free_before = 0;
    if (!end) return;
    for (Block *b = first(); b != end; b = behind(b)) {
        if (b->before != before || size_of(b) < LEAST || size_of(b) % 16) stop("a header is wrong");
        if (!is_used(b) && free_before) stop("two free blocks lie side by side");
        free_before = !is_used(b);
        before = size_of(b);
        if (is_used(b)) used += before;
    }
    if (end->before != before || used != in_use) stop("the end or the count is wrong");
}

/* A refusal is right only if no free block is large enough, and the memory behind the last one too short. */
static void refusal(u64 size) {
    u64 tail = 0;
    refused++;
    for (Block *b = first(); end && b != end; b = behind(b)) {
        if (!is_used(b) && size_of(b) >= whole(size)) stop("refused, with a free block that is large enough");
        tail = is_used(b) ? 0 : size_of(b);
    }
    if (end && (u64)end - tail + whole(size) + 2 * HEAD <= most_pages * PAGE) stop("refused, with memory enough");
}

static u64 some_size(u64 most) {
    u64 size = (u64)rand() % most;
    return rand() % 50 ? size : size * 20;
}

static void allocate(int i, u64 most) {
    u64 size = some_size(most);
    Tried made = rattle_alloc(size, 16);
    if (made.ok > 1) stop("neither 0 nor 1");
    if (made.ok) fill(i, made.at, size);
    else refusal(size);
}

static void change(int i, u64 most) {
    u64 size = rand() % 3 ? some_size(most) : held[i].size * 2;
    u64 kept = held[i].size < size ? held[i].size : size;
    Tried made = rattle_realloc(held[i].at, held[i].size, size, 16);
    if (!made.ok) {
        refusal(size);
        still_holds(i, held[i].size);
        return;
    }
    held[i].at = made.at;
    still_holds(i, kept);
    fill(i, made.at, size);
}

static void let_go(int i) {
    still_holds(i, held[i].size);
    rattle_dealloc(held[i].at);
    held[i].at = 0;
}

static void anew(int seed) {
    srand((unsigned)seed);
    memset(lists, 0, sizeof lists);
    memset(eighths, 0, sizeof eighths);
    powers = 0;
    end = 0;
    in_use = 0;
    pages = BASE / PAGE + 1;
    most_pages = BASE / PAGE + (seed % 3 ? AMPLE : LITTLE);
}

static void sequence(int seed) {
    static const u64 sizes[] = {40, 1000, 3000, 200000};
    u64 most = sizes[seed % 4];
    anew(seed);
    for (int k = 0; k < CALLS; k++) {
        int i = rand() % BLOCKS;
        if (!held[i].at) allocate(i, most);
        else if (rand() % 2) let_go(i);
        else change(i, most);
        if (k % 1000 == 0) walk();
    }
    for (int i = 0; i < BLOCKS; i++)
        if (held[i].at) let_go(i);
    walk();
    if (in_use || is_used(first()) || behind(first()) != end) stop("not one free block, where all are freed");
}

int main(void) {
    int flags = MAP_PRIVATE | MAP_ANONYMOUS | MAP_FIXED_NOREPLACE | MAP_NORESERVE;
    if (mmap((void *)BASE, ROOM, PROT_READ | PROT_WRITE, flags, -1, 0) != (void *)BASE) stop("no memory for the test");
    for (int seed = 1; seed <= SEEDS; seed++) sequence(seed);
    if (!refused) stop("no memory was ever refused, so that is not tested");
    if (rattle_alloc(1ull << 33, 16).ok || rattle_alloc(~0ull, 16).ok || rattle_alloc(16, 32).ok)
        stop("a size or an alignment is given that can't be had");
    printf("heap: %d sequences of %d calls are as wanted, with %llu refusals\n", SEEDS, CALLS, refused);
    return 0;
}
