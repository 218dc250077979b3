/*
 * What the proved code calls of C besides the C library itself, for aarch64: the toolchain has these functions
 * for x86-64 alone. No proof covers them; release/arm_test tries them.
 *
 * With -DHEAP_ALONE only the three of the heap, which are all that the library calls.
 */
#include <errno.h>
#include <stddef.h>
#include <stdint.h>
#include <stdlib.h>

/* A block, or that there is none: ok is 0 or 1, in all of its bits, and at is never null. */
typedef struct {
    uint64_t ok;
    void *at;
} Tried;

static char none; /* what `at` points to if there is no block */

static Tried tried(void *block) { return (Tried){block != NULL, block != NULL ? block : &none}; }

/* A block of so many bytes; its address is a multiple of align, which is at most 16, as malloc's are. Of no
 * bytes, for which malloc may give none, one of align bytes. */
Tried rattle_alloc(size_t size, size_t align) { return tried(malloc(size != 0 ? size : align)); }

/* The same block with another size; it keeps its bytes, as far as both sizes go. If there is no room, it stays
 * as it is. How many bytes it had isn't needed. */
Tried rattle_realloc(void *block, size_t had, size_t size, size_t align) {
    (void)had;
    return tried(realloc(block, size != 0 ? size : align));
}

/* Gives a block back. */
void rattle_dealloc(void *block) { free(block); }

#ifndef HEAP_ALONE
/* The number of the last error of the C library in this thread; and sets it. */
int32_t rattle_errno(void) { return errno; }
void rattle_set_errno(int32_t error) { errno = error; }

/* The words of the command line, kept before main begins: the loader calls what is marked so with them. */
static size_t count;
static char **words;

__attribute__((constructor)) static void keep_words(int argc, char **argv) {
    count = argc > 0 ? (size_t)argc : 0;
    words = argv;
}

/* Copies the word of this number, from 0, the program's own name, on, without the 0 behind it. Returns its
 * length; -1 if there is no such word, -2 if there is less room than it takes. */
intptr_t rattle_arg(size_t number, unsigned char *to, size_t room) {
    size_t length = 0;
    if (number >= count || words[number] == NULL) return -1;
    for (const char *word = words[number]; word[length] != 0; length++) {
        if (length == room) return -2;
        to[length] = (unsigned char)word[length];
    }
    return (intptr_t)length;
}
#endif
