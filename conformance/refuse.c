/* Refuses one allocation: the one whose number stands in REFUSE, counted from 1. Loaded before the C library. With
   REFUSE=0 it refuses none. With START=k it refuses the start of the k-th thread, and with START=-k those of the k-th
   and of each later one. If REFUSED names a file, that file is made when something was refused. If LEFT names a file,
   the number of allocations that weren't freed is written to it at the end; those of the C library for a thread count
   too, so that its stacks mustn't be kept for later threads. */
#define _GNU_SOURCE
#include <dlfcn.h>
#include <errno.h>
#include <fcntl.h>
#include <pthread.h>
#include <stdatomic.h>
#include <stdio.h>
#include <stdlib.h>
#include <sys/syscall.h>
#include <unistd.h>

static atomic_long count, starts, left;

static void *kept(void *block) {
    if (block) left++;
    return block;
}

static void mark(void) {
    const char *file = getenv("REFUSED");
    if (file) close(open(file, O_CREAT | O_WRONLY, 0600));
}

static int is_refused(void) {
    const char *which = getenv("REFUSE");
    if (!which || ++count != atol(which)) return 0;
    mark();
    errno = ENOMEM;
    return 1;
}

int pthread_create(pthread_t *thread, const pthread_attr_t *how, void *(*run)(void *), void *given) {
    static int (*next)(pthread_t *, const pthread_attr_t *, void *(*)(void *), void *);
    if (!next) next = (int (*)(pthread_t *, const pthread_attr_t *, void *(*)(void *), void *))dlsym(RTLD_NEXT, "pthread_create");
    const char *which = getenv("START");
    long k = which ? atol(which) : 0, n = ++starts;
    if (n == k || (k < 0 && n >= -k)) {
        mark();
        return EAGAIN;
    }
    return next(thread, how, run, given);
}

/* The C library takes memory so for each thread. It is counted, and not refused. */
void *calloc(size_t items, size_t size) {
    static void *(*next)(size_t, size_t);
    if (!next) next = (void *(*)(size_t, size_t))dlsym(RTLD_NEXT, "calloc");
    return kept(next(items, size));
}

void *malloc(size_t size) {
    static void *(*next)(size_t);
    if (!next) next = (void *(*)(size_t))dlsym(RTLD_NEXT, "malloc");
    return is_refused() ? NULL : kept(next(size));
}

void *realloc(void *old, size_t size) {
    static void *(*next)(void *, size_t);
    if (!next) next = (void *(*)(void *, size_t))dlsym(RTLD_NEXT, "realloc");
    return is_refused() ? NULL : old ? next(old, size) : kept(next(old, size));
}

void *aligned_alloc(size_t alignment, size_t size) {
    static void *(*next)(size_t, size_t);
    if (!next) next = (void *(*)(size_t, size_t))dlsym(RTLD_NEXT, "aligned_alloc");
    return is_refused() ? NULL : kept(next(alignment, size));
}

int posix_memalign(void **result, size_t alignment, size_t size) {
    static int (*next)(void **, size_t, size_t);
    if (!next) next = (int (*)(void **, size_t, size_t))dlsym(RTLD_NEXT, "posix_memalign");
    if (is_refused()) return ENOMEM;
    int failed = next(result, alignment, size);
    if (!failed) kept(*result);
    return failed;
}

void free(void *block) {
    static void (*next)(void *);
    if (!next) next = (void (*)(void *))dlsym(RTLD_NEXT, "free");
    if (block) left--;
    next(block);
}

__attribute__((destructor)) static void tell(void) {
    const char *file = getenv("LEFT");
    if (!file) return;
    char text[32];
    int length = snprintf(text, sizeof text, "%ld\n", (long)left);
    int to = open(file, O_CREAT | O_WRONLY | O_TRUNC, 0600);
    if (write(to, text, length) != length) abort();
    close(to);
}

/* So ends a program that may have threads: no destructor is called. */
void _exit(int status) {
    tell();
    for (;;) syscall(SYS_exit_group, status);
}
