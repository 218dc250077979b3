/* Answers EINTR to one read or write, loaded before the C library: to the read of standard input whose number stands in
   READ, or to the write to standard output whose number stands in WRITE, each counted from 1. */
#define _GNU_SOURCE
#include <dlfcn.h>
#include <errno.h>
#include <stdatomic.h>
#include <stdlib.h>
#include <unistd.h>

static int is_refused(const char *name, atomic_long *count) {
    const char *which = getenv(name);
    if (!which || ++*count != atol(which)) return 0;
    errno = EINTR;
    return 1;
}

ssize_t read(int from, void *bytes, size_t most) {
    static atomic_long count;
    static ssize_t (*next)(int, void *, size_t);
    if (!next) next = (ssize_t (*)(int, void *, size_t))dlsym(RTLD_NEXT, "read");
    return from == STDIN_FILENO && is_refused("READ", &count) ? -1 : next(from, bytes, most);
}

static ssize_t write_with(const char *name, int to, const void *bytes, size_t most) {
    static atomic_long count;
    ssize_t (*next)(int, const void *, size_t) = (ssize_t (*)(int, const void *, size_t))dlsym(RTLD_NEXT, name);
    return to == STDOUT_FILENO && is_refused("WRITE", &count) ? -1 : next(to, bytes, most);
}

ssize_t write(int to, const void *bytes, size_t most) { return write_with("write", to, bytes, most); }

ssize_t __write(int to, const void *bytes, size_t most) { return write_with("__write", to, bytes, most); }
