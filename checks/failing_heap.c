/* Preloaded, it lets one call of malloc, calloc or realloc fail: the one with the number in FAILING_ALLOCATION, counted from 1. It
 * then makes the file FAILING_MARK, so that whoever runs the program knows that it had so many. As the program ends, it writes to the
 * file HEAP_LEFT how many pieces of memory the program still has. It stands on the C library's own names for its heap. */
#define _GNU_SOURCE
#include <errno.h>
#include <fcntl.h>
#include <stdatomic.h>
#include <stdio.h>
#include <stdlib.h>
#include <unistd.h>

extern void *__libc_malloc(size_t), *__libc_calloc(size_t, size_t), *__libc_realloc(void *, size_t);
extern void __libc_free(void *);

static _Atomic long calls, pieces;

/* Counts a call. Whether it is the one that fails. */
static int fails(void) {
    const char *number = getenv("FAILING_ALLOCATION"), *mark = getenv("FAILING_MARK");
    if (!number || atol(number) != ++calls) return 0;
    if (mark) close(open(mark, O_CREAT | O_WRONLY, 0600));
    errno = ENOMEM;
    return 1;
}

/* Counts a piece of memory, if one was taken. */
static void *counted(void *at) {
    if (at) pieces++;
    return at;
}

void *malloc(size_t size) { return fails() ? NULL : counted(__libc_malloc(size)); }

void *calloc(size_t count, size_t size) { return fails() ? NULL : counted(__libc_calloc(count, size)); }

void *realloc(void *at, size_t size) {
    if (fails()) return NULL;
    void *now = __libc_realloc(at, size);
    return at ? now : counted(now);
}

void free(void *at) {
    if (at) pieces--;
    __libc_free(at);
}

__attribute__((destructor)) static void tell_left(void) {
    const char *left = getenv("HEAP_LEFT");
    if (!left) return;
    int to = open(left, O_CREAT | O_TRUNC | O_WRONLY, 0600);
    dprintf(to, "%ld\n", (long)pieces);
    close(to);
}
