/* This library is preloaded into a program. It refuses one request for memory: the one whose number
   is in the environment variable REFUSED. It counts all requests, and writes their number into the
   file that COUNTED names. */
#define _GNU_SOURCE
#include <errno.h>
#include <fcntl.h>
#include <stdatomic.h>
#include <stdio.h>
#include <stdlib.h>
#include <unistd.h>

extern void *__libc_malloc(size_t);
extern void *__libc_realloc(void *, size_t);
extern void *__libc_calloc(size_t, size_t);
extern void *__libc_memalign(size_t, size_t);

static atomic_long requests;
static long refused = -1;

static int is_refused(void) {
    long number = atomic_fetch_add(&requests, 1) + 1;
    if (refused < 0) {
        const char *text = getenv("REFUSED");
        refused = text ? atol(text) : 0;
    }
    if (number == refused) errno = ENOMEM;
    return number == refused;
}

void *malloc(size_t size) { return is_refused() ? NULL : __libc_malloc(size); }
void *realloc(void *old, size_t size) { return is_refused() ? NULL : __libc_realloc(old, size); }
void *calloc(size_t count, size_t size) { return is_refused() ? NULL : __libc_calloc(count, size); }
void *aligned_alloc(size_t align, size_t size) {
    return is_refused() ? NULL : __libc_memalign(align, size);
}
int posix_memalign(void **result, size_t align, size_t size) {
    if (is_refused()) return ENOMEM;
    *result = __libc_memalign(align, size);
    return *result ? 0 : ENOMEM;
}

/* A program that ends by _exit runs no destructor, so it is counted here too. */
static void count(void) {
    const char *path = getenv("COUNTED");
    char text[32];
    if (!path) return;
    int file = open(path, O_WRONLY | O_CREAT | O_TRUNC, 0600);
    int length = snprintf(text, sizeof text, "%ld\n", atomic_load(&requests));
    if (file >= 0 && write(file, text, length) == length) close(file);
}
__attribute__((destructor)) static void at_end(void) { count(); }
void _exit(int status) {
    count();
    _Exit(status);
}
