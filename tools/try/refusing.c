/*
 * Refuses one request for memory of a program that loads this library by LD_PRELOAD. The variable REFUSED_REQUEST has the number
 * of this request, counted from 1. When the library refuses the request, it writes a byte to file 9.
 *
 * A request is a call of malloc, calloc or realloc after the program was loaded. The GNU C library answers all other requests.
 */
#include <errno.h>
#include <stdlib.h>
#include <unistd.h>

void *__libc_malloc(size_t size);
void *__libc_calloc(size_t count, size_t size);
void *__libc_realloc(void *block, size_t size);

/* The number of requests up to and including the one to refuse, or 0 if none will be refused any more. */
static long left;

__attribute__((constructor)) static void start(void) {
    const char *number = getenv("REFUSED_REQUEST");
    left = number ? atol(number) : 0;
}

static int is_refused(void) {
    if (left == 0 || --left > 0) return 0;
    if (write(9, "", 1) != 1) abort();
    errno = ENOMEM;
    return 1;
}

void *malloc(size_t size) {
    return is_refused() ? NULL : __libc_malloc(size);
}

void *calloc(size_t count, size_t size) {
    return is_refused() ? NULL : __libc_calloc(count, size);
}

void *realloc(void *block, size_t size) {
    return is_refused() ? NULL : __libc_realloc(block, size);
}
