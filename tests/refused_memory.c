/* Preloaded, it makes one allocation of a program fail: the one with the number in REFUSED_REQUEST, counted from 1. */
#include <errno.h>
#include <stddef.h>
#include <stdlib.h>

void *__libc_malloc(size_t size);
void *__libc_realloc(void *old, size_t size);

static int is_refused(void) {
    static long left = -1;
    if (left < 0) {
        const char *number = getenv("REFUSED_REQUEST");
        left = number ? atol(number) : 0;
    }
    if (left == 0 || --left > 0)
        return 0;
    errno = ENOMEM;
    return 1;
}

void *malloc(size_t size) { return is_refused() ? NULL : __libc_malloc(size); }

void *realloc(void *old, size_t size) { return is_refused() ? NULL : __libc_realloc(old, size); }
