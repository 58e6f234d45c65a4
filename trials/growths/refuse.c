/* Refuses one growth of memory. It stands between a program and the C library's malloc, calloc, realloc, posix_memalign
   and aligned_alloc. It counts the growths from one of COUNTED bytes up to one of UNCOUNTED, and again, or all of them
   where GROWTHS_FROM is `start`, and refuses the one whose number is in GROWTHS_REFUSED. When the program ends, its
   standard error gets a line: how many were counted, how many refused, and how often counting began. */
#include <errno.h>
#include <stddef.h>
#include <stdio.h>
#include <stdlib.h>
#include <string.h>
#include <unistd.h>

enum { COUNTED = 1000003, UNCOUNTED = 1000033 };

void *__libc_malloc(size_t);
void *__libc_calloc(size_t, size_t);
void *__libc_realloc(void *, size_t);
void *__libc_memalign(size_t, size_t);

static int counts;
static long number, counted, refused, begun;

__attribute__((constructor)) static void begin(void) {
    const char *from = getenv("GROWTHS_FROM"), *wanted = getenv("GROWTHS_REFUSED");
    counts = from && strcmp(from, "start") == 0;
    number = wanted ? atol(wanted) : 0;
}

__attribute__((destructor)) static void end(void) {
    char line[100];
    int length = snprintf(line, sizeof line, "growths %ld refused %ld begun %ld\n", counted, refused, begun);
    if (write(2, line, (size_t)length) != length) _exit(103);
}

/* whether a growth of so many bytes is refused */
static int refuses(size_t size) {
    if (size == COUNTED || size == UNCOUNTED) {
        counts = size == COUNTED;
        begun += counts;
        return 0;
    }
    if (!counts || ++counted != number) return 0;
    refused++;
    errno = ENOMEM;
    return 1;
}

void *malloc(size_t size) {
    return refuses(size) ? NULL : __libc_malloc(size);
}

void *calloc(size_t items, size_t size) {
    return refuses(items * size) ? NULL : __libc_calloc(items, size);
}

void *realloc(void *old, size_t size) {
    return refuses(size) ? NULL : __libc_realloc(old, size);
}

int posix_memalign(void **made, size_t align, size_t size) {
    if (refuses(size)) return ENOMEM;
    *made = __libc_memalign(align, size);
    return *made ? 0 : ENOMEM;
}

void *aligned_alloc(size_t align, size_t size) {
    return refuses(size) ? NULL : __libc_memalign(align, size);
}
