/* Counts the bytes that a whole program copies, for LD_PRELOAD: `cargo bench --bench controller` runs
 * display_pipe so.
 *
 * memcpy and memmove stand here in place of the C library's. At its end the program writes to standard error
 * how many bytes were given to them. Copies of a few dozen bytes, which the compiler makes by moves of its
 * own, are not seen. */
#include <stddef.h>
#include <stdint.h>
#include <stdio.h>

static size_t copied;

/* Byte by byte through volatile pointers, so that the compiler does not make a call of memcpy out of it. */
static void *copy(void *to, const void *from, size_t n) {
    volatile uint8_t *t = to;
    const volatile uint8_t *f = from;
    copied += n;
    if ((uintptr_t)to <= (uintptr_t)from) {
        for (size_t i = 0; i < n; i++) t[i] = f[i];
    } else {
        for (size_t i = n; i > 0; i--) t[i - 1] = f[i - 1];
    }
    return to;
}

void *memcpy(void *restrict to, const void *restrict from, size_t n) { return copy(to, from, n); }

void *memmove(void *to, const void *from, size_t n) { return copy(to, from, n); }

__attribute__((destructor)) static void write_count(void) {
    const size_t all = copied;
    fprintf(stderr, "%zu\n", all);
}
