#include "memory.h"

#include <stdint.h>

static void move_words(uint64_t *to, const uint64_t *from, size_t count) {
    if (to < from)
        for (size_t i = 0; i < count; i++) to[i] = from[i];
    else
        for (size_t i = count; i > 0; i--) to[i - 1] = from[i - 1];
}

static void move_bytes(unsigned char *to, const unsigned char *from, size_t count) {
    if (to < from)
        for (size_t i = 0; i < count; i++) to[i] = from[i];
    else
        for (size_t i = count; i > 0; i--) to[i - 1] = from[i - 1];
}

/* Moves words where it can: libpim moves the waiters of a queue, which have 16 bytes each. */
void *memmove(void *to, const void *from, size_t n) {
    if ((((uintptr_t)to | (uintptr_t)from | n) & 7) == 0) move_words(to, from, n / 8);
    else move_bytes(to, from, n);
    return to;
}

void *memcpy(void *to, const void *from, size_t n) {
    return memmove(to, from, n);
}

void *memset(void *to, int c, size_t n) {
    unsigned char *d = to;
    for (size_t i = 0; i < n; i++) d[i] = (unsigned char)c;
    return to;
}
