/* What the compiler and libpim call of a C library. */
#ifndef MEMORY_H
#define MEMORY_H

#include <stddef.h>

void *memmove(void *to, const void *from, size_t n);
void *memcpy(void *to, const void *from, size_t n);
void *memset(void *to, int c, size_t n);

#endif
