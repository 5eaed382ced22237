/* pim_heap.h - the memory that libpim takes: three functions that the program supplies.
 *
 * One of these files stands in a program, or three functions of the program's own that keep what is
 * said here:
 *
 *   heap/malloc.c   the C library's malloc, realloc and free
 *   heap/static.c   one static array, for a program without a C library
 *   heap/given.c    for each manager memory of its own, an argument of pim_make_in, of
 *                   pim_heap_given.h
 *
 * Only pim_make calls rattle_alloc and rattle_realloc; only pim_drop, and a pim_make that fails or
 * has made its manager, call rattle_dealloc. They are called by the thread that calls pim_make and
 * pim_drop, and need no lock of their own unless two threads make or drop managers at once.
 *
 * To write another: return a block that is aligned to 16 and overlaps no other one, and never null.
 * That's all: libpim reads no block before it has written it, and gives each back once, to the same
 * functions. */
#ifndef PIM_HEAP_H
#define PIM_HEAP_H

#include <stddef.h>
#include <stdint.h>

#ifdef __cplusplus
extern "C" {
#endif

/* A block of memory, if there is one. */
struct pim_block {
    uint64_t ok; /* 1 where there is one, else 0 */
    void *p;     /* its address, or where there is none any address but null */
};

/* Returns a block of n bytes, aligned to a, which is 1, 2, 4, 8 or 16. Where n is 0, any address
 * that rattle_dealloc takes. */
struct pim_block rattle_alloc(size_t n, size_t a);

/* Makes the block at p n bytes long, and keeps its first `kept` bytes; it may move. Where that
 * fails, the block at p is as it was. */
struct pim_block rattle_realloc(void *p, size_t kept, size_t n, size_t a);

/* Gives back a block that one of the two returned. */
void rattle_dealloc(void *p);

#ifdef __cplusplus
}
#endif
#endif
