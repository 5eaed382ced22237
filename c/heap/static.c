/* The memory of libpim is one static array: no C library, no loop, no lock.
 *
 * Blocks are taken from its front, in whole units of 16 bytes, one at least. The block that was
 * taken last grows in its place. The array is empty again once all are given back. That suits
 * managers that are made at the start.
 * -DPIM_HEAP_BYTES=n sets its size: the sum of PIM_MEMORY(tasks, mutexes) of the managers that
 * exist at the same time. */
#include "pim_heap.h"

#ifndef PIM_HEAP_BYTES
#define PIM_HEAP_BYTES 65536u
#endif

static _Alignas(16) unsigned char heap[PIM_HEAP_BYTES];
static size_t used;   /* a multiple of 16 */
static size_t blocks; /* taken, and not given back */
static size_t last;   /* where the block begins that was taken last */

static size_t rounded(size_t n) {
    return n == 0 ? 16 : (n + 15) & ~(size_t)15;
}

struct pim_block rattle_alloc(size_t n, size_t a) {
    struct pim_block b = { 0, heap };
    (void)a; /* each block is aligned to 16 */
    if (n > sizeof heap || rounded(n) > sizeof heap - used) return b;
    b.ok = 1;
    b.p = heap + used;
    last = used;
    used += rounded(n);
    blocks += 1;
    return b;
}

/* Takes the last block again, with n bytes. */
static struct pim_block grown(size_t n, size_t a) {
    size_t end = used;
    used = last;
    struct pim_block b = rattle_alloc(n, a);
    if (b.ok) blocks -= 1;
    else used = end;
    return b;
}

struct pim_block rattle_realloc(void *p, size_t kept, size_t n, size_t a) {
    if (p == heap + last) return grown(n, a);
    struct pim_block b = rattle_alloc(n, a);
    const unsigned char *from = p;
    unsigned char *to = b.p;
    if (!b.ok) return b;
    for (size_t i = 0; i < kept && i < n; i++) to[i] = from[i];
    rattle_dealloc(p);
    return b;
}

void rattle_dealloc(void *p) {
    (void)p;
    blocks -= 1;
    if (blocks == 0) used = 0;
}
