/* Each manager is in memory of the program:
 *
 *     static _Alignas(16) unsigned char memory[PIM_MEMORY(16, 8)];
 *
 *     pim_make_in(&locks, memory, sizeof memory, bases, 16, protocols, 8);
 *     ..
 *     pim_drop(&locks);            // from here on the memory is the program's again
 *
 * Blocks are taken from the front of the memory, in whole units of 16 aligned bytes, one at least,
 * and none is used twice: it comes back as a whole. The block that was taken last grows in its
 * place. Nothing is kept from one manager to the next but where the memory ends that was handed
 * over last.
 */
#include "pim_heap.h"
#include "pim_heap_given.h"

static unsigned char *rest; /* what isn't taken yet: left bytes from here on */
static size_t left;
static unsigned char *last; /* the block that was taken last */
static unsigned char none[16];

void pim_heap_give(void *memory, size_t bytes) {
    rest = memory;
    left = bytes;
    last = NULL;
}

uint32_t pim_make_in(struct pim_handle *h, void *memory, size_t bytes, const uint16_t *bases,
                     uint64_t tasks, const struct pim_protocol *protocols, uint64_t mutexes) {
    pim_heap_give(memory, bytes);
    uint32_t fault = pim_make(h, bases, tasks, protocols, mutexes);
    pim_heap_give(NULL, 0);
    return fault;
}

struct pim_block rattle_alloc(size_t n, size_t a) {
    struct pim_block b = { 0, none };
    size_t skip = (size_t)(-(uintptr_t)rest & 15);
    size_t room = n == 0 ? 16 : (n + 15) & ~(size_t)15;
    (void)a;
    if (rest == NULL || n > left || skip > left || room > left - skip) return b;
    b.ok = 1;
    b.p = last = rest + skip;
    rest += skip + room;
    left -= skip + room;
    return b;
}

/* Takes the last block again, with n bytes. */
static struct pim_block grown(size_t n, size_t a) {
    unsigned char *end = rest;
    size_t behind = left;
    left += (size_t)(rest - last);
    rest = last;
    struct pim_block b = rattle_alloc(n, a);
    if (b.ok) return b;
    rest = end;
    left = behind;
    return b;
}

struct pim_block rattle_realloc(void *p, size_t kept, size_t n, size_t a) {
    if (p == last) return grown(n, a);
    struct pim_block b = rattle_alloc(n, a);
    const unsigned char *from = p;
    unsigned char *to = b.p;
    if (!b.ok) return b;
    for (size_t i = 0; i < kept && i < n; i++) to[i] = from[i];
    return b;
}

void rattle_dealloc(void *p) {
    (void)p;
}
