/* The memory of libpim is the C library's. */
#include "pim_heap.h"

#include <stdlib.h>

static unsigned char none[16];

static struct pim_block block(void *p) {
    struct pim_block b = { p != NULL, p != NULL ? p : none };
    return b;
}

/* malloc may answer 0 bytes by a null pointer, which wouldn't be a failure. */
static size_t at_least_one(size_t n) {
    return n != 0 ? n : 1;
}

struct pim_block rattle_alloc(size_t n, size_t a) {
    (void)a; /* malloc aligns to 16, as libpim asks at most */
    return block(malloc(at_least_one(n)));
}

struct pim_block rattle_realloc(void *p, size_t kept, size_t n, size_t a) {
    (void)kept;
    (void)a;
    return block(realloc(p, at_least_one(n)));
}

void rattle_dealloc(void *p) {
    free(p);
}
