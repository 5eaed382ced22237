/* The memory of the module: three functions for the proved code, as c/pim_heap.h says, and two for
 * the page. The free blocks are a ring in the order of their addresses. Neighbours are joined. A
 * request takes the first free block that is large enough, or a part of it, and else the memory
 * grows. */
#include "pim_heap.h"

struct head {
    struct head *next; /* the next free block; unused in a taken one */
    size_t size;       /* of the block with its head, in heads */
};

enum { PAGE = 65536 };

extern unsigned char __heap_base;
static struct head ring; /* a block without memory, where the ring begins */
static struct head *last;
static unsigned char none[16];

/* Returns the free block below this one, or the end of the ring if there is none. */
static struct head *below(struct head *it) {
    struct head *p = last;
    while (!(it > p && it < p->next) && !(p >= p->next && (it > p || it < p->next))) {
        p = p->next;
    }
    return p;
}

static void put_back(struct head *it) {
    struct head *p = below(it);
    if (it + it->size == p->next && p->next != &ring) {
        it->size += p->next->size;
        it->next = p->next->next;
    } else {
        it->next = p->next;
    }
    if (p + p->size == it && p != &ring) {
        p->size += it->size;
        p->next = it->next;
    } else {
        p->next = it;
    }
    last = p;
}

/* Makes the memory this many heads longer, and returns whether it could. */
static int grow(size_t size) {
    size_t pages = (size * sizeof(struct head) + PAGE - 1) / PAGE;
    size_t from = __builtin_wasm_memory_grow(0, pages);
    if (from == (size_t)-1) return 0;
    struct head *it = (struct head *)(from * PAGE);
    it->size = pages * (PAGE / sizeof(struct head));
    put_back(it);
    return 1;
}

/* Makes a ring of the rest of the pages that the memory begins with. */
static void begin(void) {
    struct head *it = (struct head *)(((uintptr_t)&__heap_base + 15) & ~(uintptr_t)15);
    struct head *end = (struct head *)(__builtin_wasm_memory_size(0) * PAGE);
    ring.next = last = &ring;
    if (it + 1 >= end) return;
    it->size = (size_t)(end - it);
    put_back(it);
}

/* Takes this many heads from the end of the block behind `before`, which is large enough. */
static struct head *cut(struct head *before, size_t size) {
    struct head *p = before->next;
    if (p->size == size) {
        before->next = p->next;
    } else {
        p->size -= size;
        p += p->size;
        p->size = size;
    }
    last = before;
    return p;
}

/* Returns a block of n bytes, or null. */
static void *take(size_t n) {
    if (n > (size_t)1 << 40) return 0;
    size_t size = (n + sizeof(struct head) - 1) / sizeof(struct head) + 1;
    if (!last) begin();
    struct head *before = last;
    for (;;) {
        struct head *p = before->next;
        if (p != &ring && p->size >= size) return cut(before, size) + 1;
        before = p;
        if (p == last) {
            if (!grow(size)) return 0;
            before = last;
        }
    }
}

static struct pim_block block(void *p) {
    struct pim_block b = { p != 0, p ? p : none };
    return b;
}

struct pim_block rattle_alloc(size_t n, size_t a) {
    (void)a; /* each block is aligned to 16 */
    return block(take(n));
}

struct pim_block rattle_realloc(void *p, size_t kept, size_t n, size_t a) {
    (void)a;
    if (n <= (((struct head *)p)[-1].size - 1) * sizeof(struct head)) return block(p);
    void *to = take(n);
    if (!to) return block(0);
    __builtin_memcpy(to, p, kept < n ? kept : n);
    rattle_dealloc(p);
    return block(to);
}

void rattle_dealloc(void *p) {
    put_back((struct head *)p - 1);
}

/* Returns n bytes for the page, aligned to 16, or null. */
void *pim_room(size_t n) {
    return take(n);
}

/* Takes them back. */
void pim_room_back(void *p) {
    rattle_dealloc(p);
}
