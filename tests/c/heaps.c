/* The three functions of a file of c/heap, under AddressSanitizer: -DSTATIC, -DGIVEN or -DMALLOC
 * says which, and -DPIM_HEAP_BYTES the size of the static one. The model is a table of the blocks
 * that are taken. Each block is aligned, lies in the memory, overlaps no other one and keeps its
 * bytes; and a block is refused exactly where the model has no room for it.
 *
 * Sweeps each size and alignment, then all short sequences of calls, then long ones at random.
 * Prints how many calls there were, or the first that is wrong. */
#include "pim_heap.h"
#ifdef GIVEN
#include "pim_heap_given.h"
#endif

#include <stdio.h>
#include <stdlib.h>
#include <string.h>

#ifndef PIM_HEAP_BYTES
#define PIM_HEAP_BYTES 160
#endif
enum { UNIT = 16, SLOTS = 6, MOST = 224, LENGTH = 4 };

struct slot {
    unsigned char *at;
    size_t bytes;
    unsigned char seed;
};

static struct slot slots[SLOTS];
static int taken;        /* slots */
static size_t units;     /* that are used: of the model's room */
static size_t room;      /* in units */
static unsigned char *last; /* taken last, which grows in its place; malloc.c has none */
static unsigned long calls;
static unsigned char next_seed = 1;

static void must(int holds, const char *what) {
    if (holds) return;
    printf("call %lu: %s\n", calls, what);
    exit(1);
}

/* ---- what differs between the files ---------------------------------------------------------- */

static size_t units_of(size_t bytes) {
    return bytes == 0 ? 1 : bytes / UNIT + (bytes % UNIT != 0);
}

#ifdef MALLOC
static int refuses, outstanding;

void *__real_malloc(size_t bytes);
void *__real_realloc(void *at, size_t bytes);
void __real_free(void *at);

/* As C allows: nothing for 0 bytes. */
void *__wrap_malloc(size_t bytes) {
    if (refuses || bytes == 0 || bytes > 1u << 20) return NULL;
    outstanding++;
    return __real_malloc(bytes);
}

void *__wrap_realloc(void *at, size_t bytes) {
    if (refuses || bytes == 0 || bytes > 1u << 20) return NULL;
    return __real_realloc(at, bytes);
}

void __wrap_free(void *at) {
    must(at != NULL, "null is freed");
    outstanding--;
    __real_free(at);
}

static int fits(size_t bytes) {
    return !refuses && bytes <= 1u << 20;
}

static void begin(void) {
    refuses = 0;
}

static void check_memory(void) {
    must(outstanding == taken, "as many blocks are outstanding as are taken");
}

static void emptied(void) {
}

static void took(unsigned char *at) {
    (void)at;
}
#else
static int fits(size_t bytes) {
    return units_of(bytes) <= room - units;
}

static void took(unsigned char *at) {
    last = at;
}

static void check_memory(void) {
}
#endif

#ifdef STATIC
static void begin(void) {
    room = PIM_HEAP_BYTES / UNIT;
}

static void emptied(void) {
    units = 0;
}
#endif

#ifdef GIVEN
static unsigned char *memory;
static size_t size = PIM_HEAP_BYTES, offset;

/* The memory that is handed over begins `offset` bytes behind an aligned address. */
static void begin(void) {
    if (memory != NULL) free(memory - offset % UNIT);
    offset++;
    size = (size * 7 + 13) % (2 * PIM_HEAP_BYTES);
    size_t skip = (UNIT - offset % UNIT) % UNIT;
    unsigned char *block = malloc(offset % UNIT + size);
    memory = block + offset % UNIT;
    pim_heap_give(memory, size);
    room = size < skip ? 0 : (size - skip) / UNIT;
    units = 0;
}

static void emptied(void) {
}
#endif

/* ---- the calls, with their checks ------------------------------------------------------------ */

static void fill(struct slot *slot) {
    slot->seed = next_seed++;
    for (size_t i = 0; i < slot->bytes; i++) slot->at[i] = (unsigned char)(slot->seed + 3 * i);
}

static int holds(const struct slot *slot, size_t bytes) {
    for (size_t i = 0; i < bytes; i++)
        if (slot->at[i] != (unsigned char)(slot->seed + 3 * i)) return 0;
    return 1;
}

static int overlap(const struct slot *a, const struct slot *b) {
    return a->at + a->bytes > b->at && b->at + b->bytes > a->at;
}

static void check_all(void) {
    for (int s = 0; s < taken; s++) {
        must(holds(&slots[s], slots[s].bytes), "the bytes of another block changed");
        for (int t = 0; t < s; t++) must(!overlap(&slots[s], &slots[t]), "two blocks overlap");
    }
    check_memory();
}

static void check_block(struct pim_block block, size_t align, int is_there) {
    must(block.ok == 1 || !is_there, "a block that fits is refused");
    must(block.ok == 0 || is_there, "a block that doesn't fit is given");
    must(block.p != NULL, "null");
    must(!is_there || (uintptr_t)block.p % UNIT == 0, "a block isn't aligned to 16");
    must(!is_there || (uintptr_t)block.p % align == 0, "a block isn't aligned");
#ifdef GIVEN
    must(!is_there || (unsigned char *)block.p >= memory, "a block begins before the memory");
#endif
}

static void take(size_t bytes, size_t align) {
    if (taken == SLOTS) return;
    calls++;
    int is_there = fits(bytes);
    struct pim_block block = rattle_alloc(bytes, align);
    check_block(block, align, is_there);
    if (is_there) {
        units += units_of(bytes);
        took(block.p);
        slots[taken++] = (struct slot){ block.p, bytes, 0 };
        fill(&slots[taken - 1]);
    }
    check_all();
}

static void resize(int s, size_t kept, size_t bytes, size_t align) {
    if (s >= taken) return;
    calls++;
    struct slot was = slots[s];
    size_t own = was.at == last ? units_of(was.bytes) : 0;
    units -= own;
    int is_there = fits(bytes);
    if (kept > was.bytes) kept = was.bytes;
    struct pim_block block = rattle_realloc(was.at, kept, bytes, align);
    check_block(block, align, is_there);
    if (is_there) {
        must(own == 0 || block.p == was.at, "the block that was taken last moved");
        took(block.p);
        slots[s] = (struct slot){ block.p, bytes, was.seed };
        must(holds(&slots[s], kept < bytes ? kept : bytes), "a block lost bytes as it was resized");
        units += units_of(bytes);
        fill(&slots[s]);
    } else {
        units += own;
    }
    check_all();
}

static void give_back(int s) {
    if (s >= taken) return;
    calls++;
    rattle_dealloc(slots[s].at);
    slots[s] = slots[--taken];
    if (taken == 0) emptied();
    check_all();
}

static void restart(void) {
    while (taken > 0) give_back(taken - 1);
    begin();
}

/* ---- which calls ----------------------------------------------------------------------------- */

static const size_t SIZES[] = { 0, 1, 15, 16, 17, 33, 48 }, NEW_SIZES[] = { 0, 8, 17, 48 };
enum { ALLOCS = 7, RESIZES = 4, PER_SLOT = 1 + RESIZES, KINDS = ALLOCS + 3 * PER_SLOT };

static void call(unsigned kind) {
    size_t align = (size_t)1 << kind % 5;
    if (kind < ALLOCS) {
        take(SIZES[kind], align);
        return;
    }
    unsigned slot = (kind - ALLOCS) / PER_SLOT, what = (kind - ALLOCS) % PER_SLOT;
    if (what == 0) give_back((int)slot);
    else resize((int)slot, (size_t)-1, NEW_SIZES[what - 1], align);
}

static void every_size(void) {
    static const size_t large[] = { SIZE_MAX, SIZE_MAX - 14, SIZE_MAX - 15, SIZE_MAX - 16, SIZE_MAX / 2, SIZE_MAX / 2 + 1 };
    for (size_t bytes = 0; bytes <= MOST; bytes++)
        for (size_t align = 1; align <= UNIT; align *= 2) {
            restart();
            take(bytes, align);
            take(room * UNIT - bytes, align);
            resize(0, (size_t)-1, MOST - bytes, align);
            resize(0, bytes / 2, bytes + 1, align);
            for (int k = 0; k < 6; k++) take(large[k], align), resize(0, 1, large[k], align);
            take(0, align);
            take(1, align);
        }
}

static void every_sequence(void) {
    unsigned long sequences = 1;
    for (int i = 0; i < LENGTH; i++) sequences *= KINDS;
    for (unsigned long sequence = 0; sequence < sequences; sequence++) {
        unsigned long rest = sequence;
        restart();
        for (int i = 0; i < LENGTH; i++, rest /= KINDS) call((unsigned)(rest % KINDS));
    }
}

static void at_random(void) {
    srand(1);
    for (int i = 0; i < 100000; i++) {
        size_t align = (size_t)1 << rand() % 5, bytes = (size_t)(rand() % 70);
        int s = rand() % SLOTS, what = rand() % 8;
        if (what < 3) take(bytes, align);
        else if (what < 5) resize(s, (size_t)(rand() % 70), bytes, align);
        else if (what < 7) give_back(s);
        else if (rand() % 8 == 0) restart();
    }
}

/* malloc's refusal is that of the block; and no memory was handed over yet, or null was. */
static void where_it_is_refused(void) {
#ifdef MALLOC
    refuses = 1;
    take(16, 16);
    refuses = 0;
    take(16, 16);
    refuses = 1;
    resize(0, 16, 32, 16);
    take(1, 1);
#endif
#ifdef GIVEN
    take(0, 1);
    take(16, 16);
    pim_heap_give(NULL, 64);
    take(0, 1);
    take(16, 16);
#endif
}

int main(void) {
    where_it_is_refused();
    every_size();
    every_sequence();
    at_random();
    restart();
#ifdef GIVEN
    free(memory - offset % UNIT);
#endif
    printf("%lu calls\n", calls);
    return 0;
}
