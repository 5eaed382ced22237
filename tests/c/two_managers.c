/* Two managers in the memory that PIM_MEMORY says for both, from the static array or each in memory
 * of its own: neither changes the other, and the memory is there again once both are dropped.
 * Prints how many pairs there were, or what is wrong. */
#include "pim.h"
#ifdef GIVEN
#include "pim_heap_given.h"
#endif

#include <stdio.h>
#include <stdlib.h>

enum { PAIRS = 20 };

static unsigned pair;
#ifdef GIVEN
static _Alignas(16) unsigned char first_memory[PIM_MEMORY(3, 1)], second_memory[PIM_MEMORY(5, 4)];
#endif

static void must(int holds, const char *what) {
    if (holds) return;
    printf("pair %u: %s\n", pair, what);
    exit(1);
}

static uint32_t make_first(struct pim_handle *h) {
    static const uint16_t bases[] = { 10, 50, 90 };
    static const struct pim_protocol protocols[] = { { PIM_INHERIT, 0 } };
#ifdef GIVEN
    return pim_make_in(h, first_memory, sizeof first_memory, bases, 3, protocols, 1);
#else
    return pim_make(h, bases, 3, protocols, 1);
#endif
}

static uint32_t make_second(struct pim_handle *h) {
    static const uint16_t bases[] = { 20, 30, 40, 60, 70 };
    static const struct pim_protocol protocols[] = {
        { PIM_PROTECT, 80 }, { PIM_NONE, 0 }, { PIM_INHERIT, 0 }, { PIM_INHERIT_RECURSIVE, 0 }
    };
#ifdef GIVEN
    return pim_make_in(h, second_memory, sizeof second_memory, bases, 5, protocols, 4);
#else
    return pim_make(h, bases, 5, protocols, 4);
#endif
}

/* Task 1 owns mutex 1 and executes at 90, since task 3 waits for it. */
static void see_first(struct pim_handle *h, const char *what) {
    must(pim_task_count(h) == 3 && pim_mutex_count(h) == 1, what);
    must(pim_owner(h, 1) == 1 && pim_waits_for(h, 3) == 1 && pim_waits_for(h, 2) == 0, what);
    must(pim_effective_prio(h, 1) == 90 && pim_effective_prio(h, 2) == 50, what);
    must(pim_effective_prio(h, 3) == 90, what);
    must(pim_base_prio(h, 1) == 10 && pim_next_ticket(h) == 2, what);
}

/* Task 1 owns mutexes 1 and 3, and task 5 waits for the latter; so the ceiling of mutex 1 counts. */
static void see_second(struct pim_handle *h, const char *what) {
    must(pim_task_count(h) == 5 && pim_mutex_count(h) == 4, what);
    must(pim_owner(h, 1) == 1 && pim_owner(h, 2) == 0 && pim_owner(h, 3) == 1, what);
    must(pim_waits_for(h, 5) == 3 && pim_effective_prio(h, 5) == 70, what);
    must(pim_effective_prio(h, 1) == 80 && pim_effective_prio(h, 2) == 30, what);
}

static void step_second(struct pim_handle *h) {
    must(pim_lock(h, 1, 1).kind == PIM_GRANTED, "lock 1");
    must(pim_lock(h, 1, 3).kind == PIM_GRANTED, "lock 3");
    must(pim_lock(h, 5, 3).kind == PIM_QUEUED, "a wait for 3");
}

static void make_both(struct pim_handle *first, struct pim_handle *second) {
    must(make_first(first) == PIM_MADE, "the first isn't made");
    must(pim_lock(first, 1, 1).kind == PIM_GRANTED, "lock 1 of the first");
    must(pim_lock(first, 3, 1).kind == PIM_QUEUED, "a wait of the first");
    see_first(first, "the first before the second");
    must(make_second(second) == PIM_MADE, "the second isn't made");
    see_first(first, "the first, when the second was made");
}

static void step_both(struct pim_handle *first, struct pim_handle *second) {
    step_second(second);
    see_first(first, "the first, when the second had stepped");
    must(pim_lock(first, 2, 1).kind == PIM_QUEUED, "another wait of the first");
    must(pim_cancel(first, 2, 2).kind == PIM_WITHDRAWN, "its withdrawal");
    see_second(second, "the second, when the first had stepped");
}

/* Drops the first, or the second, and sees the other one. */
static void drop_one(struct pim_handle *first, struct pim_handle *second) {
    if (pair % 2) {
        pim_drop(second);
        must(pim_owner(first, 1) == 1, "the first, when the second was dropped");
        must(pim_unlock(first, 1, 1).number == 3, "an unlock, when the second was dropped");
    } else {
        pim_drop(first);
        see_second(second, "the second, when the first was dropped");
    }
}

#ifdef GIVEN
static int is_in(const void *at, const unsigned char *memory, size_t bytes) {
    return (uintptr_t)at >= (uintptr_t)memory && (uintptr_t)at < (uintptr_t)memory + bytes;
}
#endif

/* What pim_make_in returns of too little memory, and whose the memory is then; each manager is in
 * its own. */
static void see_memory(void) {
#ifdef GIVEN
    static const uint16_t bases[] = { 10, 50, 90 }, too_high[] = { 100 };
    static const struct pim_protocol no_mutexes[1];
    struct pim_handle h = PIM_HANDLE_INIT;
    must(pim_make_in(&h, first_memory, 16, bases, 3, no_mutexes, 0) == PIM_FAULT_NO_MEMORY, "in 16 bytes");
    must(pim_make_in(&h, NULL, 0, bases, 3, no_mutexes, 0) == PIM_FAULT_NO_MEMORY, "in no memory");
    must(pim_make_in(&h, first_memory, sizeof first_memory, too_high, 1, no_mutexes, 0) == PIM_FAULT_BAD_BASE, "a fault");
    must(pim_make(&h, bases, 3, no_mutexes, 0) == PIM_FAULT_NO_MEMORY, "in the memory of an earlier call");
    must(h.at == NULL, "a handle after faults");
    must(make_first(&h) == PIM_MADE && is_in(h.at, first_memory, sizeof first_memory), "the memory of the first");
    must(pim_make_in(&h, second_memory, sizeof second_memory, bases, 3, no_mutexes, 0) == PIM_FAULT_OCCUPIED, "two in a handle");
    pim_drop(&h);
#endif
}

int main(void) {
    see_memory();
    struct pim_handle first = PIM_HANDLE_INIT, second = PIM_HANDLE_INIT;
    for (pair = 1; pair <= PAIRS; pair++) {
        make_both(&first, &second);
        step_both(&first, &second);
        drop_one(&first, &second);
        pim_drop(&first);
        pim_drop(&second);
    }
    printf("%u pairs\n", pair - 1);
    return 0;
}
