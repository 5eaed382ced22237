/* A heap whose block of each number is refused in turn, under AddressSanitizer: pim_make is then
 * out of memory and keeps nothing, or does with a smaller block; a manager that was made gives all
 * back; and no step calls the heap. Prints how many refusals there were, or what is wrong. */
#include "pim.h"
#include "pim_heap.h"

#include <stdio.h>
#include <stdlib.h>

enum { TASKS = 9, MUTEXES = 6, TURNS = 5000 };

static unsigned long calls, refused, outstanding;
static unsigned char none[16];

static struct pim_block block(void *p) {
    struct pim_block b = { p != NULL, p != NULL ? p : none };
    return b;
}

struct pim_block rattle_alloc(size_t n, size_t a) {
    (void)a;
    if (++calls == refused) return block(NULL);
    outstanding++;
    return block(malloc(n != 0 ? n : 1));
}

struct pim_block rattle_realloc(void *p, size_t kept, size_t n, size_t a) {
    (void)kept;
    (void)a;
    return ++calls == refused ? block(NULL) : block(realloc(p, n != 0 ? n : 1));
}

void rattle_dealloc(void *p) {
    outstanding--;
    free(p);
}

static void must(int holds, const char *what) {
    if (holds) return;
    printf("block %lu: %s\n", refused, what);
    exit(1);
}

static uint32_t make(struct pim_handle *h) {
    uint16_t bases[TASKS];
    struct pim_protocol protocols[MUTEXES];
    for (int t = 0; t < TASKS; t++) bases[t] = (uint16_t)(10 * t + 5);
    for (int m = 0; m < MUTEXES; m++) protocols[m] = (struct pim_protocol){ (uint16_t)(m % 4), 90 };
    return pim_make(h, bases, TASKS, protocols, MUTEXES);
}

/* Steps of all kinds, also with numbers that name nothing, and every list into less room than it
 * needs. */
static void step_at_random(struct pim_handle *h) {
    struct pim_changed_task *changed = malloc(2 * sizeof *changed);
    struct pim_waiter *waiters = malloc(2 * sizeof *waiters);
    for (int i = 0; i < TURNS; i++) {
        uint16_t task = (uint16_t)(rand() % (TASKS + 2)), other = (uint16_t)(rand() % (TASKS + 2)), mutex = (uint16_t)(rand() % (MUTEXES + 2));
        switch (rand() % 9) {
        case 0: pim_try(h, task, mutex); break;
        case 1: case 2: pim_unlock(h, task, mutex); break;
        case 3: pim_release_all(h, task); break;
        case 4: pim_cancel(h, task, other); break;
        case 5: pim_set_base(h, task, other, (uint16_t)(rand() % 101)); break;
        case 6: pim_set_ceiling(h, task, mutex, (uint16_t)(rand() % 101)); break;
        default: pim_lock(h, task, mutex);
        }
        pim_changed(h, changed, (size_t)(rand() % 3));
        pim_waiters(h, mutex, waiters, (size_t)(rand() % 3));
    }
    free(changed);
    free(waiters);
}

static void see_nothing_was_made(struct pim_handle *h, uint32_t made) {
    must(made == PIM_FAULT_NO_MEMORY, "another fault than PIM_FAULT_NO_MEMORY");
    must(h->at == NULL, "the handle leads somewhere");
    must(outstanding == 0, "memory is kept");
    must(pim_lock(h, 1, 1).kind == PIM_NO_MANAGER, "there is a manager");
    must(pim_task_count(h) == 0 && pim_mutex_count(h) == 0 && pim_next_ticket(h) == 0, "counts without a manager");
    must(pim_owner(h, 1) == PIM_UNKNOWN && pim_waits_for(h, 1) == PIM_UNKNOWN && pim_effective_prio(h, 1) == 0, "a known task");
    must(pim_mutex_protocol(h, 1).kind == PIM_UNKNOWN && pim_mutex_protocol(h, 1).ceiling == 0, "a known protocol");
}

static void see_steps_take_no_memory(struct pim_handle *h) {
    unsigned long before = calls;
    step_at_random(h);
    must(calls == before, "a step took memory");
    must(make(h) == PIM_FAULT_OCCUPIED && calls == before, "a second manager");
}

int main(void) {
    struct pim_handle h = PIM_HANDLE_INIT;
    unsigned long out_of_memory = 0;
    do {
        calls = 0;
        refused++;
        uint32_t made = make(&h);
        if (made == PIM_MADE) see_steps_take_no_memory(&h);
        else see_nothing_was_made(&h, made);
        out_of_memory += made != PIM_MADE;
        pim_drop(&h);
        must(h.at == NULL && outstanding == 0, "pim_drop keeps memory");
    } while (refused <= calls);
    printf("%lu refused, %lu times out of memory\n", refused - 1, out_of_memory);
    return out_of_memory == 0;
}
