/* Calls each function that takes a const handle, on a handle and a manager in memory that can only
 * be read: a write to them ends the program. Prints how many functions there are, or what is wrong.
 */
#define _DEFAULT_SOURCE
#include "pim.h"
#include "pim_heap_given.h"

#include <stdio.h>
#include <stdlib.h>
#include <sys/mman.h>

enum { TASKS = 3, MUTEXES = 2, FUNCTIONS = 12 };

struct pages {
    struct pim_handle handle;
    _Alignas(16) unsigned char manager[PIM_MEMORY(TASKS, MUTEXES)];
};

static void must(int holds, const char *what) {
    if (holds) return;
    printf("%s\n", what);
    exit(1);
}

/* Task 1 owns both mutexes, and executes at 90, since task 3 waits for mutex 1. */
static void make(struct pages *pages) {
    static const uint16_t bases[] = { 10, 50, 90 };
    static const struct pim_protocol protocols[] = { { PIM_INHERIT, 0 }, { PIM_PROTECT, 60 } };
    struct pim_handle *h = &pages->handle;
    pim_heap_give(pages->manager, sizeof pages->manager);
    must(pim_make(h, bases, TASKS, protocols, MUTEXES) == PIM_MADE, "no manager is made");
    must(pim_lock(h, 1, 1).kind == PIM_GRANTED, "lock 1");
    must(pim_lock(h, 1, 2).kind == PIM_GRANTED, "lock 2");
    must(pim_lock(h, 3, 1).kind == PIM_QUEUED, "a wait for 1");
}

static void see_numbers(const struct pim_handle *h) {
    must(pim_task_count(h) == TASKS, "pim_task_count");
    must(pim_mutex_count(h) == MUTEXES, "pim_mutex_count");
    must(pim_next_ticket(h) == 2, "pim_next_ticket");
    must(pim_effective_prio(h, 1) == 90, "pim_effective_prio");
    must(pim_base_prio(h, 1) == 10, "pim_base_prio");
    must(pim_waits_for(h, 3) == 1, "pim_waits_for");
    must(pim_owner(h, 1) == 1, "pim_owner");
    must(pim_lock_count(h, 1) == 1, "pim_lock_count");
}

static void see_structs(const struct pim_handle *h) {
    struct pim_reason reason = pim_task_reason(h, 1);
    struct pim_waiter waiter;
    struct pim_changed_task changed;
    struct pim_changed_prio prio;
    struct pim_handed handed;
    must(reason.kind == PIM_OF_WAITER && reason.task == 3 && reason.mutex == 1, "pim_task_reason");
    must(pim_mutex_protocol(h, 2).ceiling == 60, "pim_mutex_protocol");
    must(pim_waiters(h, 1, &waiter, 1) == 1 && waiter.task == 3 && waiter.ticket == 1, "pim_waiters");
    must(pim_changed(h, &changed, 1) == 1 && changed.task == 1 && changed.prio == 90, "pim_changed");
    must(pim_changed_prios(h, &prio, 1) == 1 && prio.task == 1 && prio.prio == 90, "pim_changed_prios");
    must(pim_handed(h, &handed, 1) == 0, "pim_handed");
}

static void see_no_manager(const struct pim_handle *h) {
    struct pim_waiter waiter;
    struct pim_changed_task changed;
    struct pim_changed_prio prio;
    struct pim_handed handed;
    must(pim_task_count(h) == 0 && pim_mutex_count(h) == 0 && pim_next_ticket(h) == 0, "counts of none");
    must(pim_effective_prio(h, 1) == 0 && pim_base_prio(h, 1) == 0, "priorities of none");
    must(pim_waits_for(h, 1) == PIM_UNKNOWN && pim_owner(h, 1) == PIM_UNKNOWN, "a wait and an owner of none");
    must(pim_lock_count(h, 1) == PIM_UNKNOWN && pim_mutex_protocol(h, 1).kind == PIM_UNKNOWN, "a mutex of none");
    must(pim_task_reason(h, 1).kind == PIM_OF_NOTHING, "a reason of none");
    must(pim_waiters(h, 1, &waiter, 1) == 0 && pim_changed(h, &changed, 1) == 0, "lists of none");
    must(pim_changed_prios(h, &prio, 1) == 0, "priorities of none");
    must(pim_handed(h, &handed, 1) == 0, "handed mutexes of none");
}

int main(void) {
    static const struct pim_handle none = PIM_HANDLE_INIT;
    struct pages *pages = mmap(NULL, sizeof *pages, PROT_READ | PROT_WRITE, MAP_PRIVATE | MAP_ANONYMOUS, -1, 0);
    must(pages != MAP_FAILED, "no pages");
    make(pages);
    must(mprotect(pages, sizeof *pages, PROT_READ) == 0, "the pages stay writable");
    see_numbers(&pages->handle);
    see_structs(&pages->handle);
    see_no_manager(&none);
    printf("%d functions\n", FUNCTIONS);
    return 0;
}
