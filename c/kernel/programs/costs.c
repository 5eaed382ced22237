/* What a lock and an unlock cost, in instructions: by the cycle counter, in qemu with -icount
 * shift=0. */
#include "finishing.h"
#include "mutexes.h"

enum { LOW = 1, HIGH = 2, LOW_BASE = 10, HIGH_BASE = 90, MOST = MAX_THREADS };

static uint64_t overhead; /* instructions between two reads of the counter */

#define COST_OF(what) \
    ({ uint64_t from = cycles_now(); what; cycles_now() - from - overhead; })

static void print_row(const char *name, uint64_t lock, uint64_t unlock) {
    print("%-52s %8llu %8llu %8llu\n", name, (unsigned long long)lock, (unsigned long long)unlock,
          (unsigned long long)(lock + unlock));
}

/* ---- without contention ---- */

static void measure_alone(void *name) {
    uint64_t lock = 0, unlock = 0;
    for (int again = 0; again < 3; again++) {
        lock = COST_OF(mutex_lock(1));
        unlock = COST_OF(mutex_unlock(1));
    }
    print_row(name, lock, unlock);
    one_has_finished();
}

static void ask_for_mutex(void *unused) {
    (void)unused;
    mutex_trylock(1);
    one_has_finished();
}

/* Measures a mutex that libpim knew, since another thread had asked for it, and that was freed. */
static void measure_again(const char *name, int (*free_mutex)(void)) {
    mutex_lock(1);
    thread_start(HIGH, HIGH_BASE, ask_for_mutex, NULL);
    free_mutex();
    uint64_t lock = COST_OF(mutex_lock(1));
    print_row(name, lock, COST_OF(mutex_unlock(1)));
    one_has_finished();
}

static int unlock_mutex(void) {
    return mutex_unlock(1);
}

static void measure_after_unlock(void *name) {
    measure_again(name, unlock_mutex);
}

static void measure_after_release(void *name) {
    measure_again(name, mutex_unlock_all);
}

static void measure_libpim(void *unused) {
    struct pim_handle *locks = mutexes_manager();
    struct pim_changed_prio changed[1];
    (void)unused;
    kernel_enter();
    uint64_t lock = COST_OF(pim_lock(locks, LOW, 1));
    uint64_t lock_list = COST_OF(pim_changed_prios(locks, changed, 1));
    uint64_t unlock = COST_OF(pim_unlock(locks, LOW, 1));
    uint64_t unlock_list = COST_OF(pim_changed_prios(locks, changed, 1));
    kernel_leave();
    print_row("pim_lock and pim_unlock alone, INHERIT", lock, unlock);
    print_row("pim_changed_prios after each, which lists none", lock_list, unlock_list);
    one_has_finished();
}

/* ---- with contention ---- */

static uint64_t asked_at, blocked_at, unlocked_at, continued_at;

static void wait_for_mutex(void *unused) {
    (void)unused;
    asked_at = cycles_now();
    mutex_lock(1);
    continued_at = cycles_now();
    mutex_unlock(1);
    one_has_finished();
}

static void measure_contended(void *name) {
    mutex_lock(1);
    thread_start(HIGH, HIGH_BASE, wait_for_mutex, NULL); /* it runs until it waits */
    blocked_at = cycles_now();
    unlocked_at = cycles_now();
    mutex_unlock(1);
    print_row(name, blocked_at - asked_at - overhead, continued_at - unlocked_at - overhead);
    one_has_finished();
}

/* ---- libpim alone, with all threads in a chain ---- */

/* Makes the steps by itself: no thread is blocked. */
static void measure_chain(void *unused) {
    static struct pim_changed_task changed[MOST];
    static struct pim_changed_prio prios[MOST];
    struct pim_handle *locks = mutexes_manager();
    (void)unused;
    kernel_enter();
    for (uint16_t t = 1; t < MOST; t++) {
        pim_lock(locks, t, t);
        if (t > 1) pim_lock(locks, t, (uint16_t)(t - 1));
    }
    pim_set_base(locks, MOST, MOST, 99);
    uint64_t lock = COST_OF(pim_lock(locks, MOST, MOST - 1));
    uint64_t list = COST_OF(pim_changed(locks, changed, MOST));
    uint64_t list_of_prios = COST_OF(pim_changed_prios(locks, prios, MOST));
    kernel_leave();
    print("pim_lock that joins a chain of 31: %llu\n", (unsigned long long)lock);
    print("pim_changed after it, which lists 31: %llu\n", (unsigned long long)list);
    print("pim_changed_prios, of the same: %llu\n", (unsigned long long)list_of_prios);
    one_has_finished();
}

static void measure_making(void) {
    static const uint16_t bases[MOST] = { [0 ... MOST - 1] = LOW_BASE };
    static const struct pim_protocol protocols[MAX_MUTEXES] = {
        [0 ... MAX_MUTEXES - 1] = { PIM_INHERIT, 0 }
    };
    struct pim_handle *locks = mutexes_manager();
    kernel_enter();
    pim_drop(locks);
    uint64_t made = COST_OF(pim_make(locks, bases, MOST, protocols, MAX_MUTEXES));
    kernel_leave();
    print("pim_make of 32 tasks and 64 mutexes: %llu\n", (unsigned long long)made);
}

/* ---- the program ---- */

static void run(void (*work)(void *), const char *name, int threads_of_it,
                struct pim_protocol protocol) {
    static uint16_t bases[MOST];
    static struct pim_protocol protocols[MAX_MUTEXES];
    for (int t = 0; t < MOST; t++) bases[t] = t == 0 ? LOW_BASE : HIGH_BASE;
    for (int m = 0; m < MAX_MUTEXES; m++) protocols[m] = protocol;
    threads_reset();
    if (mutexes_start(bases, MOST, protocols, MAX_MUTEXES) != PIM_MADE) panic("no manager");
    unfinished = threads_of_it;
    thread_start(LOW, LOW_BASE, work, (void *)(uintptr_t)name);
    wait_for_all();
}

static void measure_overhead(void) {
    uint64_t from = cycles_now();
    overhead = cycles_now() - from;
}

void program(void) {
    static const struct pim_protocol none = { PIM_NONE, 0 }, inherit = { PIM_INHERIT, 0 };
    static const struct pim_protocol protect = { PIM_PROTECT, 95 };
    static const struct pim_protocol recursive = { PIM_INHERIT_RECURSIVE, 0 };
    measure_overhead();
    print("%-52s %8s %8s %8s\n", "Instructions", "lock", "unlock", "both");
    run(measure_alone, "alone, NONE", 1, none);
    run(measure_alone, "alone, INHERIT", 1, inherit);
    run(measure_after_unlock, "alone, INHERIT, after another's try and an unlock", 2, inherit);
    run(measure_after_release, "alone, INHERIT, after another's try and a release", 2, inherit);
    run(measure_alone, "alone, INHERIT recursive", 1, recursive);
    run(measure_alone, "alone, PROTECT", 1, protect);
    run(measure_contended, "a waiter blocks and is handed the mutex, NONE", 2, none);
    run(measure_contended, "a waiter blocks and is handed the mutex, INHERIT", 2, inherit);
    size_t stack_of_owner = thread_stack_used(LOW), stack_of_waiter = thread_stack_used(HIGH);
    run(measure_libpim, "", 1, inherit);
    run(measure_chain, "", 1, inherit);
    threads_reset();
    measure_making();
    print("bytes of stack that the owner used: %llu, the waiter: %llu\n",
          (unsigned long long)stack_of_owner, (unsigned long long)stack_of_waiter);
}
