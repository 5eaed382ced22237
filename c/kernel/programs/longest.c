/* The longest time with interrupts off, and with the kernel's lock held, in instructions: in the
 * worst known cases, with 4, 16 and 32 threads. Built with -DMEASURE, for qemu with -icount
 * shift=0.
 *
 * A time begins where interrupts go off, by a call or an interrupt, and ends where they go on
 * again, perhaps in another thread. */
#include "measure.h"
#include "mutexes.h"

enum { MOST = MAX_THREADS };

typedef void (*call)(uint16_t first, uint16_t second);

/* The call that each thread is ordered to make. It is parked without one. */
static struct order {
    call call;
    uint16_t first, second;
} orders[MOST + 1];
static bool is_measured; /* the next order */

static void forget_spans(void) {
    interrupts_are_off.longest = lock_is_held.longest = 0;
}

static void obey(void *unused) {
    struct order *order = &orders[current->number];
    (void)unused;
    for (;;) {
        thread_park();
        if (is_measured) forget_spans();
        order->call(order->first, order->second);
        order->call = NULL;
    }
}

/* Orders a thread to make a call. Returns when all threads are parked or blocked, since the idle
 * thread calls it. */
static void let(uint16_t thread, call made, uint16_t first, uint16_t second) {
    orders[thread] = (struct order){ made, first, second };
    thread_unpark(&threads[thread]);
}

static void measure(uint16_t thread, call made, uint16_t first, uint16_t second) {
    is_measured = true;
    let(thread, made, first, second);
    is_measured = false;
}

/* Lets the deadlines of these threads, which wait, be passed at the same tick. */
static void measure_ticks(uint16_t from, uint16_t to) {
    for (uint16_t t = from; t <= to; t++) thread_expire(&threads[t]);
    forget_spans();
    while (orders[to].call) wait_for_interrupt();
}

static void lock(uint16_t mutex, uint16_t unused) {
    (void)unused;
    mutex_lock(mutex);
}

static void timedlock(uint16_t mutex, uint16_t unused) {
    (void)unused;
    mutex_timedlock(mutex, NEVER - 1);
}

static void unlock(uint16_t mutex, uint16_t unused) {
    (void)unused;
    mutex_unlock(mutex);
}

static void unlock_all(uint16_t unused, uint16_t neither) {
    (void)unused, (void)neither;
    mutex_unlock_all();
}

static void set_priority(uint16_t thread, uint16_t prio) {
    thread_set_priority(thread, prio);
}

/* ---- the cases ---- */

static uint16_t n; /* threads 1 to n, at priorities 1 to n, and 2 n mutexes */

/* The ceilings are different ones if the first isn't 0. */
static void begin(uint16_t kind, uint16_t first_ceiling) {
    static uint16_t bases[MOST];
    static struct pim_protocol protocols[2 * MOST];
    for (uint16_t t = 0; t < n; t++) bases[t] = (uint16_t)(t + 1);
    for (uint16_t m = 0; m < 2 * n; m++) {
        uint16_t ceiling = first_ceiling ? (uint16_t)(first_ceiling - m % n) : 0;
        protocols[m] = (struct pim_protocol){ kind, ceiling };
    }
    threads_reset();
    if (mutexes_start(bases, n, protocols, (uint16_t)(2 * n)) != PIM_MADE) panic("no manager");
    for (uint16_t t = 1; t <= n; t++) {
        orders[t].call = NULL;
        thread_start(t, (uint8_t)t, obey, NULL);
    }
}

/* Each thread t up to the last owns mutexes t and n + t, and waits for mutex t - 1. */
static void make_chain(uint16_t last) {
    for (uint16_t t = 1; t <= last; t++) {
        let(t, lock, t, 0);
        let(t, lock, (uint16_t)(n + t), 0);
        if (t > 1) let(t, lock, (uint16_t)(t - 1), 0);
    }
}

static void empty_tick(void) {
    begin(PIM_INHERIT, 0);
    forget_spans();
    wait_for_interrupt();
}

static void free_lock(void) {
    begin(PIM_INHERIT, 0);
    measure(1, lock, 1, 0);
}

static void queue_unlocked(void) {
    begin(PIM_INHERIT, 0);
    let(1, lock, 1, 0);
    for (uint16_t t = 2; t <= n; t++) let(t, lock, 1, 0);
    measure(1, unlock, 1, 0);
}

static void deadlock_refused(void) {
    begin(PIM_INHERIT, 0);
    make_chain(n);
    measure(1, lock, n, 0);
}

static void chain_joined(void) {
    begin(PIM_INHERIT, 0);
    make_chain(n - 1);
    measure(n, lock, (uint16_t)(n - 1), 0);
}

/* With a fast path, libpim isn't told of its mutexes, since nobody waits for them. */
static void owner_of_many_waits(void) {
    begin(PIM_INHERIT, 0);
    let(2, lock, 1, 0);
    for (uint16_t m = 2; m <= 2 * n; m++) let(1, lock, m, 0);
    measure(1, lock, 1, 0);
}

static void chain_raised(void) {
    begin(PIM_INHERIT, 0);
    make_chain(n);
    measure(1, set_priority, n, 99);
}

static void chain_left_by_timeout(void) {
    begin(PIM_INHERIT, 0);
    make_chain(n - 1);
    let(n, timedlock, (uint16_t)(n - 1), 0);
    measure_ticks(n, n);
}

static void all_time_out(void) {
    begin(PIM_INHERIT, 0);
    let(1, lock, 1, 0);
    for (uint16_t t = 2; t <= n; t++) let(t, timedlock, 1, 0);
    measure_ticks(2, n);
}

/* Thread 1 owns all mutexes, and a thread waits for each of the first n - 1. */
static void release(uint16_t kind, uint16_t first_ceiling) {
    begin(kind, first_ceiling);
    for (uint16_t m = 1; m <= 2 * n; m++) let(1, lock, m, 0);
    for (uint16_t t = 2; t <= n; t++) let(t, lock, (uint16_t)(t - 1), 0);
    measure(1, unlock_all, 0, 0);
}

static void inherit_released(void) { release(PIM_INHERIT, 0); }
static void protect_released(void) { release(PIM_PROTECT, 99); }

/* ---- the program ---- */

static const struct {
    const char *name;
    void (*run)(void);
} cases[] = {
    { "tick: nothing to do", empty_tick },
    { "lock: the mutex is free", free_lock },
    { "unlock: all other threads wait", queue_unlocked },
    { "lock: a deadlock through all threads is refused", deadlock_refused },
    { "lock: the highest joins a chain of all others", chain_joined },
    { "lock: the owner of 2n - 1 mutexes waits", owner_of_many_waits },
    { "set_priority: all in a chain, its end is raised", chain_raised },
    { "tick: the end of that chain times out", chain_left_by_timeout },
    { "tick: all waiters of a mutex time out", all_time_out },
    { "unlock_all: 2n mutexes, n - 1 waiters, INHERIT", inherit_released },
    { "unlock_all: the same, each owner raised, PROTECT", protect_released },
};

static void print_row(const char *name, void (*run)(void)) {
    static const uint16_t sizes[] = { 4, 16, 32 };
    uint64_t held[3];
    print("%-52s", name);
    for (int size = 0; size < 3; size++) {
        n = sizes[size];
        run();
        held[size] = lock_is_held.longest;
        print(" %8llu", (unsigned long long)interrupts_are_off.longest);
    }
    for (int size = 0; size < 3; size++) print(" %8llu", (unsigned long long)held[size]);
    print("\n");
}

void program(void) {
    print("%-52s %8s %8s %8s %8s %8s %8s\n", "Instructions", "off: 4", "16", "32", "lock: 4", "16",
          "32");
    for (unsigned row = 0; row < sizeof cases / sizeof cases[0]; row++)
        print_row(cases[row].name, cases[row].run);
}
