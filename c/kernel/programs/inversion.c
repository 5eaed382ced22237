/* Priority inversion, by the clock. High needs a mutex that low owns, while medium, whose
 * priority is between theirs, has work. How long does high wait? And with a chain, in which link
 * waits for low's mutex, and high for link's?
 *
 *     0 ms  low, at 10, locks mutex 1 and works for 5 ms
 *     1 ms  in the chain, link, at 20, locks mutex 2, works for 2 ms, and then locks mutex 1
 *     4 ms  high, at 90, locks mutex 1, or in the chain mutex 2
 *     5 ms  medium, at 50, begins to work
 *
 * Work is counted in turns of a loop, so a thread's work takes no time while others run. */
#include "finishing.h"
#include "mutexes.h"

enum { LOW = 1, LINK = 2, MEDIUM = 3, HIGH = 4, THREADS = 4 };
enum { LOW_WORK = 5000, LINK_WORK = 2000 };              /* us */
enum { LINK_AT = 1000, HIGH_AT = 4000, MEDIUM_AT = 5000 }; /* us after the begin */
enum { LEAD = 2000 };                                    /* us from a tick to the begin */

static const uint16_t bases[] = { 10, 20, 50, 90 };
static const unsigned medium_works[] = { 10000, 100000, 1000000 }; /* us */

/* What is measured. */
static bool is_chain;
static unsigned medium_work; /* us */
static uint64_t patience;    /* us for which high waits at most, or 0: for ever */

/* What is found. */
static uint64_t waited; /* us from high's lock until it returns */
static int high_result; /* of that call */
static uint8_t prio_before_unlock, prio_after_unlock; /* of low */

static uint64_t begin; /* in counts of the clock */
static uint64_t turns_per_ms;

static void turn(uint64_t turns) {
    while (turns-- > 0) __asm__ volatile("");
}

static void work_for(uint64_t us) {
    turn(us * turns_per_ms / 1000);
}

static void calibrate(void) {
    enum { TURNS = 200000 };
    uint64_t from = clock_now();
    turn(TURNS);
    turns_per_ms = TURNS * 1000ull / us_of_clock(clock_now() - from);
}

static void sleep_until(uint64_t us) {
    thread_sleep_until(begin + clock_of_us(us));
}

static void low(void *unused) {
    (void)unused;
    sleep_until(0);
    mutex_lock(1);
    work_for(LOW_WORK);
    prio_before_unlock = current->prio;
    mutex_unlock(1);
    prio_after_unlock = current->prio;
    one_has_finished();
}

static void link_of_chain(void *unused) {
    (void)unused;
    sleep_until(LINK_AT);
    mutex_lock(2);
    work_for(LINK_WORK);
    mutex_lock(1);
    mutex_unlock(1);
    mutex_unlock(2);
    one_has_finished();
}

static void medium(void *unused) {
    (void)unused;
    sleep_until(MEDIUM_AT);
    work_for(medium_work);
    one_has_finished();
}

static void high(void *unused) {
    uint16_t mutex = is_chain ? 2 : 1;
    (void)unused;
    sleep_until(HIGH_AT);
    uint64_t deadline = patience ? begin + clock_of_us(HIGH_AT + patience) : NEVER;
    high_result = mutex_timedlock(mutex, deadline);
    waited = us_of_clock(clock_now() - begin) - HIGH_AT;
    if (high_result == 0) mutex_unlock(mutex);
    one_has_finished();
}

/* Runs the threads. Returns how long high waited, in us. */
static uint64_t run(struct pim_protocol protocol, unsigned work) {
    struct pim_protocol protocols[] = { protocol, protocol };
    threads_reset();
    if (mutexes_start(bases, THREADS, protocols, 2) != PIM_MADE) panic("no manager");
    medium_work = work;
    begin = board_last_tick() + clock_of_us(LEAD); /* so that each deadline is a tick */
    unfinished = is_chain ? 4 : 3;
    thread_start(LOW, 10, low, NULL);
    if (is_chain) thread_start(LINK, 20, link_of_chain, NULL);
    thread_start(MEDIUM, 50, medium, NULL);
    thread_start(HIGH, 90, high, NULL);
    wait_for_all();
    return waited;
}

static void print_row(const char *name, struct pim_protocol protocol) {
    print("%-14s %-10s", is_chain ? "chain of three" : "one mutex", name);
    for (int w = 0; w < 3; w++)
        print(" %10llu", (unsigned long long)run(protocol, medium_works[w]));
    print("   low unlocks at %u, continues at %u\n", prio_before_unlock, prio_after_unlock);
}

void program(void) {
    static const struct pim_protocol none = { PIM_NONE, 0 }, inherit = { PIM_INHERIT, 0 };
    static const struct pim_protocol protect = { PIM_PROTECT, 90 };
    calibrate();
    print("How long high waits, in us, if medium works for\n");
    print("%-25s %10s %10s %10s\n", "", "10 ms", "100 ms", "1000 ms");
    for (int chain = 0; chain <= 1; chain++) {
        is_chain = chain;
        print_row("NONE", none);
        print_row("INHERIT", inherit);
        print_row("PROTECT 90", protect);
    }
    patience = 500;
    uint64_t us = run(inherit, medium_works[0]);
    print("chain of three INHERIT, high waits %llu us at most: %s after %llu us, "
          "low unlocks at %u\n",
          (unsigned long long)patience, high_result == MUTEX_TIMED_OUT ? "timed out" : "owner",
          (unsigned long long)us, prio_before_unlock);
}
