/* The rules of the scheduler: which of several threads of one priority runs first, by
 * POSIX.1-2017, 2.8.4, SCHED_FIFO, and how many waits a tick ends. Prints the threads of each
 * scene in the order of their turns. tests/c/test_kernel.py knows the right order.
 *
 * In each scene the director, at 90, starts the others and acts on them. They run once it has
 * ended or parks. */
#include "finishing.h"
#include "mutexes.h"

enum { DIRECTOR = 5, DIRECTOR_BASE = 90, MOST_TURNS = 8 };
enum { INHERITING = 1, PROTECTING = 2, SECOND = 3, THIRD = 4 }; /* mutexes */

static const struct pim_protocol protocols[] = {
    { PIM_INHERIT, 0 }, { PIM_PROTECT, 40 }, { PIM_INHERIT, 0 }, { PIM_INHERIT, 0 }
};
static uint16_t bases[MAX_THREADS]; /* of threads 1, 2, .. of the scene */
static volatile uint16_t turns[MOST_TURNS]; /* the numbers of threads, which preempt one another */
static volatile int turn_count;

/* ---- what threads do ---- */

static void take_turn(void) {
    if (turn_count < MOST_TURNS) turns[turn_count++] = current->number;
}

static void play(void *part) {
    ((void (*)(void))(uintptr_t)part)();
    one_has_finished();
}

static void start(uint16_t thread, void (*part)(void)) {
    thread_start(thread, (uint8_t)bases[thread - 1], play, (void *)(uintptr_t)part);
}

/* A thread that ends unlocks its mutexes. */
static void lock_and_take_turn(void) {
    mutex_lock(INHERITING);
    take_turn();
}

static void call_director(void) {
    thread_unpark(&threads[DIRECTOR]);
}

/* Returns after the next tick. */
static void sleep_for_a_tick(void) {
    thread_sleep_until(clock_now());
}

/* ---- a thread that blocked, and one that is preempted ---- */

static void direct_woken(void) {
    start(2, take_turn);
    start(3, take_turn);
    start(1, take_turn);
}

static volatile bool has_slept;

static void sleep_and_take_turn(void) {
    sleep_for_a_tick();
    take_turn();
    has_slept = true;
}

static void be_preempted(void) {
    take_turn();
    while (!has_slept) continue;
    take_turn();
}

static void direct_preempted(void) {
    has_slept = false;
    start(3, sleep_and_take_turn);
    start(1, be_preempted);
    start(2, take_turn);
}

static void hold_lock(void) {
    uint64_t last = board_last_tick(), period = clock_of_us(1000000 / TICKS_PER_SECOND);
    kernel_enter();
    while (clock_now() < last + period + period / 2) continue;
    kernel_leave();
    take_turn();
}

static void direct_tick_while_locked(void) {
    start(3, sleep_and_take_turn);
    start(1, hold_lock);
}

/* ---- priorities that are set ---- */

static void direct_raised(void) {
    start(1, take_turn);
    start(2, take_turn);
    start(3, take_turn);
    thread_set_priority(1, 20);
}

static void direct_lowered(void) {
    start(2, take_turn);
    start(3, take_turn);
    start(1, take_turn);
    thread_set_priority(1, 20);
}

static void direct_unchanged(void) {
    start(2, take_turn);
    start(1, take_turn);
    start(3, take_turn);
    thread_set_priority(1, 20);
}

static void lower_itself(void) {
    take_turn();
    thread_set_priority(1, 20);
    take_turn();
}

static void direct_lowers_itself(void) {
    start(2, take_turn);
    start(3, take_turn);
    start(1, lower_itself);
}

static void raise_and_lower_itself(void) {
    take_turn();
    thread_set_priority(1, 30);
    thread_set_priority(1, 20);
    take_turn();
}

static void direct_raises_itself(void) {
    start(1, raise_and_lower_itself);
    start(2, take_turn);
}

/* ---- boosts ---- */

static void lock_and_call_director(void) {
    mutex_lock(INHERITING);
    call_director();
    take_turn();
}

/* Thread 3 waits as soon as thread 1 has continued. */
static void direct_boosted(void) {
    start(1, lock_and_call_director);
    thread_park();
    start(3, lock_and_take_turn);
    start(2, take_turn);
}

static void unlock_for_waiter(void) {
    mutex_lock(INHERITING);
    start(3, lock_and_take_turn); /* which runs until it waits */
    take_turn();
    mutex_unlock(INHERITING);
    take_turn();
}

static void direct_unlocked(void) {
    start(1, unlock_for_waiter);
    start(2, take_turn);
}

static void be_boosted_and_call_director(void) {
    mutex_lock(INHERITING);
    start(3, lock_and_take_turn);
    call_director();
    take_turn();
}

static void direct_withdrawn(void) {
    start(1, be_boosted_and_call_director);
    thread_park();
    start(2, take_turn);
    mutex_withdraw(3);
}

static void direct_base_of_boosted(void) {
    start(1, be_boosted_and_call_director);
    thread_park();
    start(4, take_turn);
    thread_set_priority(1, 25);
}

static void lock_ceiling(void) {
    mutex_lock(PROTECTING);
    take_turn();
    mutex_unlock(PROTECTING);
    take_turn();
}

static void direct_ceiling(void) {
    start(1, lock_ceiling);
    start(2, take_turn);
}

/* ---- new owners ---- */

static void lock_second_and_take_turn(void) {
    mutex_lock(SECOND);
    take_turn();
}

static void lock_third_and_take_turn(void) {
    mutex_lock(THIRD);
    take_turn();
}

static void hand_over(void) {
    mutex_lock(INHERITING);
    start(3, lock_and_take_turn);
    start(4, lock_and_take_turn);
    start(2, lock_and_take_turn);
    sleep_for_a_tick(); /* they wait by then */
    take_turn();
}

static void direct_handed(void) {
    start(1, hand_over);
}

static void release(void) {
    mutex_lock(INHERITING);
    mutex_lock(SECOND);
    mutex_lock(THIRD);
    start(2, lock_second_and_take_turn);
    start(3, lock_and_take_turn);
    start(4, lock_third_and_take_turn);
    sleep_for_a_tick();
    mutex_unlock_all();
    take_turn();
}

static void direct_released(void) {
    start(1, release);
}

/* ---- the scenes ---- */

static const struct scene {
    const char *name;
    uint16_t bases[DIRECTOR - 1]; /* 0: no such thread */
    void (*direct)(void);
} scenes[] = {
    { "woken", { 20, 20, 20 }, direct_woken },
    { "preempted by a tick", { 20, 20, 30 }, direct_preempted },
    { "tick while the lock is held", { 20, 0, 30 }, direct_tick_while_locked },
    { "raised by another", { 10, 20, 20 }, direct_raised },
    { "lowered by another", { 30, 20, 20 }, direct_lowered },
    { "set to the same", { 20, 20, 20 }, direct_unchanged },
    { "lowers itself", { 30, 20, 20 }, direct_lowers_itself },
    { "raises and lowers itself", { 20, 20 }, direct_raises_itself },
    { "boosted", { 20, 30, 30 }, direct_boosted },
    { "unlocks and is no longer boosted", { 20, 20, 30 }, direct_unlocked },
    { "no longer boosted by a withdrawal", { 20, 20, 30 }, direct_withdrawn },
    { "base set below the boost", { 20, 0, 30, 30 }, direct_base_of_boosted },
    { "ceiling", { 20, 20 }, direct_ceiling },
    { "handed over", { 20, 20, 20, 20 }, direct_handed },
    { "released", { 20, 20, 20, 20 }, direct_released },
};

static void begin(const uint16_t *of_scene, int count) {
    for (int t = 0; t < MAX_THREADS; t++) bases[t] = t < count && of_scene[t] ? of_scene[t] : 1;
    bases[DIRECTOR - 1] = DIRECTOR_BASE;
    threads_reset();
    if (mutexes_start(bases, MAX_THREADS, protocols, 4) != PIM_MADE) panic("no manager");
}

static void play_scene(const struct scene *scene) {
    begin(scene->bases, DIRECTOR - 1);
    turn_count = 0;
    unfinished = 1;
    for (int t = 0; t < DIRECTOR - 1; t++) unfinished += scene->bases[t] != 0;
    start(DIRECTOR, scene->direct);
    wait_for_all();
    print("%s:", scene->name);
    for (int i = 0; i < turn_count; i++) print(" %u", turns[i]);
    print("\n");
}

/* ---- the waits that a tick ends ---- */

enum { FIRST_WAITER = 6, WAITERS = 20, LEAD_TICKS = 20 }; /* in which all begin to wait */

static uint64_t deadline, ended_at[WAITERS]; /* in counts of the clock */

static void lock_for_ever(void *unused) {
    (void)unused;
    mutex_lock(INHERITING);
    thread_park();
}

static void wait_until_deadline(void *unused) {
    (void)unused;
    mutex_timedlock(INHERITING, deadline);
    ended_at[current->number - FIRST_WAITER] = board_last_tick();
    one_has_finished();
}

/* Prints how many waits the tick of the deadline ended, and each tick after it, until all had
 * ended. */
static void print_ended(void) {
    uint64_t period = clock_of_us(1000000 / TICKS_PER_SECOND), tick = deadline;
    int ended = 0;
    print("waits that each tick ended:");
    for (; ended < WAITERS && tick < deadline + WAITERS * period; tick += period) {
        int count = 0;
        for (int w = 0; w < WAITERS; w++) count += ended_at[w] == tick;
        print(" %d", count);
        ended += count;
    }
    print("\n");
}

static void time_out(void) {
    begin(NULL, 0);
    deadline = board_last_tick() + clock_of_us(LEAD_TICKS * 1000000 / TICKS_PER_SECOND);
    unfinished = WAITERS;
    thread_start(1, 1, lock_for_ever, NULL);
    for (uint16_t w = 0; w < WAITERS; w++)
        thread_start(FIRST_WAITER + w, 1, wait_until_deadline, NULL);
    wait_for_all();
    print_ended();
}

void program(void) {
    for (unsigned s = 0; s < sizeof scenes / sizeof scenes[0]; s++) play_scene(&scenes[s]);
    time_out();
}
