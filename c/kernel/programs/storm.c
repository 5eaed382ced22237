/* A storm: 32 threads lock, time out, unlock and set priorities at random, while the tick
 * preempts them. Every few calls it is checked that each thread is scheduled at libpim's
 * priority, that the blocked ones are those that wait, and that the highest ready thread runs;
 * with each lock and unlock, that a mutex has one owner; before each sleep, that no register was
 * lost. A panic says what doesn't hold. */
#include "finishing.h"
#include "mutexes.h"
#include "registers.h"

enum {
    THREADS = MAX_THREADS,
    MUTEXES = MAX_MUTEXES,
    MOST_OWNED = 4,
    CHECKED_EVERY = 16,   /* calls */
    LENGTH = 3000000,     /* us */
    LEAD = 10000,         /* us from the start of the threads to that of the storm */
    LONGEST_WAIT = 4000,  /* us */
    LONGEST_SLEEP = 3000, /* us */
    ROUNDS = 100,         /* of sum_of_registers */
    HIGHEST_BASE = 60
};

/* What a thread does. */
static struct actor {
    uint32_t state; /* of its generator, never 0 */
    uint16_t owned[MOST_OWNED];
    int count;      /* of these mutexes */
    unsigned calls, granted, timed_out, deadlocks, refused;
} actors[THREADS + 1];

static uint16_t holder[MUTEXES + 1]; /* as the threads know it, 0: nobody */
static uint64_t start, end;          /* in counts of the clock */
static uint64_t right_sum;           /* of registers */

/* Returns a number below the limit. */
static uint32_t random_below(struct actor *actor, uint32_t limit) {
    actor->state ^= actor->state << 13;
    actor->state ^= actor->state >> 17;
    actor->state ^= actor->state << 5;
    return actor->state % limit;
}

static void check(void) {
    struct pim_handle *locks = mutexes_manager();
    kernel_enter();
    if (!sched_is_sound()) panic("the ready queues aren't sound");
    for (uint16_t t = 1; t <= THREADS; t++) {
        const struct thread *thread = &threads[t];
        bool is_blocked = thread->state == LOCKING, waits = pim_waits_for(locks, t) != 0;
        if (thread->prio != pim_effective_prio(locks, t)) panic("a priority isn't libpim's");
        if (is_blocked != waits) panic("a thread is blocked and doesn't wait, or the reverse");
        if (thread->state == READY && thread->prio > current->prio) panic("a lower thread runs");
    }
    kernel_leave();
}

/* ---- what a thread does ---- */

static void note_result(struct actor *actor, uint16_t mutex, int result) {
    if (result == MUTEX_TIMED_OUT) actor->timed_out++;
    else if (result == -PIM_REFUSED_DEADLOCK) actor->deadlocks++;
    else if (result != 0) actor->refused++;
    if (result != 0) return;
    if (holder[mutex] != 0) panic("a mutex has two owners");
    holder[mutex] = current->number;
    actor->owned[actor->count++] = mutex;
    actor->granted++;
}

static void lock_some(struct actor *actor) {
    uint16_t mutex = (uint16_t)(1 + random_below(actor, MUTEXES));
    uint64_t patience = clock_of_us(random_below(actor, LONGEST_WAIT));
    uint32_t kind = random_below(actor, 4);
    if (kind == 0) note_result(actor, mutex, mutex_trylock(mutex));
    else if (kind == 1) note_result(actor, mutex, mutex_lock(mutex));
    else note_result(actor, mutex, mutex_timedlock(mutex, clock_now() + patience));
}

static void forget(uint16_t mutex) {
    if (holder[mutex] != current->number) panic("a mutex has lost its owner");
    holder[mutex] = 0;
}

static void unlock_last(struct actor *actor) {
    uint16_t mutex = actor->owned[--actor->count];
    forget(mutex);
    if (mutex_unlock(mutex) < 0) panic("an unlock is refused");
}

static void unlock_all(struct actor *actor) {
    for (int i = 0; i < actor->count; i++) forget(actor->owned[i]);
    if (mutex_unlock_all() != actor->count) panic("another number of mutexes is released");
    actor->count = 0;
}

static void set_some_priority(struct actor *actor) {
    uint16_t thread = (uint16_t)(1 + random_below(actor, THREADS));
    thread_set_priority(thread, (uint16_t)(1 + random_below(actor, HIGHEST_BASE)));
}

static void compute_and_sleep(struct actor *actor) {
    if (sum_of_registers(ROUNDS) != right_sum) panic("a register is lost");
    thread_sleep_until(clock_now() + clock_of_us(random_below(actor, LONGEST_SLEEP)));
}

static void make_storm(void *unused) {
    struct actor *actor = &actors[current->number];
    (void)unused;
    actor->state = 2463534242u + current->number * 7919u;
    thread_sleep_until(start);
    while (clock_now() < end) {
        uint32_t dice = random_below(actor, 16);
        if (actor->calls++ % CHECKED_EVERY == 0) check();
        if (dice < 8 && actor->count < MOST_OWNED) lock_some(actor);
        else if (dice < 12 && actor->count > 0) unlock_last(actor);
        else if (dice == 12) set_some_priority(actor);
        else if (dice == 13) unlock_all(actor);
        else compute_and_sleep(actor);
    }
    unlock_all(actor);
    one_has_finished();
}

/* ---- the program ---- */

/* Every fourth mutex is a NONE one, every fourth a PROTECT one, half of them are INHERIT ones. */
static struct pim_protocol protocol_of(int mutex) {
    uint16_t ceiling = (uint16_t)(HIGHEST_BASE + mutex % 30);
    if (mutex % 4 == 1) return (struct pim_protocol){ PIM_PROTECT, ceiling };
    return (struct pim_protocol){ mutex % 4 == 0 ? PIM_NONE : PIM_INHERIT, 0 };
}

static void print_counts(void) {
    struct actor all = { 0 };
    for (int t = 1; t <= THREADS; t++) {
        all.calls += actors[t].calls;
        all.granted += actors[t].granted;
        all.timed_out += actors[t].timed_out;
        all.deadlocks += actors[t].deadlocks;
        all.refused += actors[t].refused;
    }
    print("%u calls: %u locks granted, %u timed out, %u deadlocks, %u refused otherwise: sound\n",
          all.calls, all.granted, all.timed_out, all.deadlocks, all.refused);
}

void program(void) {
    static uint16_t bases[THREADS];
    static struct pim_protocol protocols[MUTEXES];
    for (int t = 0; t < THREADS; t++) bases[t] = (uint16_t)(1 + t);
    for (int m = 0; m < MUTEXES; m++) protocols[m] = protocol_of(m);
    if (mutexes_start(bases, THREADS, protocols, MUTEXES) != PIM_MADE) panic("no manager");
    start = clock_now() + clock_of_us(LEAD);
    end = start + clock_of_us(LENGTH);
    right_sum = sum_of_registers(ROUNDS);
    unfinished = THREADS;
    for (uint16_t t = 1; t <= THREADS; t++)
        thread_start(t, (uint8_t)bases[t - 1], make_storm, NULL);
    while (!all_have_finished()) {
        check();
        wait_for_interrupt();
    }
    for (uint16_t m = 1; m <= MUTEXES; m++)
        if (pim_owner(mutexes_manager(), m) != 0 || holder[m] != 0) panic("a mutex isn't free");
    print_counts();
}
