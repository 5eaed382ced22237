#include "scheduler.h"

#include "measure.h"
#include "memory.h"
#include "mutexes.h"

struct thread threads[MAX_THREADS + 2];
struct thread *current = &threads[0];
struct span interrupts_are_off, lock_is_held;

/* The first ready thread of each priority, whose queue is a ring, and a bit for each priority
 * that has one. */
static struct thread *first_ready[PRIORITIES];
static uint64_t ready_bits[PRIORITIES / 64];

/* The threads with a deadline, the earliest first, equal ones in the order in which they
 * blocked. */
static struct thread *earliest;

/* ---- the ready queues ---- */

static void enqueue(struct thread *thread, bool is_first) {
    struct thread **first = &first_ready[thread->prio];
    if (*first == NULL) {
        thread->next = thread->prev = thread;
        *first = thread;
        ready_bits[thread->prio / 64] |= 1ull << thread->prio % 64;
        return;
    }
    thread->next = *first;
    thread->prev = (*first)->prev;
    thread->prev->next = thread->next->prev = thread;
    if (is_first) *first = thread;
}

static void dequeue(struct thread *thread) {
    struct thread **first = &first_ready[thread->prio];
    if (thread->next == thread) {
        *first = NULL;
        ready_bits[thread->prio / 64] &= ~(1ull << thread->prio % 64);
        return;
    }
    thread->prev->next = thread->next;
    thread->next->prev = thread->prev;
    if (*first == thread) *first = thread->next;
}

static struct thread *highest(void) {
    for (int word = PRIORITIES / 64 - 1; word >= 0; word--) {
        uint64_t bits = ready_bits[word];
        if (bits) return first_ready[64 * word + 63 - __builtin_clzll(bits)];
    }
    panic("no thread is ready");
}

/* Returns how many threads the queue of this priority has, -1 if it isn't sound. */
static int queue_length(int prio) {
    struct thread *first = first_ready[prio], *thread = first;
    bool has_bit = ready_bits[prio / 64] >> prio % 64 & 1;
    int length = 0;
    if (has_bit != (first != NULL)) return -1;
    if (first == NULL) return 0;
    do {
        bool is_in_place = thread->prio == prio && thread->next->prev == thread;
        if (!is_in_place || thread->state != READY || ++length > MAX_THREADS + 2) return -1;
    } while ((thread = thread->next) != first);
    return length;
}

bool sched_is_sound(void) {
    int queued = 0, ready = 0;
    for (int prio = 0; prio < PRIORITIES; prio++) {
        int length = queue_length(prio);
        if (length < 0) return false;
        queued += length;
    }
    for (int t = 0; t < MAX_THREADS + 2; t++) ready += threads[t].state == READY;
    return queued == ready;
}

/* ---- deadlines ---- */

static void add_deadline(struct thread *thread, uint64_t deadline) {
    struct thread **at = &earliest;
    thread->has_deadline = true;
    thread->deadline = deadline;
    while (*at && (*at)->deadline <= deadline) at = &(*at)->later;
    thread->later = *at;
    *at = thread;
}

static void drop_deadline(struct thread *thread) {
    struct thread **at = &earliest;
    if (!thread->has_deadline) return;
    while (*at != thread) at = &(*at)->later;
    *at = thread->later;
    thread->has_deadline = false;
}

static bool is_due(void) {
    return earliest && earliest->deadline <= clock_now();
}

/* ---- the scheduler ---- */

void sched_wake(struct thread *thread, int result) {
    drop_deadline(thread);
    thread->result = result;
    thread->state = READY;
    enqueue(thread, false);
}

void sched_set_prio(struct thread *thread, uint8_t prio) {
    bool is_lowered = prio < thread->prio;
    if (thread->state != READY) {
        thread->prio = prio;
        return;
    }
    dequeue(thread);
    thread->prio = prio;
    enqueue(thread, is_lowered);
}

/* Switches to the thread that should run, if it is another one. Interrupts are off. */
static void run_highest(void) {
    struct thread *from = current, *to = highest();
    if (to == from) return;
    current = to;
    switch_to(from, to);
}

/* Blocks the thread that runs. Interrupts are off. */
static int block(enum thread_state state, uint64_t deadline) {
    struct thread *me = current;
    dequeue(me);
    me->state = state;
    if (deadline != NEVER) add_deadline(me, deadline);
    run_highest();
    return me->result;
}

static void unpark(struct thread *thread) {
    if (thread->state == PARKED) sched_wake(thread, 0);
    else thread->has_token = true;
}

/* Ends the wait or the sleep with the earliest deadline, if that has passed. */
static void end_earliest(void) {
    struct thread *thread = earliest;
    if (!is_due()) return;
    if (thread->state == LOCKING) mutex_time_is_out(thread);
    else sched_wake(thread, 0);
}

/* ---- the kernel's lock, and the tick ---- */

#if INTERRUPTS_OFF
static const bool is_locked = false; /* where an interrupt asks */

static void on_tick(void) {
    for (int ended = 0; ended < ENDED_PER_TICK; ended++) end_earliest();
}

void kernel_enter(void) {
    interrupts_off();
    span_begins(&lock_is_held);
}

static void leave_lock(void) {
    span_ends(&lock_is_held);
}

static void start_ender(void) {}
#else
enum { ENDER = MAX_THREADS + 1, ENDER_PRIORITY = PRIORITIES - 1 };
static volatile bool is_locked;
static volatile bool was_tick; /* while the lock was held */

/* What the ender does at a tick that finds a deadline passed. It holds the lock for one wait at a
 * time. */
static void end_waits(void *unused) {
    (void)unused;
    for (;;) {
        thread_park();
        for (int ended = 0; ended < ENDED_PER_TICK; ended++) {
            kernel_enter();
            end_earliest();
            kernel_leave();
        }
    }
}

/* Interrupts are off. Queues and deadlines are read only if nobody is changing them. */
static void on_tick(void) {
    was_tick = is_locked;
    if (!is_locked && is_due()) unpark(&threads[ENDER]);
}

void kernel_enter(void) {
    is_locked = true;
    __asm__ volatile("" : : : "memory"); /* the compiler moves no access before this */
    span_begins(&lock_is_held);
}

static void leave_lock(void) {
    interrupts_off();
    is_locked = false;
    if (was_tick) on_tick();
    span_ends(&lock_is_held);
}

static void start_ender(void) {
    thread_start(ENDER, ENDER_PRIORITY, end_waits, NULL);
}
#endif

void kernel_leave(void) {
    leave_lock();
    run_highest();
    interrupts_on();
}

int kernel_leave_blocked(enum thread_state state, uint64_t deadline) {
    leave_lock();
    int result = block(state, deadline);
    interrupts_on();
    return result;
}

/* ---- exceptions: called by start.S, with interrupts off ---- */

void on_interrupt(void) {
    span_begins(&interrupts_are_off);
    uint32_t interrupt = board_acknowledge();
    if (interrupt == TICK_INTERRUPT) {
        board_next_tick();
        on_tick();
    }
    if (interrupt < NO_INTERRUPT) board_finish(interrupt);
    if (!is_locked) run_highest();
    span_ends(&interrupts_are_off);
}

_Noreturn void on_unexpected(uint64_t syndrome, uint64_t address, uint64_t data) {
    print("\nexception in thread %u: syndrome 0x%llx at 0x%llx, data address 0x%llx\n",
          current->number, (unsigned long long)syndrome, (unsigned long long)address,
          (unsigned long long)data);
    panic("unexpected exception");
}

/* ---- threads ---- */

enum { PAINT = 0xa5 }; /* a byte of an unused stack */

static _Alignas(16) unsigned char stacks[MAX_THREADS + 2][STACK_BYTES];

void threads_reset(void) {
    kernel_enter();
    for (uint16_t t = 1; t <= MAX_THREADS; t++) {
        if (threads[t].state == READY) dequeue(&threads[t]);
        drop_deadline(&threads[t]);
        threads[t] = (struct thread){ .number = t, .state = UNUSED };
    }
    kernel_leave();
}

/* Called by start.S, with interrupts off. */
_Noreturn void thread_main(void) {
    interrupts_on();
    current->work(current->argument);
    mutex_unlock_all();
    kernel_enter();
    kernel_leave_blocked(UNUSED, NEVER);
    panic("a thread that ended runs");
}

void thread_start(uint16_t number, uint8_t prio, void (*work)(void *), void *argument) {
    struct thread *thread = &threads[number];
    uint64_t *frame = (uint64_t *)(stacks[number] + STACK_BYTES) - FRAME_WORDS;
    memset(stacks[number], PAINT, STACK_BYTES);
    memset(frame, 0, FRAME_WORDS * sizeof *frame);
    frame[FRAME_WORDS - 1] = (uint64_t)thread_begin;
    kernel_enter();
    *thread = (struct thread){
        .stack_pointer = (uint64_t)frame, .number = number, .prio = prio, .work = work,
        .argument = argument
    };
    sched_wake(thread, 0);
    kernel_leave();
}

size_t thread_stack_used(uint16_t number) {
    size_t unused = 0;
    while (unused < STACK_BYTES && stacks[number][unused] == PAINT) unused++;
    return STACK_BYTES - unused;
}

void thread_park(void) {
    kernel_enter();
    bool had_token = current->has_token;
    current->has_token = false;
    if (had_token) kernel_leave();
    else kernel_leave_blocked(PARKED, NEVER);
}

void thread_unpark(struct thread *thread) {
    kernel_enter();
    unpark(thread);
    kernel_leave();
}

void thread_sleep_until(uint64_t deadline) {
    kernel_enter();
    kernel_leave_blocked(SLEEPING, deadline);
}

void thread_expire(struct thread *thread) {
    kernel_enter();
    drop_deadline(thread);
    add_deadline(thread, 0);
    kernel_leave();
}

/* ---- the start ---- */

void program(void);

/* Called by start.S, with interrupts off. The thread that runs it is the idle one from then on. */
_Noreturn void kernel_main(void) {
    current->state = READY;
    enqueue(current, false);
    board_start();
    start_ender();
    threads_reset();
    program();
    host_exit(0);
}
