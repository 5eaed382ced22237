/* Threads. The first ready thread of the highest priority runs.
 *
 * There is one CPU. The kernel's lock guards the queues, in one of two ways:
 *
 *   - With INTERRUPTS_OFF 1, interrupts are off from kernel_enter to kernel_leave. The tick's
 *     interrupt ends waits.
 *   - With INTERRUPTS_OFF 0, interrupts stay on, but no thread is switched. Waits are ended by a
 *     thread of the highest priority, the ender, so that no interrupt calls libpim. A tick that
 *     finds the lock held leaves a mark for the thread that holds it.
 *
 * Functions marked 'locked' are called while the lock is held, or by the tick while it is free. */
#ifndef SCHEDULER_H
#define SCHEDULER_H

#include "board.h"

#include <stdbool.h>

enum { PRIORITIES = 128 }; /* 0 is the idle thread's, 1 to 99 are libpim's, 127 is the ender's */

enum thread_state {
    UNUSED,
    READY,    /* in the queue of its priority, also while it runs */
    PARKED,   /* until thread_unpark */
    SLEEPING, /* until its deadline */
    LOCKING   /* until it is handed its mutex, is withdrawn, or its deadline */
};

struct thread {
    uint64_t stack_pointer;     /* while another thread runs; start.S counts on its place */
    struct thread *next, *prev; /* in the queue of its priority, a ring */
    struct thread *later;       /* in the list of deadlines, or NULL */
    uint64_t deadline;          /* in counts of the clock */
    void (*work)(void *);
    void *argument;
    int result;      /* what the call that blocked it returns */
    uint16_t number; /* 1 to MAX_THREADS: its number for libpim */
    uint16_t mutex;  /* what it last waited for */
    uint8_t prio;    /* at which it is scheduled, 0 to PRIORITIES - 1 */
    uint8_t state;   /* an enum thread_state */
    bool has_deadline;
    bool has_token;  /* it was unparked while it wasn't parked */
};

/* The threads by number. Number 0 is the idle thread, which kernel_main began. The last one is
 * the ender. libpim knows the others. */
extern struct thread threads[MAX_THREADS + 2];
extern struct thread *current;

#define NEVER UINT64_MAX /* a deadline that doesn't come */

/* ---- the kernel's lock ---- */

/* Threads call these. kernel_leave lets the first thread of the highest priority run. */
void kernel_enter(void);
void kernel_leave(void);

/* Leaves the lock and blocks the calling thread until sched_wake or its deadline. Returns the
 * result that it was woken with. */
int kernel_leave_blocked(enum thread_state state, uint64_t deadline);

/* ---- what the other parts of the kernel call, locked ---- */

/* Makes a blocked thread ready, as the last of its priority, without its deadline. */
void sched_wake(struct thread *thread, int result);

/* Schedules a thread at another priority. The place of a ready one, also of the one that runs, is
 * that of pthread_setschedprio in POSIX.1-2017 (2.8.4, SCHED_FIFO, rule 8): a thread that is
 * raised becomes the last of its new priority, a thread that is lowered the first. The other
 * functions, as sched_setparam, make it the last in both cases (rule 7). Then the end of a boost
 * would let its equals run first, though the thread has given up nothing. */
void sched_set_prio(struct thread *thread, uint8_t prio);

/* Returns whether the queues have exactly the ready threads, each once and at its priority. */
bool sched_is_sound(void);

/* ---- what programs call ---- */

/* Forgets all threads but the idle one, which calls this. */
void threads_reset(void);

/* Starts a thread at this priority, as the last of it. */
void thread_start(uint16_t number, uint8_t prio, void (*work)(void *), void *argument);

/* Returns how many bytes of its stack the thread has used so far. */
size_t thread_stack_used(uint16_t number);

/* Blocks the calling thread until it is unparked. Returns immediately if it was, since the last
 * call. */
void thread_park(void);
void thread_unpark(struct thread *thread);

void thread_sleep_until(uint64_t deadline);

/* Makes the deadline of a blocked thread the next tick. */
void thread_expire(struct thread *thread);

#endif
