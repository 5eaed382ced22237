/* --contended: the mutexes that a thread owns, and whose grants aren't in the log. A grant is put
 * once somebody waits for the mutex, or once its thread has another record to put. If neither
 * happens before the release, neither of the two is put.
 *
 * A grant that is put later has the number of its time. So it has its place in the order of all
 * records. Where numbers are counted, all are even, and such a grant has the odd number behind those
 * that were given as it happened. The collector numbers the records anew as it writes the log. */
#ifndef PIM_HELD_H
#define PIM_HELD_H

#include "inner.h"
#include "log.h"
#include "places.h"
#include "shared.h"
#include "wrappers.h"

enum { MOST_HELD = 8, /* the grants of further mutexes are put */
       MOST_UNCOUNTED = 1024 /* calls of a thread that aren't put */ };

struct held {
    const pthread_mutex_t *mutex;
    uint64_t place;        /* in the code, of the call */
    uint64_t time, number; /* of the grant; the number is there if numbers are counted */
    uint32_t took;         /* nanoseconds of the call */
    uint32_t requests;     /* of the mutex, as the call began */
    uint16_t detail;
    uint8_t call;
};

/* What is known of a lock before it is made. */
struct asked {
    uint64_t began;
    uint32_t requests; /* of the mutex, by then */
    bool is_put;       /* a REQUEST is */
};

/* The upper half of a count has the requests of a mutex, or of several, the lower one the threads
 * that wait. */
extern HIDDEN _Atomic uint64_t *held_counts; /* NULL: all is recorded */
extern HIDDEN __thread struct held held[MOST_HELD]; /* in the order of their grants */

/* Has only what is waited for recorded, if the C library shows who waits. */
void held_start(struct shared *in);

/* Says that the calling thread will wait for an owned mutex. Returns whether it is owned still:
 * then the owner learns of it before it releases the mutex, or while it does so. */
bool held_announce(const pthread_mutex_t *mutex);

/* Says that it has stopped waiting. */
void held_withdraw(const pthread_mutex_t *mutex);

static inline bool held_is_on(void) {
    return __builtin_expect(held_counts != NULL, 0);
}

static inline _Atomic uint64_t *held_count_of(const pthread_mutex_t *mutex) {
    uint64_t hash = (uintptr_t)mutex * UINT64_C(0x9e3779b97f4a7c15);
    return &held_counts[(hash >> 32) % REQUEST_COUNTS];
}

/* Returns how many requests there were. */
static inline uint32_t held_requests(const pthread_mutex_t *mutex) {
    return (uint32_t)(atomic_load_explicit(held_count_of(mutex), memory_order_relaxed) >> 32);
}

/* Returns whether there were others than so many, or a thread waits. */
static inline bool held_is_requested(const pthread_mutex_t *mutex, uint32_t requests) {
    uint64_t count = atomic_load_explicit(held_count_of(mutex), memory_order_relaxed);
    return count != (uint64_t)requests << 32;
}

/* Orders a change of a mutex's word before or behind one of its count: a thread that announces
 * itself sees that the mutex is released, or the owner sees that it did. */
static inline void held_order(void) {
#ifdef __x86_64__
    atomic_signal_fence(memory_order_seq_cst); /* each change is by a locked instruction */
#else
    atomic_thread_fence(memory_order_seq_cst);
#endif
}

/* Counts a call that isn't put. Between log_enter and log_end. */
static inline void held_count_left_out(void) {
    log_cursor.is_behind = true;
    if (__builtin_expect(++log_cursor.uncounted == MOST_UNCOUNTED, 0)) log_count_left_out();
}

/* Counts a call that isn't put. */
static inline void held_leave_out(void) {
    if (!log_enter()) {
        log_leave_out();
        return;
    }
    held_count_left_out();
    log_end();
}

/* Keeps a grant of now that nobody waited for, or waits for. Returns false if it is to be put. */
static inline bool held_keep(const pthread_mutex_t *mutex, enum call call, const uintptr_t *caller,
                             const struct asked *asked) {
    uint16_t detail = inner_detail(mutex);
    bool is_first = !(detail & DETAIL_PROTECT) && !inner_has_waiters(mutex) &&
                    !held_is_requested(mutex, asked->requests);
    if (!is_first || !log_enter()) return false;
    bool has_room = log_cursor.held < MOST_HELD;
    if (has_room) {
        struct held *kept = &held[log_cursor.held++];
        kept->mutex = mutex;
        kept->place = wrappers_are_known ? places_caller(caller) : *caller;
        kept->time = clock_time();
        kept->took = log_saturated(kept->time - asked->began);
        if (__builtin_expect(log_step != 0, 0))
            kept->number =
                atomic_load_explicit(&log_header->next_number, memory_order_relaxed) - 1;
        kept->requests = asked->requests;
        kept->detail = detail;
        kept->call = (uint8_t)call;
        log_cursor.is_behind = true;
    }
    log_end();
    return has_room;
}

/* Returns the last grant of a mutex that is kept and that nobody has waited for, or NULL. Between
 * log_enter and log_end, as held_forget. */
static inline struct held *held_find(const pthread_mutex_t *mutex) {
    unsigned at = log_cursor.held;
    while (at > 0 && held[at - 1].mutex != mutex) at--;
    bool is_kept = at > 0 && !inner_has_waiters(mutex) &&
                   !held_is_requested(mutex, held[at - 1].requests);
    return is_kept ? &held[at - 1] : NULL;
}

static inline void held_forget(struct held *forgotten) {
    const struct held *last = &held[--log_cursor.held];
    for (; forgotten < last; forgotten++) forgotten[0] = forgotten[1];
}

#endif
