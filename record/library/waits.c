/* Waits for what isn't a mutex: semaphores, read-write locks, barriers and ends of threads; and the
 * calls that end such waits, or those at condition variables. What can be had at once is tried
 * first, and isn't put. errno is as the plain call leaves it. */
#define _GNU_SOURCE
#include "places.h"
#include "recorder.h"

#include <errno.h>
#include <semaphore.h>

/* A wait whose WAIT is put, unless a handler interrupted the recorder. */
struct wait {
    uint64_t object; /* with the place */
    uint64_t began;
    enum kind kind;
    bool is_put;
};

/* Puts a WAIT of now. */
static struct wait begin_wait(enum kind kind, uintptr_t object, const uintptr_t *caller) {
    struct wait wait = { .kind = kind };
    if (!log_begin()) return wait;
    wait.object = places_object(object, caller);
    wait.began = clock_time();
    wait.is_put = true;
    log_write((struct record){ .event = EVENT_WAIT,
                               .object = wait.object,
                               .detail = (uint16_t)kind,
                               .time = wait.began });
    log_end();
    return wait;
}

/* Puts what the call returned, and how long it took. Returns that. What was waited for may be gone,
 * so that it isn't read. */
static int end_wait(const struct wait *wait, int error) {
    if (!wait->is_put || !log_begin()) return error;
    uint64_t time = clock_time();
    log_write((struct record){ .event = EVENT_WAITED,
                               .how = (uint8_t)error,
                               .object = wait->object,
                               .value = log_saturated(time - wait->began),
                               .detail = (uint16_t)wait->kind,
                               .time = time });
    log_end();
    thread_took(time - wait->began);
    return error;
}

/* Puts a GIVE. It comes before the call: a thread that is woken may free the memory. */
static void give(enum kind kind, const void *object, unsigned how, const uintptr_t *caller) {
    places_put(caller, (struct record){ .event = EVENT_GIVE,
                                       .how = (uint8_t)how,
                                       .object = (uintptr_t)object,
                                       .detail = (uint16_t)kind });
}

/* glibc refuses other times and clocks also where there is nothing to wait for. */
static bool is_time(const struct timespec *time) {
    return time->tv_nsec >= 0 && time->tv_nsec < 1000000000;
}

static bool is_clock(clockid_t clock) {
    return clock == CLOCK_REALTIME || clock == CLOCK_MONOTONIC;
}

/* ---- semaphores ---- */

static bool takes(sem_t *semaphore) {
    int error = errno;
    if (!recorder_tries) return false;
    if (real.sem_trywait(semaphore) == 0) return true;
    errno = error;
    return false;
}

/* Such a call returns -1 where it fails, and errno has the error. */
static int end_semaphore(const struct wait *wait, int result) {
    end_wait(wait, result ? errno : 0);
    return result;
}

/* As glibc's, this acts on a cancellation also where the semaphore can be had at once. */
EXPORT int sem_wait(sem_t *semaphore) {
    if (!is_recorded()) return real.sem_wait(semaphore);
    pthread_testcancel();
    if (takes(semaphore)) return 0;
    struct wait wait = begin_wait(KIND_SEMAPHORE, (uintptr_t)semaphore, CALLER);
    return end_semaphore(&wait, real.sem_wait(semaphore));
}

EXPORT int sem_timedwait(sem_t *semaphore, const struct timespec *until) {
    if (!is_recorded() || !is_time(until)) return real.sem_timedwait(semaphore, until);
    pthread_testcancel();
    if (takes(semaphore)) return 0;
    struct wait wait = begin_wait(KIND_SEMAPHORE, (uintptr_t)semaphore, CALLER);
    return end_semaphore(&wait, real.sem_timedwait(semaphore, until));
}

/* glibc's acts on a cancellation only where it waits. */
EXPORT int sem_clockwait(sem_t *semaphore, clockid_t clock, const struct timespec *until) {
    if (!is_recorded() || !is_clock(clock) || !is_time(until))
        return real.sem_clockwait(semaphore, clock, until);
    if (takes(semaphore)) return 0;
    struct wait wait = begin_wait(KIND_SEMAPHORE, (uintptr_t)semaphore, CALLER);
    return end_semaphore(&wait, real.sem_clockwait(semaphore, clock, until));
}

/* May be called in a signal's handler, also in one that has interrupted the recorder. */
EXPORT int sem_post(sem_t *semaphore) {
    if (is_recorded()) give(KIND_SEMAPHORE, semaphore, 0, CALLER);
    return real.sem_post(semaphore);
}

/* ---- read-write locks ---- */

/* Defines a function that locks such a lock. One that can be had at once, by `tried`, is no wait;
 * nor is one to a time or by a clock that glibc refuses. */
#define LOCKS(name, tried, kind, is_valid, arguments, ...)                         \
    EXPORT int pthread_rwlock_##name(pthread_rwlock_t *lock, ##__VA_ARGS__) {     \
        if (!is_recorded() || !(is_valid)) return real.rwlock_##name arguments;   \
        log_look_ahead();                                                         \
        if (real.rwlock_##tried(lock) == 0) return 0;                             \
        struct wait wait = begin_wait(kind, (uintptr_t)lock, CALLER);             \
        return end_wait(&wait, real.rwlock_##name arguments);                     \
    }

LOCKS(rdlock, tryrdlock, KIND_READ, true, (lock))
LOCKS(wrlock, trywrlock, KIND_WRITE, true, (lock))
LOCKS(timedrdlock, tryrdlock, KIND_READ, is_time(until), (lock, until),
      const struct timespec *until)
LOCKS(timedwrlock, trywrlock, KIND_WRITE, is_time(until), (lock, until),
      const struct timespec *until)
LOCKS(clockrdlock, tryrdlock, KIND_READ, is_clock(clock) && is_time(until), (lock, clock, until),
      clockid_t clock, const struct timespec *until)
LOCKS(clockwrlock, trywrlock, KIND_WRITE, is_clock(clock) && is_time(until), (lock, clock, until),
      clockid_t clock, const struct timespec *until)

/* Which of the two kinds it is isn't known. */
EXPORT int pthread_rwlock_unlock(pthread_rwlock_t *lock) {
    if (is_recorded()) give(KIND_READ, lock, 0, CALLER);
    return real.rwlock_unlock(lock);
}

/* ---- barriers ---- */

/* Which thread is the last isn't known before. */
EXPORT int pthread_barrier_wait(pthread_barrier_t *barrier) {
    if (!is_recorded()) return real.barrier_wait(barrier);
    struct wait wait = begin_wait(KIND_BARRIER, (uintptr_t)barrier, CALLER);
    int result = real.barrier_wait(barrier);
    end_wait(&wait, result == PTHREAD_BARRIER_SERIAL_THREAD ? 0 : result);
    return result;
}

/* ---- ends of threads ---- */

static int try_join(pthread_t thread, void **result) {
    return recorder_tries ? real.tryjoin(thread, result) : EBUSY;
}

EXPORT int pthread_join(pthread_t thread, void **result) {
    if (!is_recorded()) return real.join(thread, result);
    int error = try_join(thread, result);
    if (error != EBUSY) return error;
    struct wait wait = begin_wait(KIND_THREAD, (uintptr_t)thread, CALLER);
    return end_wait(&wait, real.join(thread, result));
}

EXPORT int pthread_timedjoin_np(pthread_t thread, void **result, const struct timespec *until) {
    if (!is_recorded()) return real.timedjoin(thread, result, until);
    int error = try_join(thread, result);
    if (error != EBUSY) return error;
    struct wait wait = begin_wait(KIND_THREAD, (uintptr_t)thread, CALLER);
    return end_wait(&wait, real.timedjoin(thread, result, until));
}

EXPORT int pthread_clockjoin_np(pthread_t thread, void **result, clockid_t clock,
                                const struct timespec *until) {
    if (!is_recorded() || !is_clock(clock)) return real.clockjoin(thread, result, clock, until);
    int error = try_join(thread, result);
    if (error != EBUSY) return error;
    struct wait wait = begin_wait(KIND_THREAD, (uintptr_t)thread, CALLER);
    return end_wait(&wait, real.clockjoin(thread, result, clock, until));
}

/* ---- condition variables ---- */

/* These two aren't recorded. A caller that was linked without the C library, as a part of valgrind's
 * drd, gets the oldest form of each of its functions. The recorder calls the newest form of those
 * that it records, and another form may not have initialised all that this one reads. */
EXPORT int pthread_cond_init(pthread_cond_t *condition, const pthread_condattr_t *attributes) {
    recorder_find();
    return real.cond_init(condition, attributes);
}

EXPORT int pthread_cond_destroy(pthread_cond_t *condition) {
    recorder_find();
    return real.cond_destroy(condition);
}

EXPORT int pthread_cond_signal(pthread_cond_t *condition) {
    if (is_recorded()) give(KIND_CONDITION, condition, 0, CALLER);
    return real.cond_signal(condition);
}

EXPORT int pthread_cond_broadcast(pthread_cond_t *condition) {
    if (is_recorded()) give(KIND_CONDITION, condition, TO_ALL, CALLER);
    return real.cond_broadcast(condition);
}
