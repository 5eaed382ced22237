#define _GNU_SOURCE
#include "held.h"
#include "places.h"
#include "recorder.h"
#include "stacks.h"

#include <errno.h>

/* Returns a record of a mutex whose detail can be read. */
static struct record of_mutex(enum event event, unsigned how, const pthread_mutex_t *mutex) {
    return (struct record){ .event = (uint8_t)event,
                            .how = (uint8_t)how,
                            .object = (uintptr_t)mutex,
                            .detail = inner_detail(mutex) };
}

/* Returns a record of a mutex that may be gone, so that it isn't read. */
static struct record of_address(enum event event, unsigned how, const pthread_mutex_t *mutex) {
    return (struct record){
        .event = (uint8_t)event, .how = (uint8_t)how, .object = (uintptr_t)mutex };
}

/* ---- lock ---- */

static bool locks_again(const pthread_mutex_t *mutex, uint32_t owner) {
    return (inner_detail(mutex) & DETAIL_TYPE) == DETAIL_RECURSIVE && owner == log_cursor.task;
}

/* Puts a REQUEST, with the stack if that is wanted, and when the call began. Returns whether it
 * did. */
static bool put_request(const pthread_mutex_t *mutex, enum call call, const uintptr_t *caller,
                        uint64_t *time) {
    struct record record = of_mutex(EVENT_REQUEST, call, mutex);
    record.value = inner_owner(mutex);
    if (!log_begin()) return false;
    record.time = *time = clock_time();
    log_write(places_at(caller, record));
    if (stacks_are_on) stacks_put(*caller, record.time);
    log_end();
    return true;
}

/* The same with --contended, unless the mutex was released meanwhile. */
static bool announce_request(const pthread_mutex_t *mutex, enum call call, const uintptr_t *caller,
                             uint64_t *time) {
    if (!held_announce(mutex)) return false;
    bool is_put = put_request(mutex, call, caller, time);
    if (!is_put) held_withdraw(mutex);
    return is_put;
}

/* Asks for an owned mutex, unless it is the thread's own, which may lock it again. */
static __attribute__((noinline)) bool request_owned(const pthread_mutex_t *mutex, enum call call,
                                                    const uintptr_t *caller, uint64_t *time) {
    if (locks_again(mutex, inner_owner(mutex))) return false;
    return held_is_on() ? announce_request(mutex, call, caller, time)
                        : put_request(mutex, call, caller, time);
}

/* Puts a REQUEST where the mutex is owned. Returns when the call began. */
static inline struct asked request(const pthread_mutex_t *mutex, enum call call,
                                   const uintptr_t *caller) {
    log_look_ahead();
    struct asked asked = { .began = clock_time() };
    if (!(inner_known & KNOWN_OWNER))
        log_leave_out();
    else if (inner_is_owned(mutex))
        asked.is_put = request_owned(mutex, call, caller, &asked.began);
    if (held_is_on()) asked.requests = held_requests(mutex);
    return asked;
}

static void put_answer(const pthread_mutex_t *mutex, enum call call, const uintptr_t *caller,
                       uint64_t began, int error) {
    if (!log_begin()) return;
    uint64_t time = clock_time();
    bool is_granted = error == 0 || error == EOWNERDEAD;
    struct record record = is_granted ? of_mutex(EVENT_GRANTED, call, mutex)
                                      : of_address(EVENT_FAILED, (unsigned)error, mutex);
    if (error == EOWNERDEAD) record.how |= OWNER_DIED;
    if (record.detail & DETAIL_PROTECT) log_cursor.has_ceiling = true;
    record.time = time;
    record.value = log_saturated(time - began);
    log_write(places_at(caller, record));
    log_end();
    thread_took(time - began);
}

/* Returns whether an answer isn't to be put, or not yet: nobody has waited. */
static bool is_left_out(const pthread_mutex_t *mutex, enum call call, const uintptr_t *caller,
                        const struct asked *asked, int error) {
    if (!held_is_on() || asked->is_put) return false;
    if (error == 0) return held_keep(mutex, call, caller, asked);
    if (error != EBUSY) return false;
    held_leave_out();
    return true;
}

/* Puts what the call was answered, and how long it took. Returns the answer. A mutex that wasn't
 * granted may be gone. */
static int answer(const pthread_mutex_t *mutex, enum call call, const uintptr_t *caller,
                  struct asked asked, int error) {
    if (is_left_out(mutex, call, caller, &asked, error)) return error;
    put_answer(mutex, call, caller, asked.began, error);
    if (held_is_on() && asked.is_put) held_withdraw(mutex);
    return error;
}

EXPORT int pthread_mutex_lock(pthread_mutex_t *mutex) {
    if (!is_recorded()) return real.mutex_lock(mutex);
    struct asked asked = request(mutex, CALL_LOCK, CALLER);
    return answer(mutex, CALL_LOCK, CALLER, asked, real.mutex_lock(mutex));
}

EXPORT int pthread_mutex_timedlock(pthread_mutex_t *mutex, const struct timespec *until) {
    if (!is_recorded()) return real.mutex_timedlock(mutex, until);
    struct asked asked = request(mutex, CALL_TIMEDLOCK, CALLER);
    return answer(mutex, CALL_TIMEDLOCK, CALLER, asked, real.mutex_timedlock(mutex, until));
}

EXPORT int pthread_mutex_clocklock(pthread_mutex_t *mutex, clockid_t clock,
                                   const struct timespec *until) {
    if (!is_recorded()) return real.mutex_clocklock(mutex, clock, until);
    struct asked asked = request(mutex, CALL_CLOCKLOCK, CALLER);
    return answer(mutex, CALL_CLOCKLOCK, CALLER, asked, real.mutex_clocklock(mutex, clock, until));
}

EXPORT int pthread_mutex_trylock(pthread_mutex_t *mutex) {
    if (!is_recorded()) return real.mutex_trylock(mutex);
    log_look_ahead();
    struct asked asked = { .began = clock_time() };
    if (held_is_on()) asked.requests = held_requests(mutex);
    return answer(mutex, CALL_TRYLOCK, CALLER, asked, real.mutex_trylock(mutex));
}

/* ---- unlock ---- */

/* Releases a mutex whose grant is kept, and puts neither. Returns false where none is. A request
 * that comes meanwhile names the owner: only since when it owned the mutex isn't known. */
static bool release_held(pthread_mutex_t *mutex, int *error) {
    if (!log_enter()) return false;
    struct held *own = held_find(mutex);
    if (own) {
        *error = real.mutex_unlock(mutex);
        held_order();
        if (__builtin_expect(held_is_requested(mutex, own->requests), 0)) log_leave_out();
        if (*error == 0) held_forget(own);
        held_count_left_out();
    }
    log_end();
    return own != NULL;
}

/* Apart, so that the compiler writes an unlock's one other places_put where it is called. */
static __attribute__((noinline, cold)) void put_failed_release(const pthread_mutex_t *mutex,
                                                               const uintptr_t *caller, int error) {
    places_put(caller, of_address(EVENT_RELEASE_FAILED, (unsigned)error, mutex));
}

/* Another thread may destroy the mutex and free its memory once it is released: it isn't read
 * after that. */
EXPORT int pthread_mutex_unlock(pthread_mutex_t *mutex) {
    if (!is_recorded()) return real.mutex_unlock(mutex);
    int error;
    if (held_is_on() && release_held(mutex, &error)) return error;
    places_put(CALLER, of_mutex(EVENT_RELEASE, CALL_LOCK, mutex));
    error = real.mutex_unlock(mutex);
    if (error) put_failed_release(mutex, CALLER, error);
    return error;
}

/* ---- condition variables ---- */

/* A wait at a condition variable. All of its records have its place. */
struct wait {
    const pthread_mutex_t *mutex;
    const uintptr_t *caller;
    uint64_t began;
};

static void release_to_wait(const pthread_cond_t *condition, struct wait *of) {
    of->began = clock_time();
    struct record wait = { .event = EVENT_CONDITION, .object = (uintptr_t)condition };
    struct record release = of_mutex(EVENT_RELEASE, CALL_CONDITION, of->mutex);
    log_put_both(places_at(of->caller, wait), places_at(of->caller, release));
}

/* The mutex is relocked but after an error that comes before the wait, when it wasn't released, or
 * where its state can't be recovered. */
static int relocked(const struct wait *of, int error) {
    struct record record;
    if (error == 0 || error == ETIMEDOUT)
        record = of_mutex(EVENT_GRANTED, CALL_CONDITION, of->mutex);
    else if (error == EOWNERDEAD)
        record = of_mutex(EVENT_GRANTED, CALL_CONDITION | OWNER_DIED, of->mutex);
    else if (error == ENOTRECOVERABLE)
        record = of_address(EVENT_FAILED, (unsigned)error, of->mutex);
    else
        record = of_address(EVENT_RELEASE_FAILED, (unsigned)error, of->mutex);
    places_put(of->caller, record);
    thread_took(clock_time() - of->began);
    return error;
}

/* A thread that is cancelled in a wait relocks the mutex before its cleanup handlers run. */
static void cancelled(void *wait) {
    relocked(wait, 0);
}

EXPORT int pthread_cond_wait(pthread_cond_t *condition, pthread_mutex_t *mutex) {
    struct wait wait = { mutex, CALLER, 0 };
    int error;
    if (!is_recorded()) return real.cond_wait(condition, mutex);
    release_to_wait(condition, &wait);
    pthread_cleanup_push(cancelled, &wait);
    error = real.cond_wait(condition, mutex);
    pthread_cleanup_pop(0);
    return relocked(&wait, error);
}

EXPORT int pthread_cond_timedwait(pthread_cond_t *condition, pthread_mutex_t *mutex,
                                  const struct timespec *until) {
    struct wait wait = { mutex, CALLER, 0 };
    int error;
    if (!is_recorded()) return real.cond_timedwait(condition, mutex, until);
    release_to_wait(condition, &wait);
    pthread_cleanup_push(cancelled, &wait);
    error = real.cond_timedwait(condition, mutex, until);
    pthread_cleanup_pop(0);
    return relocked(&wait, error);
}

EXPORT int pthread_cond_clockwait(pthread_cond_t *condition, pthread_mutex_t *mutex,
                                  clockid_t clock, const struct timespec *until) {
    struct wait wait = { mutex, CALLER, 0 };
    int error;
    if (!is_recorded()) return real.cond_clockwait(condition, mutex, clock, until);
    release_to_wait(condition, &wait);
    pthread_cleanup_push(cancelled, &wait);
    error = real.cond_clockwait(condition, mutex, clock, until);
    pthread_cleanup_pop(0);
    return relocked(&wait, error);
}

/* ---- init, destroy, ceiling ---- */

EXPORT int pthread_mutex_init(pthread_mutex_t *mutex, const pthread_mutexattr_t *attributes) {
    bool is_told = is_recorded();
    int error = real.mutex_init(mutex, attributes);
    if (error || !is_told) return error;
    struct record init = of_address(EVENT_INIT, 0, mutex);
    init.detail = inner_detail_of_attributes(attributes);
    uint64_t place = places_caller(CALLER);
    log_put_both(init, (struct record){ .event = EVENT_PLACE, .object = place ? place : *CALLER });
    return 0;
}

/* The memory of a destroyed mutex may be another's at once, so the record comes before. */
EXPORT int pthread_mutex_destroy(pthread_mutex_t *mutex) {
    if (!is_recorded()) return real.mutex_destroy(mutex);
    log_put(of_address(EVENT_DESTROY, 0, mutex));
    int error = real.mutex_destroy(mutex);
    if (error) log_put(of_address(EVENT_DESTROY_FAILED, (unsigned)error, mutex));
    return error;
}

/* Puts a REQUEST where the mutex is owned. The C library locks and unlocks it within the call. */
static struct asked request_to_change(const pthread_mutex_t *mutex, const uintptr_t *caller) {
    struct asked asked = { .began = clock_time() };
    if (inner_known & KNOWN_OWNER && inner_is_owned(mutex))
        asked.is_put = request_owned(mutex, CALL_CEILING, caller, &asked.began);
    return asked;
}

static void put_ceiling(const pthread_mutex_t *mutex, unsigned type, int ceiling) {
    struct record record = of_address(EVENT_CEILING, 0, mutex);
    unsigned detail = (type & 0xffu) | DETAIL_KNOWN | DETAIL_PROTECT;
    record.detail = (uint16_t)(detail | ((unsigned)ceiling & 127) << 8);
    log_put(record);
}

EXPORT int pthread_mutex_setprioceiling(pthread_mutex_t *mutex, int ceiling, int *old) {
    if (!is_recorded()) return real.mutex_setprioceiling(mutex, ceiling, old);
    struct asked asked = request_to_change(mutex, CALLER);
    unsigned type = inner_detail(mutex);
    int error = real.mutex_setprioceiling(mutex, ceiling, old);
    if (error == 0)
        put_ceiling(mutex, type, ceiling);
    else if (asked.is_put)
        put_answer(mutex, CALL_CEILING, CALLER, asked.began, error);
    if (held_is_on() && asked.is_put) held_withdraw(mutex);
    return error;
}
