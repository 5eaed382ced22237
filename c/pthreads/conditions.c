/* Condition variables: those who wait are kept here, and the memory of the variable is glibc's. A
 * thread that gets a signal asks for its mutex immediately, and is woken when it owns it. */
#include "shim.h"

static _Atomic uint32_t sleepers; /* at all condition variables */
static uint64_t tickets;

static bool is_before(const struct thread *a, const struct thread *b) {
    int above = pim_effective_prio(&locks, a->number) - pim_effective_prio(&locks, b->number);
    return above != 0 ? above > 0 : a->ticket < b->ticket;
}

static struct thread *first_at(const pthread_cond_t *condition) {
    struct thread *first = NULL;
    for (struct thread *it = threads; it <= threads + TASKS; it++)
        if (it->condition == condition && (first == NULL || is_before(it, first))) first = it;
    return first;
}

/* Asks for the mutex of a thread that sleeps no more. */
static int rise(struct thread *thread) {
    thread->condition = NULL;
    atomic_fetch_sub(&sleepers, 1);
    return request(thread->mutex, thread, true);
}

/* Returns how many threads got the signal. */
static int pass_signals(const pthread_cond_t *condition, int most) {
    struct thread *thread;
    int count = 0;
    if (atomic_load(&sleepers) == 0) return 0;
    enter();
    for (; count < most && (thread = first_at(condition)) != NULL; count++) {
        int error = rise(thread);
        if (error != EINPROGRESS) wake(thread, error);
    }
    leave();
    return count;
}

EXPORTED int pthread_cond_signal(pthread_cond_t *condition) {
    return pass_signals(condition, 1) != 0 ? 0 : GLIBC(pthread_cond_signal)(condition);
}

EXPORTED int pthread_cond_broadcast(pthread_cond_t *condition) {
    pass_signals(condition, TASKS);
    return GLIBC(pthread_cond_broadcast)(condition);
}

/* Registers the caller at the condition variable, and unlocks its mutex. */
static int sleep_at(const pthread_cond_t *condition, struct mutex *mutex) {
    if (!is_owner(mutex, me)) return EPERM;
    me->relocks = mutex->relocks;
    mutex->relocks = 0;
    mutex->sleepers++;
    atomic_store(&me->is_woken, 0);
    me->mutex = mutex;
    me->ticket = ++tickets;
    me->condition = condition;
    atomic_fetch_add(&sleepers, 1);
    if (!disown_fast(mutex)) release(mutex, me);
    return 0;
}

/* Waits until the caller owns the mutex again, as often as before. Returns whether it got a signal. */
static bool take_again(int *error) {
    enter();
    bool is_signalled = me->condition == NULL;
    *error = is_signalled ? EINPROGRESS : rise(me);
    leave();
    if (*error == EINPROGRESS) *error = block(CLOCK_REALTIME, NULL);
    if (*error == 0) me->mutex->relocks = me->relocks;
    me->mutex->sleepers--;
    return is_signalled;
}

/* Takes the mutex for the cleanup of a cancelled thread, whose signal is another one's. */
static void cancelled(void *condition) {
    int error;
    if (take_again(&error)) pthread_cond_signal(condition);
}

static int wait_until(pthread_cond_t *condition, pthread_mutex_t *mutex, clockid_t clock, const struct timespec *until) {
    int type, error_of_mutex;
    if (error_of_time(until) != 0) return EINVAL; /* and the mutex isn't unlocked */
    enter();
    int error = sleep_at(condition, (struct mutex *)mutex);
    leave();
    if (error != 0) return error;
    pthread_cleanup_push(cancelled, condition);
    pthread_setcanceltype(PTHREAD_CANCEL_ASYNCHRONOUS, &type);
    error = block(clock, until);
    pthread_setcanceltype(type, NULL);
    pthread_cleanup_pop(0);
    bool is_signalled = take_again(&error_of_mutex);
    return error_of_mutex != 0 || is_signalled ? error_of_mutex : error;
}

EXPORTED int pthread_cond_wait(pthread_cond_t *condition, pthread_mutex_t *mutex) {
    if (is_glibc(mutex)) return GLIBC(pthread_cond_wait)(condition, mutex);
    return wait_until(condition, mutex, CLOCK_REALTIME, NULL);
}

EXPORTED int pthread_cond_timedwait(pthread_cond_t *condition, pthread_mutex_t *mutex, const struct timespec *until) {
    bool is_monotonic = (condition->__data.__wrefs & 2) != 0; /* glibc keeps the clock there */
    return pthread_cond_clockwait(condition, mutex, is_monotonic ? CLOCK_MONOTONIC : CLOCK_REALTIME, until);
}

EXPORTED int pthread_cond_clockwait(pthread_cond_t *condition, pthread_mutex_t *mutex, clockid_t clock,
                                    const struct timespec *until) {
    if (is_glibc(mutex)) return GLIBC(pthread_cond_clockwait)(condition, mutex, clock, until);
    if (clock != CLOCK_REALTIME && clock != CLOCK_MONOTONIC) return EINVAL;
    return wait_until(condition, mutex, clock, until);
}
