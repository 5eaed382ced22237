/* Mutexes.
 *
 * An uncontended mutex of protocol NONE or INHERIT is locked and unlocked by one instruction on its
 * owner, without the guard and without libpim. Why that is sound: to own a mutex for which nobody
 * waits changes no priority, and closes no cycle of waits. So libpim has to know the owner only
 * before somebody waits for the mutex. It learns it by pim_adopt, in the step of the guard in which
 * the first waiter asks, and answers from then on as if it had known it all the time. That is always
 * granted, whether the owner waits or not, as the mutex is free for libpim.
 *
 * The flag KNOWN in the owner orders the two: the owner's unlock without libpim fails if the flag is
 * set, and the flag is set only if the mutex was not unlocked before. */
#include "shim.h"

#include <pim_errno.h>

_Static_assert(offsetof(struct mutex, kind) == offsetof(pthread_mutex_t, __data.__kind), "the kind");

/* ---- numbers ---- */

static struct mutex *lent_to[MUTEXES + 1];

/* Lends the mutex a number, for its protocol. Returns whether one was left. */
static bool lend_number(struct mutex *mutex) {
    uint16_t kind = mutex->kind & INHERIT ? PIM_INHERIT : mutex->kind & PROTECT ? PIM_PROTECT : PIM_NONE;
    uint16_t n = 1;
    while (n <= MUTEXES && lent_to[n] != NULL) n++;
    if (n > MUTEXES) return false;
    lent_to[n] = mutex;
    mutex->number = n;
    pim_set_protocol(&locks, n, kind, mutex->ceiling);
    return true;
}

/* Takes the number back, and says who owns the mutex then. Another thread may free its memory as
 * soon as nobody owns it. */
static void take_back(struct mutex *mutex, uint32_t owner) {
    lent_to[mutex->number] = NULL;
    atomic_store(&mutex->owner, owner);
}

/* ---- without libpim ---- */

static bool own_fast(struct mutex *mutex, struct thread *thread) {
    uint32_t none = 0;
    if (thread->fast_count == FAST || (mutex->kind & ~(TYPE | INHERIT)) != 0) return false;
    if (!atomic_compare_exchange_strong(&mutex->owner, &none, thread->number)) return false;
    thread->fast[thread->fast_count++] = mutex;
    return true;
}

static void forget(struct mutex *mutex, struct thread *thread) {
    int i = thread->fast_count - 1;
    while (i >= 0 && thread->fast[i] != mutex) i--;
    if (i >= 0) thread->fast[i] = thread->fast[--thread->fast_count];
}

/* Unlocks a mutex that the caller owns, unless libpim knows it. Returns whether it did. */
bool disown_fast(struct mutex *mutex) {
    uint32_t own = me->number;
    forget(mutex, me);
    return atomic_compare_exchange_strong(&mutex->owner, &own, 0);
}

/* ---- with libpim, within the guard ---- */

/* Makes libpim know who owns the mutex. Afterwards nobody locks or unlocks it without libpim. Returns
 * whether a number was left. */
static bool make_known(struct mutex *mutex) {
    uint32_t owner = atomic_load(&mutex->owner);
    if (owner & KNOWN) return true;
    if (!lend_number(mutex)) return false;
    while (!atomic_compare_exchange_weak(&mutex->owner, &owner, owner | KNOWN)) continue;
    if (owner != 0) pim_adopt(&locks, (uint16_t)owner, mutex->number);
    return true;
}

/* Makes libpim know of all that the thread owns. Returns whether there were numbers for it. */
static bool register_owned(struct thread *thread) {
    for (; thread->fast_count > 0; thread->fast_count--)
        if (!make_known(thread->fast[thread->fast_count - 1])) return false;
    return true;
}

/* Asks for the mutex in the name of a thread that doesn't wait: of the caller, or of one that got a
 * signal. Returns 0 if the thread owns it then, EINPROGRESS if it waits, or an error. */
int request(struct mutex *mutex, struct thread *thread, bool may_wait) {
    atomic_store(&thread->is_woken, 0);
    if (own_fast(mutex, thread)) return 0;
    uint32_t owner = atomic_load(&mutex->owner) & ~KNOWN;
    if (!may_wait && owner != 0) return EBUSY;
    if (owner == GONE || owner == thread->number) return EINPROGRESS; /* for ever */
    if (!make_known(mutex)) return EAGAIN;
    bool is_free = pim_owner(&locks, mutex->number) == 0;
    struct pim_answer answer = (may_wait ? pim_lock : pim_try)(&locks, thread->number, mutex->number);
    if (answer.kind == PIM_GRANTED) atomic_store(&mutex->owner, thread->number | KNOWN);
    else if (is_free) take_back(mutex, 0);
    apply_changes();
    return answer.kind == PIM_QUEUED ? EINPROGRESS : pim_errno(answer.refusal);
}

/* Unlocks a mutex that the thread owns, as libpim knows. */
void release(struct mutex *mutex, struct thread *thread) {
    struct pim_answer answer = pim_unlock(&locks, thread->number, mutex->number);
    bool is_handed = answer.kind == PIM_HANDED;
    if (is_handed) atomic_store(&mutex->owner, answer.number | KNOWN);
    else take_back(mutex, 0);
    if (is_handed) wake(&threads[answer.number], 0);
    apply_changes();
}

/* Leaves what an ending thread still owns without an owner. Returns whether the thread owns nothing
 * then for libpim: it still does if others wait. */
bool release_gone(struct thread *thread) {
    struct pim_waiter waiter;
    bool owns_nothing = register_owned(thread);
    for (uint16_t n = 1; n <= MUTEXES; n++) {
        if (pim_owner(&locks, n) != thread->number) continue;
        if (pim_waiters(&locks, n, &waiter, 1) > 0) {
            owns_nothing = false;
        } else {
            pim_unlock(&locks, thread->number, n);
            take_back(lent_to[n], GONE);
        }
    }
    apply_changes();
    return owns_nothing;
}

/* ---- the functions of pthread.h ---- */

/* Returns the caller's answer to a mutex that it owns already. */
static int lock_again(struct mutex *mutex, bool may_wait) {
    int type = mutex->kind & TYPE;
    if (type != PTHREAD_MUTEX_RECURSIVE)
        return !may_wait ? EBUSY : type == PTHREAD_MUTEX_ERRORCHECK ? EDEADLK : EINPROGRESS;
    if (mutex->relocks == UINT32_MAX) return EAGAIN;
    mutex->relocks++;
    return 0;
}

/* Locks the mutex. If it has to wait and may, it waits until the time is out. */
static int lock(struct mutex *mutex, bool may_wait, clockid_t clock, const struct timespec *until) {
    if (me != NULL && own_fast(mutex, me)) return 0;
    int error = is_owner(mutex, me) ? lock_again(mutex, may_wait) : EINPROGRESS;
    if (error != EINPROGRESS) return error;
    enter();
    error = caller() != NULL ? request(mutex, me, may_wait) : EAGAIN;
    leave();
    if (error != EINPROGRESS) return error;
    error = block(clock, until);
    if (error == 0) return 0;
    enter();
    if (atomic_load(&me->is_woken)) error = me->result; /* it was handed the mutex just in time */
    else if (pim_cancel(&locks, me->number, me->number).kind == PIM_WITHDRAWN) apply_changes();
    leave();
    return error;
}

EXPORTED int pthread_mutex_lock(pthread_mutex_t *mutex) {
    if (is_glibc(mutex)) return GLIBC(pthread_mutex_lock)(mutex);
    return lock((struct mutex *)mutex, true, CLOCK_REALTIME, NULL);
}

EXPORTED int pthread_mutex_trylock(pthread_mutex_t *mutex) {
    if (is_glibc(mutex)) return GLIBC(pthread_mutex_trylock)(mutex);
    return lock((struct mutex *)mutex, false, CLOCK_REALTIME, NULL);
}

EXPORTED int pthread_mutex_timedlock(pthread_mutex_t *mutex, const struct timespec *until) {
    return pthread_mutex_clocklock(mutex, CLOCK_REALTIME, until);
}

EXPORTED int pthread_mutex_clocklock(pthread_mutex_t *mutex, clockid_t clock, const struct timespec *until) {
    if (is_glibc(mutex)) return GLIBC(pthread_mutex_clocklock)(mutex, clock, until);
    if (clock != CLOCK_REALTIME && clock != CLOCK_MONOTONIC) return EINVAL;
    return lock((struct mutex *)mutex, true, clock, until);
}

EXPORTED int pthread_mutex_unlock(pthread_mutex_t *mutex) {
    struct mutex *m = (struct mutex *)mutex;
    if (is_glibc(mutex)) return GLIBC(pthread_mutex_unlock)(mutex);
    if (!is_owner(m, me)) return EPERM;
    if (m->relocks > 0) {
        m->relocks--;
        return 0;
    }
    if (disown_fast(m)) return 0;
    enter();
    release(m, me);
    leave();
    return 0;
}

/* glibc's function sets the kind. */
EXPORTED int pthread_mutex_init(pthread_mutex_t *mutex, const pthread_mutexattr_t *attributes) {
    struct mutex *m = (struct mutex *)mutex;
    int ceiling = 0, error = GLIBC(pthread_mutex_init)(mutex, attributes);
    if (error != 0 || is_glibc(mutex)) return error;
    int kind = m->kind & (TYPE | INHERIT | PROTECT);
    if (kind & PROTECT) pthread_mutexattr_getprioceiling(attributes, &ceiling);
    *m = (struct mutex){ .kind = kind, .ceiling = (uint16_t)ceiling };
    return 0;
}

/* As glibc, makes the mutex one of an unknown kind, which its functions refuse. */
EXPORTED int pthread_mutex_destroy(pthread_mutex_t *mutex) {
    struct mutex *m = (struct mutex *)mutex;
    if (is_glibc(mutex)) return GLIBC(pthread_mutex_destroy)(mutex);
    if (atomic_load(&m->owner) != 0 || m->sleepers != 0) return EBUSY;
    m->kind = -1;
    return 0;
}

EXPORTED int pthread_mutex_getprioceiling(const pthread_mutex_t *mutex, int *ceiling) {
    const struct mutex *m = (const struct mutex *)mutex;
    if (is_glibc(mutex)) return GLIBC(pthread_mutex_getprioceiling)(mutex, ceiling);
    if (!(m->kind & PROTECT)) return EINVAL;
    *ceiling = m->ceiling;
    return 0;
}

/* Locks the mutex to set its ceiling, as POSIX has it, by the protocol of its old ceiling. */
EXPORTED int pthread_mutex_setprioceiling(pthread_mutex_t *mutex, int ceiling, int *old) {
    struct mutex *m = (struct mutex *)mutex;
    if (is_glibc(mutex)) return GLIBC(pthread_mutex_setprioceiling)(mutex, ceiling, old);
    if (!(m->kind & PROTECT) || ceiling < 1 || ceiling > 99) return EINVAL;
    int error = pthread_mutex_lock(mutex);
    if (error != 0) return error;
    enter();
    pim_set_ceiling(&locks, me->number, m->number, (uint16_t)ceiling);
    apply_changes();
    *old = m->ceiling;
    m->ceiling = (uint16_t)ceiling;
    leave();
    return pthread_mutex_unlock(mutex);
}
