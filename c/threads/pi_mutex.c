#define _XOPEN_SOURCE 700 /* for pthread_mutexattr_setprotocol */
#include "pi_mutex.h"

#include "pim_errno.h"

#include <errno.h>
#include <pthread.h>
#include <sched.h>

struct thread {
    pthread_t self;
    bool is_registered;
    bool is_blocked;
    pthread_cond_t woken; /* is_blocked has become false */
};

static pthread_mutex_t guard; /* around all that follows */
static struct pim_handle locks = PIM_HANDLE_INIT;
static struct thread threads[PIM_MAX_TASKS + 1];
static bool is_scheduled;

/* Makes the guard a mutex that inherits. A thread that holds it may be preempted, by its own
 * lowering too, and then executes at the priority of the highest thread that asks for the guard. */
static int make_guard(void) {
    pthread_mutexattr_t attributes;
    int error = pthread_mutexattr_init(&attributes);
    if (error != 0) return error;
    error = pthread_mutexattr_setprotocol(&attributes, PTHREAD_PRIO_INHERIT);
    if (error == 0) error = pthread_mutex_init(&guard, &attributes);
    pthread_mutexattr_destroy(&attributes);
    return error;
}

/* ---- answers become priorities, blocking and waking ---- */

/* Gives a thread its effective priority, where the process may. */
static void run_at(uint16_t thread, uint16_t prio) {
    struct sched_param param = { .sched_priority = prio };
    if (!threads[thread].is_registered) return;
    is_scheduled = pthread_setschedparam(threads[thread].self, SCHED_FIFO, &param) == 0;
}

/* Gives each thread whose effective priority the last step changed its new one, and the caller last:
 * once it has lowered itself, a thread of medium priority may run in its place. So this follows
 * wake. */
static void apply_changes(uint16_t caller) {
    struct pim_changed_prio changed[PIM_MAX_TASKS];
    size_t count = pim_changed_prios(&locks, changed, PIM_MAX_TASKS);
    uint16_t own = 0;
    for (size_t i = 0; i < count; i++) {
        if (changed[i].task == caller) own = changed[i].prio;
        else run_at(changed[i].task, changed[i].prio);
    }
    if (own != 0) run_at(caller, own);
}

static void wake(uint16_t thread) {
    threads[thread].is_blocked = false;
    pthread_cond_signal(&threads[thread].woken);
}

/* Blocks the thread until it is woken or the time is out; without a time, until it is woken. */
static int block(uint16_t thread, const struct timespec *until) {
    struct thread *self = &threads[thread];
    int error = 0;
    self->is_blocked = true;
    while (self->is_blocked && error == 0)
        error = until ? pthread_cond_timedwait(&self->woken, &guard, until) : pthread_cond_wait(&self->woken, &guard);
    if (!self->is_blocked) return 0; /* it was handed the mutex, if only just in time */
    self->is_blocked = false;
    pim_cancel(&locks, thread, thread);
    apply_changes(thread);
    return error;
}

static int error_of(struct pim_answer answer) {
    if (answer.kind == PIM_NO_MANAGER) return EINVAL;
    return answer.kind == PIM_REFUSED ? pim_errno(answer.refusal) : 0;
}

/* ---- the functions ---- */

int pi_start(const uint16_t *bases, size_t count, const struct pim_protocol *protocols, size_t mutexes) {
    uint32_t fault = pim_make(&locks, bases, count, protocols, mutexes);
    if (fault != PIM_MADE) return fault == PIM_FAULT_NO_MEMORY ? ENOMEM : EINVAL;
    int error = make_guard();
    if (error != 0) {
        pim_drop(&locks);
        return error;
    }
    is_scheduled = false;
    for (size_t t = 1; t <= count; t++) {
        threads[t] = (struct thread){ .is_registered = false };
        pthread_cond_init(&threads[t].woken, NULL);
    }
    return 0;
}

void pi_end(void) {
    for (uint16_t t = pim_task_count(&locks); t >= 1; t--) pthread_cond_destroy(&threads[t].woken);
    pthread_mutex_destroy(&guard);
    pim_drop(&locks);
}

void pi_register(uint16_t thread) {
    pthread_mutex_lock(&guard);
    threads[thread].self = pthread_self();
    threads[thread].is_registered = true;
    run_at(thread, pim_effective_prio(&locks, thread));
    pthread_mutex_unlock(&guard);
}

int pi_timedlock(uint16_t thread, uint16_t mutex, const struct timespec *until) {
    pthread_mutex_lock(&guard);
    struct pim_answer answer = pim_lock(&locks, thread, mutex);
    int error = error_of(answer);
    apply_changes(thread);
    if (answer.kind == PIM_QUEUED) error = block(thread, until);
    pthread_mutex_unlock(&guard);
    return error;
}

int pi_lock(uint16_t thread, uint16_t mutex) {
    return pi_timedlock(thread, mutex, NULL);
}

int pi_trylock(uint16_t thread, uint16_t mutex) {
    pthread_mutex_lock(&guard);
    int error = error_of(pim_try(&locks, thread, mutex));
    apply_changes(thread);
    pthread_mutex_unlock(&guard);
    return error;
}

int pi_unlock(uint16_t thread, uint16_t mutex) {
    pthread_mutex_lock(&guard);
    struct pim_answer answer = pim_unlock(&locks, thread, mutex);
    if (answer.kind == PIM_HANDED) wake(answer.number);
    apply_changes(thread);
    pthread_mutex_unlock(&guard);
    return error_of(answer);
}

int pi_setschedprio(uint16_t thread, uint16_t target, uint16_t prio) {
    pthread_mutex_lock(&guard);
    int error = error_of(pim_set_base(&locks, thread, target, prio));
    apply_changes(thread);
    pthread_mutex_unlock(&guard);
    return error;
}

int pi_setprioceiling(uint16_t thread, uint16_t mutex, uint16_t ceiling, uint16_t *old) {
    pthread_mutex_lock(&guard);
    uint16_t before = pim_mutex_protocol(&locks, mutex).ceiling;
    int error = error_of(pim_set_ceiling(&locks, thread, mutex, ceiling));
    apply_changes(thread);
    if (error == 0 && old != NULL) *old = before;
    pthread_mutex_unlock(&guard);
    return error;
}

uint16_t pi_priority(uint16_t thread) {
    pthread_mutex_lock(&guard);
    uint16_t prio = pim_effective_prio(&locks, thread);
    pthread_mutex_unlock(&guard);
    return prio;
}

bool pi_is_waiting(uint16_t thread) {
    pthread_mutex_lock(&guard);
    uint16_t mutex = pim_waits_for(&locks, thread);
    pthread_mutex_unlock(&guard);
    return mutex != 0 && mutex != PIM_UNKNOWN;
}

bool pi_is_scheduled(void) {
    pthread_mutex_lock(&guard);
    bool scheduled = is_scheduled;
    pthread_mutex_unlock(&guard);
    return scheduled;
}
