/* The guard, and how threads are blocked and woken: futexes of the kernel.
 *
 * The guard inherits priorities (FUTEX_LOCK_PI). A thread that lowers itself within it may be
 * preempted at that moment; as soon as a higher thread asks for the guard, it goes on. */
#include "shim.h"

#include <linux/futex.h>
#include <stdlib.h>
#include <sys/syscall.h>
#include <unistd.h>

static _Atomic uint32_t guard; /* the kernel's number of the thread that has it, or 0 */
static OWN pid_t id;

static long futex(_Atomic uint32_t *word, int operation, uint32_t value, const struct timespec *until) {
    return syscall(SYS_futex, word, operation, value, until, NULL, FUTEX_BITSET_MATCH_ANY);
}

pid_t own_id(void) {
    if (id == 0) id = (pid_t)syscall(SYS_gettid);
    return id;
}

void enter(void) {
    uint32_t none = 0;
    if (atomic_compare_exchange_strong(&guard, &none, (uint32_t)own_id())) return;
    while (futex(&guard, FUTEX_LOCK_PI_PRIVATE, 0, NULL) != 0)
        if (errno != EAGAIN) abort();
}

void leave(void) {
    uint32_t own = (uint32_t)own_id();
    if (!atomic_compare_exchange_strong(&guard, &own, 0)) futex(&guard, FUTEX_UNLOCK_PI_PRIVATE, 0, NULL);
}

void leave_in_child(void) {
    id = 0;
    atomic_store(&guard, 0);
}

void wake(struct thread *thread, int result) {
    thread->result = result;
    atomic_store(&thread->is_woken, 1);
    futex(&thread->is_woken, FUTEX_WAKE_PRIVATE, 1, NULL);
}

int error_of_time(const struct timespec *until) {
    return until != NULL && (until->tv_nsec < 0 || until->tv_nsec >= 1000000000) ? EINVAL : 0;
}

/* Blocks the caller until it is woken, or the time is out. */
int block(clockid_t clock, const struct timespec *until) {
    int operation = FUTEX_WAIT_BITSET_PRIVATE | (clock == CLOCK_REALTIME ? FUTEX_CLOCK_REALTIME : 0);
    if (error_of_time(until) != 0) return EINVAL;
    while (atomic_load(&me->is_woken) == 0) {
        if (until != NULL && until->tv_sec < 0) return ETIMEDOUT;
        if (futex(&me->is_woken, operation, 0, until) != 0 && errno == ETIMEDOUT) return ETIMEDOUT;
    }
    return me->result;
}
