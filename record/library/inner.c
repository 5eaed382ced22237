#define _GNU_SOURCE
#include "inner.h"

#include "real.h"

#include <errno.h>
#include <sys/syscall.h>
#include <unistd.h>

uint32_t inner_known;

uint16_t inner_detail_of_attributes(const pthread_mutexattr_t *attributes) {
    int protocol = PTHREAD_PRIO_NONE, type = PTHREAD_MUTEX_DEFAULT, ceiling = 0;
    int robust = PTHREAD_MUTEX_STALLED, shared = PTHREAD_PROCESS_PRIVATE;
    unsigned detail = DETAIL_KNOWN;
    if (!attributes) return (uint16_t)detail;
    pthread_mutexattr_getprotocol(attributes, &protocol);
    pthread_mutexattr_gettype(attributes, &type);
    pthread_mutexattr_getrobust(attributes, &robust);
    pthread_mutexattr_getpshared(attributes, &shared);
    if (type == PTHREAD_MUTEX_RECURSIVE) detail |= 1;
    if (type == PTHREAD_MUTEX_ERRORCHECK) detail |= 2;
    if (type == PTHREAD_MUTEX_ADAPTIVE_NP) detail |= 3;
    if (robust == PTHREAD_MUTEX_ROBUST) detail |= DETAIL_ROBUST;
    if (shared == PTHREAD_PROCESS_SHARED) detail |= DETAIL_SHARED;
    if (protocol == PTHREAD_PRIO_INHERIT) detail |= DETAIL_INHERIT;
    if (protocol != PTHREAD_PRIO_PROTECT) return (uint16_t)detail;
    pthread_mutexattr_getprioceiling(attributes, &ceiling);
    return (uint16_t)(detail | DETAIL_PROTECT | ((unsigned)ceiling & 127) << 8);
}

uint32_t inner_task(void) {
    pthread_mutex_t own = PTHREAD_MUTEX_INITIALIZER;
    uint32_t task = 0;
    if (inner_known & KNOWN_OWNER && real.mutex_lock(&own) == 0) {
        task = inner_owner(&own);
        real.mutex_unlock(&own);
    }
    return task ? task : (uint32_t)syscall(SYS_gettid);
}

/* ---- the test ---- */

/* Sets each attribute by the bits of a detail. A protocol that isn't supported stays NONE. */
static void set_attributes(pthread_mutexattr_t *attributes, unsigned detail) {
    static const int types[] = { PTHREAD_MUTEX_NORMAL, PTHREAD_MUTEX_RECURSIVE,
                                 PTHREAD_MUTEX_ERRORCHECK, PTHREAD_MUTEX_ADAPTIVE_NP };
    pthread_mutexattr_init(attributes);
    pthread_mutexattr_settype(attributes, types[detail & DETAIL_TYPE]);
    if (detail & DETAIL_ROBUST) pthread_mutexattr_setrobust(attributes, PTHREAD_MUTEX_ROBUST);
    if (detail & DETAIL_SHARED) pthread_mutexattr_setpshared(attributes, PTHREAD_PROCESS_SHARED);
    if (detail & DETAIL_INHERIT) pthread_mutexattr_setprotocol(attributes, PTHREAD_PRIO_INHERIT);
    if (detail & DETAIL_PROTECT) pthread_mutexattr_setprotocol(attributes, PTHREAD_PRIO_PROTECT);
    if (detail & DETAIL_PROTECT) pthread_mutexattr_setprioceiling(attributes, 42);
}

/* Returns whether the word and the owner are as they must be before, within and after a lock. */
static bool owner_is_seen(pthread_mutex_t *mutex) {
    uint32_t self = (uint32_t)syscall(SYS_gettid);
    bool is_seen = !inner_is_owned(mutex);
    if (real.mutex_lock(mutex) != 0) return false;
    is_seen = is_seen && inner_is_owned(mutex) && inner_owner(mutex) == self;
    real.mutex_unlock(mutex);
    return is_seen && !inner_is_owned(mutex);
}

/* Returns what a mutex of this kind contradicts. A PROTECT mutex isn't locked, which would change
 * the thread's priority: its word must look free. A robust one is never asked whether it is shared,
 * so here no mutex is both. */
static uint32_t contradicted(unsigned detail) {
    pthread_mutexattr_t attributes;
    pthread_mutex_t mutex;
    uint32_t wrong = 0;
    set_attributes(&attributes, detail);
    uint16_t wanted = inner_detail_of_attributes(&attributes);
    if (real.mutex_init(&mutex, &attributes) == 0) {
        bool is_protect = wanted & DETAIL_PROTECT;
        if ((inner_detail(&mutex) & 0xff) != (wanted & 0xff)) wrong |= KNOWN_KIND;
        if (is_protect && inner_ceiling(&mutex) != 42) wrong |= KNOWN_CEILING;
        if (is_protect ? inner_is_owned(&mutex) : !owner_is_seen(&mutex)) wrong |= KNOWN_OWNER;
        real.mutex_destroy(&mutex);
    }
    pthread_mutexattr_destroy(&attributes);
    return wrong;
}

/* A lock that waits for its own thread, to a time that has passed, leaves the mark of a waiter. */
static bool shows_waiter(unsigned detail) {
    const struct timespec past = { 0, 0 };
    pthread_mutexattr_t attributes;
    pthread_mutex_t mutex;
    bool is_shown = false;
    set_attributes(&attributes, detail);
    if (real.mutex_init(&mutex, &attributes) == 0) {
        bool is_clean = real.mutex_lock(&mutex) == 0 && !inner_has_waiters(&mutex);
        int error = real.mutex_timedlock(&mutex, &past);
        is_shown = is_clean && error == ETIMEDOUT && inner_has_waiters(&mutex);
        real.mutex_unlock(&mutex);
        real.mutex_destroy(&mutex);
    }
    pthread_mutexattr_destroy(&attributes);
    return is_shown;
}

bool inner_shows_waiters(void) {
    return inner_known & KNOWN_OWNER && shows_waiter(0) && shows_waiter(DETAIL_ROBUST);
}

void inner_test(void) {
    static const unsigned protocols[] = { 0, DETAIL_INHERIT, DETAIL_PROTECT };
    uint32_t wrong = 0;
    inner_known = KNOWN_KIND | KNOWN_CEILING | KNOWN_OWNER;
    for (size_t i = 0; i < sizeof protocols / sizeof *protocols; i++)
        for (unsigned type = 0; type <= DETAIL_TYPE; type++) {
            wrong |= contradicted(protocols[i] | type);
            wrong |= contradicted(protocols[i] | type | DETAIL_ROBUST);
            wrong |= contradicted(protocols[i] | type | DETAIL_SHARED);
        }
    if (wrong & KNOWN_KIND) wrong |= KNOWN_CEILING | KNOWN_OWNER;
    inner_known &= ~wrong;
}
