/* c/threads/pi_mutex.c over stubs of the C library's functions: one thread plays all of them, and
 * every call that the file makes is logged. Each test compares the log with the calls that the file
 * has to make, in their order. So it needs no rights, and no time passes.
 *
 * The log of a call: [ and ] lock and unlock the guard; "prio T P" sets the priority of thread T,
 * "wait T" and "timedwait T" block it, "wake T" wakes it, "-> E" is what a call of another thread
 * returned meanwhile. "unguarded" is a call of libpim without the guard. */
#define _XOPEN_SOURCE 700
#include "threads/pi_mutex.h"

#include <errno.h>
#include <pthread.h>
#include <stdarg.h>
#include <stdio.h>
#include <stdlib.h>
#include <string.h>

enum { LOW = 1, MEDIUM = 2, HIGH = 3, TOP = 4, TASKS = 4, UNKNOWN = 5 };
enum { PLAIN = 1, FIRST = 2, SECOND = 3, RECURSIVE = 4, CEILING = 5, MUTEXES = 5 };
static const uint16_t BASES[] = { 10, 50, 90, 95 };
static const struct pim_protocol PROTOCOLS[] = {
    { PIM_NONE, 0 }, { PIM_INHERIT, 0 }, { PIM_INHERIT, 0 }, { PIM_INHERIT_RECURSIVE, 0 }, { PIM_PROTECT, 60 }
};

static char events[4096];
static const char *test_name;
static int wrongs;
static pthread_mutex_t *guard;
static int is_guarded, guard_protocol, guard_error, set_error, drops, managers;
static pthread_cond_t *conditions[TASKS + 1];
static int conditions_made, conditions_left;
static uint16_t caller; /* whom pthread_self names */
static struct pim_answer *answered; /* in place of the answer of pim_lock, unless NULL */

static void event(const char *format, ...) {
    size_t used = strlen(events);
    va_list list;
    va_start(list, format);
    if (used != 0 && used + 1 < sizeof events) events[used++] = ' ';
    vsnprintf(events + used, sizeof events - used, format, list);
    va_end(list);
}

static void wrong(int line, const char *what, const char *got, const char *wanted) {
    printf("FAIL pi_mutex.c: %s: line %d: %s: '%s' in place of '%s'\n", test_name, line, what, got, wanted);
    wrongs++;
}

static void expect_number(int line, const char *what, long got, long wanted) {
    char a[32], b[32];
    snprintf(a, sizeof a, "%ld", got);
    snprintf(b, sizeof b, "%ld", wanted);
    if (got != wanted) wrong(line, what, a, b);
}

static void expect_call(int line, const char *what, long got, long wanted, const char *log) {
    expect_number(line, what, got, wanted);
    if (strcmp(events, log) != 0) wrong(line, what, events, log);
}

#define CALL(call, result, log) (events[0] = 0, expect_call(__LINE__, #call, call, result, log))
#define IS(what, wanted) expect_number(__LINE__, #what, what, wanted)

/* ---- what happens while a thread is blocked -------------------------------------------------- */

typedef int meanwhile(void); /* returns what the wait returns */

static meanwhile *const *waits; /* what happens in this wait and in the next ones, up to NULL */

static int number_of(const pthread_cond_t *condition) {
    for (int t = 1; t <= TASKS; t++)
        if (conditions[t] == condition) return t;
    return 0;
}

static int wait_for(const char *kind, const pthread_cond_t *condition, const pthread_mutex_t *mutex) {
    event("%s %d", kind, number_of(condition));
    if (mutex != guard || !is_guarded) event("unguarded");
    if (waits == NULL || *waits == NULL) {
        wrong(0, "it blocks for ever", events, "");
        exit(1);
    }
    is_guarded = 0;
    int result = (*waits++)();
    is_guarded = 1;
    return result;
}

/* ---- the stubs ------------------------------------------------------------------------------- */

pthread_t __wrap_pthread_self(void) {
    return (pthread_t)(100 + caller);
}

int __wrap_pthread_setschedparam(pthread_t thread, int policy, const struct sched_param *param) {
    event("prio %d %d", (int)thread - 100, param->sched_priority);
    if (policy != SCHED_FIFO) event("policy %d", policy);
    if (!is_guarded) event("unguarded");
    return set_error;
}

int __wrap_pthread_mutex_init(pthread_mutex_t *mutex, const pthread_mutexattr_t *attributes) {
    if (attributes != NULL) pthread_mutexattr_getprotocol(attributes, &guard_protocol);
    guard = guard_error == 0 ? mutex : NULL;
    return guard_error;
}

int __wrap_pthread_mutex_destroy(pthread_mutex_t *mutex) {
    if (mutex == guard) guard = NULL;
    return 0;
}

int __wrap_pthread_mutex_lock(pthread_mutex_t *mutex) {
    event(mutex == guard && !is_guarded ? "[" : "locked twice");
    is_guarded = 1;
    return 0;
}

int __wrap_pthread_mutex_unlock(pthread_mutex_t *mutex) {
    event(mutex == guard && is_guarded ? "]" : "unlocked twice");
    is_guarded = 0;
    return 0;
}

int __wrap_pthread_cond_init(pthread_cond_t *condition, const pthread_condattr_t *attributes) {
    (void)attributes;
    if (++conditions_made <= TASKS) conditions[conditions_made] = condition;
    conditions_left++;
    return 0;
}

int __wrap_pthread_cond_destroy(pthread_cond_t *condition) {
    conditions_left -= number_of(condition) != 0;
    return 0;
}

int __wrap_pthread_cond_signal(pthread_cond_t *condition) {
    event("wake %d", number_of(condition));
    if (!is_guarded) event("unguarded");
    return 0;
}

int __wrap_pthread_cond_wait(pthread_cond_t *condition, pthread_mutex_t *mutex) {
    return wait_for("wait", condition, mutex);
}

int __wrap_pthread_cond_timedwait(pthread_cond_t *condition, pthread_mutex_t *mutex,
                                  const struct timespec *until) {
    if (until->tv_sec != 7) event("until %ld", (long)until->tv_sec);
    return wait_for("timedwait", condition, mutex);
}

/* Functions of libpim: each is to be called with the guard. */
#define GUARDED(result, name, parameters, ...) \
    result __real_##name parameters; \
    result __wrap_##name parameters { \
        if (!is_guarded) event("unguarded"); \
        return __real_##name(__VA_ARGS__); \
    }
typedef struct pim_handle *handle;
GUARDED(struct pim_answer, pim_try, (handle h, uint16_t task, uint16_t mutex), h, task, mutex)
GUARDED(struct pim_answer, pim_unlock, (handle h, uint16_t task, uint16_t mutex), h, task, mutex)
GUARDED(struct pim_answer, pim_cancel, (handle h, uint16_t task, uint16_t target), h, task, target)
GUARDED(struct pim_answer, pim_set_base, (handle h, uint16_t task, uint16_t target, uint16_t prio),
        h, task, target, prio)
GUARDED(struct pim_answer, pim_set_ceiling, (handle h, uint16_t task, uint16_t mutex, uint16_t ceiling),
        h, task, mutex, ceiling)
GUARDED(size_t, pim_changed, (handle h, struct pim_changed_task *to, size_t room), h, to, room)
GUARDED(uint16_t, pim_effective_prio, (handle h, uint16_t task), h, task)
GUARDED(uint16_t, pim_waits_for, (handle h, uint16_t task), h, task)
GUARDED(struct pim_protocol, pim_mutex_protocol, (handle h, uint16_t mutex), h, mutex)

struct pim_answer __real_pim_lock(struct pim_handle *h, uint16_t task, uint16_t mutex);
struct pim_answer __wrap_pim_lock(struct pim_handle *h, uint16_t task, uint16_t mutex) {
    if (!is_guarded) event("unguarded");
    return answered != NULL ? *answered : __real_pim_lock(h, task, mutex);
}

static uint32_t make_fault; /* what pim_make returns without making anything, unless 0 */

uint32_t __real_pim_make(handle h, const uint16_t *bases, size_t tasks, const struct pim_protocol *protocols, size_t mutexes);
uint32_t __wrap_pim_make(handle h, const uint16_t *bases, size_t tasks, const struct pim_protocol *protocols, size_t mutexes) {
    uint32_t made = make_fault != 0 ? make_fault : __real_pim_make(h, bases, tasks, protocols, mutexes);
    managers += made == PIM_MADE;
    return made;
}

void __real_pim_drop(struct pim_handle *h);
void __wrap_pim_drop(struct pim_handle *h) {
    drops++;
    __real_pim_drop(h);
}

/* ---- from here on, what is tested ------------------------------------------------------------ */

static int start(void) {
    conditions_made = 0;
    return pi_start(BASES, TASKS, PROTOCOLS, MUTEXES);
}

/* Starts with all threads registered. */
static void begin(const char *name) {
    test_name = name;
    IS(start(), 0);
    for (caller = LOW; caller <= TASKS; caller++) pi_register(caller);
    events[0] = 0;
}

static void finish(void) {
    pi_end();
    IS(conditions_left, 0);
    IS(drops, managers);
    IS(guard == NULL, 1);
}

/* Logs what a call returned that another thread makes meanwhile. */
static void returned(int error) {
    const char *name = error == EINVAL ? "EINVAL" : error == ETIMEDOUT ? "ETIMEDOUT" : strerror(error);
    event("-> %s", error == 0 ? "ok" : name);
}

static int wakes_for_no_reason(void) {
    return 0;
}

static int time_passes(void) {
    return ETIMEDOUT;
}

static int low_unlocks_first(void) {
    returned(pi_unlock(LOW, FIRST));
    return 0;
}

static int low_unlocks_first_as_time_passes(void) {
    low_unlocks_first();
    return ETIMEDOUT;
}

static int medium_unlocks_second(void) {
    returned(pi_unlock(MEDIUM, SECOND));
    return 0;
}

static int low_unlocks_recursive_twice(void) {
    returned(pi_unlock(LOW, RECURSIVE));
    returned(pi_unlock(LOW, RECURSIVE));
    return 0;
}

static int low_unlocks_ceiling(void) {
    returned(pi_unlock(LOW, CEILING));
    return 0;
}

static const struct timespec AT_7 = { 7, 0 };

static void unlock_wakes_before_it_lowers(void) {
    static meanwhile *const script[] = { low_unlocks_first, NULL };
    begin("an unlock wakes before it lowers itself");
    CALL(pi_lock(LOW, FIRST), 0, "[ ]");
    waits = script;
    CALL(pi_lock(HIGH, FIRST), 0, "[ prio 1 90 wait 3 [ wake 3 prio 1 10 ] -> ok ]");
    CALL(pi_unlock(HIGH, FIRST), 0, "[ ]");
    finish();
}

/* The new owner of a ceiling is raised before the caller is lowered. */
static void caller_is_lowered_last(void) {
    static meanwhile *const script[] = { low_unlocks_ceiling, NULL };
    begin("the caller is lowered last");
    CALL(pi_lock(LOW, CEILING), 0, "[ prio 1 60 ]");
    waits = script;
    CALL(pi_lock(MEDIUM, CEILING), 0, "[ wait 2 [ wake 2 prio 2 60 prio 1 10 ] -> ok ]");
    CALL(pi_unlock(MEDIUM, CEILING), 0, "[ prio 2 50 ]");
    finish();
}

static void wait_is_repeated(void) {
    static meanwhile *const script[] = { wakes_for_no_reason, wakes_for_no_reason, low_unlocks_first, NULL };
    begin("a wait is repeated");
    CALL(pi_lock(LOW, FIRST), 0, "[ ]");
    waits = script;
    CALL(pi_lock(HIGH, FIRST), 0, "[ prio 1 90 wait 3 wait 3 wait 3 [ wake 3 prio 1 10 ] -> ok ]");
    CALL(pi_trylock(MEDIUM, FIRST), EBUSY, "[ ]");
    finish();
}

static void chain_is_raised_and_lowered(void) {
    static meanwhile *const script[] = { low_unlocks_first, NULL };
    static meanwhile *const second[] = { medium_unlocks_second, NULL };
    begin("each thread of a chain is raised and lowered");
    CALL(pi_lock(MEDIUM, SECOND), 0, "[ ]");
    CALL(pi_lock(LOW, FIRST), 0, "[ ]");
    waits = second;
    CALL(pi_setschedprio(LOW, LOW, 20), 0, "[ prio 1 20 ]");
    CALL(pi_setschedprio(HIGH, MEDIUM, 60), 0, "[ prio 2 60 ]");
    CALL(pi_lock(HIGH, SECOND), 0, "[ prio 2 90 wait 3 [ wake 3 prio 2 60 ] -> ok ]");
    waits = script;
    CALL(pi_lock(HIGH, FIRST), 0, "[ prio 1 90 wait 3 [ wake 3 prio 1 20 ] -> ok ]");
    finish();
}

/* Two owners change in one step: medium waits for low, and high for medium. */
static int high_asks_medium_and_time_passes(void) {
    static meanwhile *const script[] = { time_passes, NULL };
    waits = script;
    returned(pi_timedlock(HIGH, SECOND, &AT_7));
    return low_unlocks_first();
}

static void all_changes_are_applied(void) {
    static meanwhile *const script[] = { high_asks_medium_and_time_passes, NULL };
    begin("all changes are applied, of a lock and of a time-out");
    CALL(pi_lock(MEDIUM, SECOND), 0, "[ ]");
    CALL(pi_lock(LOW, FIRST), 0, "[ ]");
    waits = script;
    CALL(pi_lock(MEDIUM, FIRST), 0,
         "[ prio 1 50 wait 2 [ prio 1 90 prio 2 90 timedwait 3 prio 1 50 prio 2 50 ] -> ETIMEDOUT "
         "[ wake 2 prio 1 10 ] -> ok ]");
    finish();
}

/* The owner lowers the base of its waiter, and so itself: it is the last to be lowered. */
static int medium_lowers_high(void) {
    IS(pi_priority(MEDIUM), 90);
    returned(pi_setschedprio(MEDIUM, HIGH, 60));
    IS(pi_priority(MEDIUM), 60);
    return medium_unlocks_second();
}

static void owner_lowers_its_waiter(void) {
    static meanwhile *const script[] = { medium_lowers_high, NULL };
    begin("an owner that lowers its waiter is lowered last");
    CALL(pi_lock(MEDIUM, SECOND), 0, "[ ]");
    waits = script;
    CALL(pi_lock(HIGH, SECOND), 0,
         "[ prio 2 90 wait 3 [ ] [ prio 3 60 prio 2 60 ] -> ok [ ] [ wake 3 prio 2 50 ] -> ok ]");
    finish();
}

static void base_is_set(void) {
    begin("a base priority is set");
    CALL(pi_setschedprio(HIGH, MEDIUM, 60), 0, "[ prio 2 60 ]");
    CALL(pi_priority(MEDIUM), 60, "[ ]");
    CALL(pi_priority(HIGH), 90, "[ ]");
    CALL(pi_setschedprio(MEDIUM, MEDIUM, 5), 0, "[ prio 2 5 ]");
    CALL(pi_setschedprio(MEDIUM, MEDIUM, 5), 0, "[ ]");
    CALL(pi_setschedprio(LOW, MEDIUM, 100), EINVAL, "[ ]");
    CALL(pi_setschedprio(LOW, UNKNOWN, 10), ESRCH, "[ ]");
    CALL(pi_setschedprio(UNKNOWN, LOW, 10), ESRCH, "[ ]");
    finish();
}

static int high_times_out_medium_waits(void) {
    event(pi_is_waiting(HIGH) ? "it waits" : "it does not wait");
    return ETIMEDOUT;
}

static void time_out_withdraws(void) {
    static meanwhile *const script[] = { wakes_for_no_reason, high_times_out_medium_waits, NULL };
    begin("a time-out withdraws the wait");
    CALL(pi_lock(LOW, FIRST), 0, "[ ]");
    CALL(pi_is_waiting(HIGH), 0, "[ ]");
    waits = script;
    CALL(pi_timedlock(HIGH, FIRST, &AT_7), ETIMEDOUT,
         "[ prio 1 90 timedwait 3 timedwait 3 [ ] it waits prio 1 10 ]");
    CALL(pi_is_waiting(HIGH), 0, "[ ]");
    CALL(pi_is_waiting(UNKNOWN), 0, "[ ]");
    CALL(pi_unlock(LOW, FIRST), 0, "[ ]");
    CALL(pi_trylock(HIGH, FIRST), 0, "[ ]");
    finish();
}

static int bad_time(void) {
    return EINVAL;
}

static void handed_as_time_passes(void) {
    static meanwhile *const script[] = { low_unlocks_first_as_time_passes, NULL };
    static meanwhile *const invalid[] = { bad_time, NULL };
    begin("a mutex that is handed over as time passes is owned");
    CALL(pi_lock(LOW, FIRST), 0, "[ ]");
    waits = script;
    CALL(pi_timedlock(HIGH, FIRST, &AT_7), 0, "[ prio 1 90 timedwait 3 [ wake 3 prio 1 10 ] -> ok ]");
    CALL(pi_trylock(LOW, FIRST), EBUSY, "[ ]");
    CALL(pi_unlock(HIGH, FIRST), 0, "[ ]");
    CALL(pi_lock(LOW, FIRST), 0, "[ ]");
    waits = invalid;
    CALL(pi_timedlock(HIGH, FIRST, &AT_7), EINVAL, "[ prio 1 90 timedwait 3 prio 1 10 ]");
    finish();
}

static void timed_waiter_is_woken(void) {
    static meanwhile *const script[] = { low_unlocks_first, NULL };
    begin("a timed waiter is woken");
    CALL(pi_lock(LOW, FIRST), 0, "[ ]");
    waits = script;
    CALL(pi_timedlock(HIGH, FIRST, &AT_7), 0, "[ prio 1 90 timedwait 3 [ wake 3 prio 1 10 ] -> ok ]");
    finish();
}

static void recursive_is_kept(void) {
    static meanwhile *const script[] = { low_unlocks_recursive_twice, NULL };
    begin("a recursive mutex is kept until its last unlock");
    CALL(pi_lock(LOW, RECURSIVE), 0, "[ ]");
    CALL(pi_trylock(LOW, RECURSIVE), 0, "[ ]");
    waits = script;
    CALL(pi_lock(HIGH, RECURSIVE), 0, "[ prio 1 90 wait 3 [ ] -> ok [ wake 3 prio 1 10 ] -> ok ]");
    for (int i = 1; i < 255; i++) IS(pi_lock(HIGH, RECURSIVE), 0);
    CALL(pi_lock(HIGH, RECURSIVE), EAGAIN, "[ ]");
    CALL(pi_trylock(HIGH, RECURSIVE), EAGAIN, "[ ]");
    finish();
}

static int waiter_is_refused(void) {
    returned(pi_lock(HIGH, SECOND));
    return low_unlocks_first();
}

static void refusals(void) {
    static meanwhile *const script[] = { waiter_is_refused, NULL };
    begin("each refusal is its error");
    CALL(pi_lock(UNKNOWN, FIRST), ESRCH, "[ ]");
    CALL(pi_lock(LOW, MUTEXES + 1), EINVAL, "[ ]");
    CALL(pi_lock(HIGH, CEILING), EINVAL, "[ ]");
    CALL(pi_trylock(HIGH, CEILING), EINVAL, "[ ]");
    CALL(pi_lock(LOW, FIRST), 0, "[ ]");
    CALL(pi_lock(LOW, FIRST), EDEADLK, "[ ]");
    CALL(pi_trylock(MEDIUM, FIRST), EBUSY, "[ ]");
    CALL(pi_trylock(LOW, FIRST), EBUSY, "[ ]");
    CALL(pi_trylock(UNKNOWN, FIRST), ESRCH, "[ ]");
    CALL(pi_unlock(HIGH, FIRST), EPERM, "[ ]");
    CALL(pi_unlock(LOW, PLAIN), EPERM, "[ ]");
    CALL(pi_unlock(LOW, MUTEXES + 1), EINVAL, "[ ]");
    CALL(pi_unlock(UNKNOWN, FIRST), ESRCH, "[ ]");
    waits = script;
    CALL(pi_lock(HIGH, FIRST), 0, "[ prio 1 90 wait 3 [ ] -> EINVAL [ wake 3 prio 1 10 ] -> ok ]");
    finish();
}

static void trylock_owns(void) {
    begin("a trylock owns, and is raised to the ceiling");
    CALL(pi_trylock(LOW, CEILING), 0, "[ prio 1 60 ]");
    CALL(pi_trylock(MEDIUM, CEILING), EBUSY, "[ ]");
    CALL(pi_is_waiting(MEDIUM), 0, "[ ]");
    CALL(pi_unlock(LOW, CEILING), 0, "[ prio 1 10 ]");
    CALL(pi_trylock(MEDIUM, PLAIN), 0, "[ ]");
    CALL(pi_unlock(MEDIUM, PLAIN), 0, "[ ]");
    CALL(pi_trylock(LOW, PLAIN), 0, "[ ]");
    finish();
}

static void ceiling_is_set(void) {
    uint16_t old = 0;
    begin("a ceiling is set");
    CALL(pi_setprioceiling(LOW, CEILING, 70, &old), 0, "[ ]");
    IS(old, 60);
    CALL(pi_lock(LOW, CEILING), 0, "[ prio 1 70 ]");
    CALL(pi_setprioceiling(LOW, CEILING, 80, NULL), 0, "[ prio 1 80 ]");
    CALL(pi_setprioceiling(LOW, CEILING, 65, &old), 0, "[ prio 1 65 ]");
    IS(old, 80);
    CALL(pi_setprioceiling(MEDIUM, CEILING, 75, &old), EBUSY, "[ ]");
    CALL(pi_setprioceiling(LOW, CEILING, 0, &old), EINVAL, "[ ]");
    CALL(pi_setprioceiling(LOW, FIRST, 75, &old), EINVAL, "[ ]");
    CALL(pi_setprioceiling(UNKNOWN, CEILING, 75, &old), ESRCH, "[ ]");
    CALL(pi_setprioceiling(LOW, MUTEXES + 1, 75, &old), EINVAL, "[ ]");
    IS(old, 80);
    CALL(pi_unlock(LOW, CEILING), 0, "[ prio 1 10 ]");
    finish();
}

/* A thread that registers while it is boosted executes at the boost, and one that hasn't registered
 * is left alone. */
static int low_registers(void) {
    caller = LOW;
    pi_register(LOW);
    return low_unlocks_first();
}

static void registered_when_boosted(void) {
    static meanwhile *const script[] = { low_registers, NULL };
    test_name = "a thread is registered at its effective priority";
    IS(start(), 0);
    CALL(pi_is_scheduled(), 0, "[ ]");
    caller = HIGH;
    CALL((pi_register(HIGH), 0), 0, "[ prio 3 90 ]");
    CALL(pi_is_scheduled(), 1, "[ ]");
    CALL(pi_lock(LOW, FIRST), 0, "[ ]");
    waits = script;
    CALL(pi_lock(HIGH, FIRST), 0, "[ wait 3 [ prio 1 90 ] [ wake 3 prio 1 10 ] -> ok ]");
    finish();
    IS(start(), 0);
    CALL(pi_setschedprio(LOW, HIGH, 80), 0, "[ ]"); /* nobody has registered since the start */
    finish();
}

static void no_rights(void) {
    begin("without rights, priorities are only reported");
    set_error = EPERM;
    CALL(pi_setschedprio(LOW, LOW, 30), 0, "[ prio 1 30 ]");
    CALL(pi_is_scheduled(), 0, "[ ]");
    CALL(pi_priority(LOW), 30, "[ ]");
    set_error = 0;
    finish();
}

static void faults_of_start(void) {
    const uint16_t bad = 100;
    test_name = "the faults of a start";
    IS(pi_start(&bad, 1, PROTOCOLS, 1), EINVAL);
    make_fault = PIM_FAULT_NO_MEMORY;
    IS(start(), ENOMEM);
    make_fault = 0;
    guard_error = ENOTSUP;
    IS(start(), ENOTSUP);
    guard_error = 0;
    IS(drops, managers);
    IS(start(), 0);
    IS(guard_protocol, PTHREAD_PRIO_INHERIT);
    IS(conditions_left, TASKS);
    pthread_mutex_t *first = guard;
    IS(start(), EINVAL);
    IS(guard == first && conditions_left == TASKS, 1);
    conditions_made = TASKS;
    finish();
}

/* Answers that no start of this test can bring about. */
static void rare_answers(void) {
    struct pim_answer tickets = { PIM_REFUSED, PIM_REFUSED_TICKETS, 0, 0, 0 }, none = { PIM_NO_MANAGER, 0, 0, 0, 0 };
    begin("rare answers");
    answered = &tickets;
    CALL(pi_lock(LOW, FIRST), EAGAIN, "[ ]");
    answered = &none;
    CALL(pi_lock(LOW, FIRST), EINVAL, "[ ]");
    answered = NULL;
    finish();
}

int main(void) {
    static void (*const tests[])(void) = {
        faults_of_start, unlock_wakes_before_it_lowers, caller_is_lowered_last,
        wait_is_repeated, chain_is_raised_and_lowered, all_changes_are_applied,
        owner_lowers_its_waiter, base_is_set, time_out_withdraws, handed_as_time_passes,
        timed_waiter_is_woken, recursive_is_kept, refusals, trylock_owns, ceiling_is_set,
        registered_when_boosted, no_rights, rare_answers
    };
    for (size_t i = 0; i < sizeof tests / sizeof *tests; i++) {
        int before = wrongs;
        tests[i]();
        if (wrongs == before) printf("ok pi_mutex.c: %s\n", test_name);
    }
    return wrongs != 0;
}
