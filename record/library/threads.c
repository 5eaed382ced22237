#define _GNU_SOURCE
#include "inner.h"
#include "recorder.h"

#include <errno.h>
#include <limits.h>
#include <stdarg.h>
#include <string.h>
#include <sys/prctl.h>
#include <sys/syscall.h>
#include <unistd.h>

enum { NAME_BYTES = 16 };

static pthread_key_t exit_key;
static bool has_exit_key;

/* ---- a thread's first and last records ---- */

static bool is_real_time(int policy) {
    policy &= ~SCHED_RESET_ON_FORK;
    return policy != SCHED_OTHER && policy != SCHED_BATCH && policy != SCHED_IDLE;
}

static uint16_t detail_of_priority(int policy, int priority) {
    return (uint16_t)(((unsigned)policy & 15) | ((unsigned)priority & 255) << 8);
}

static void put_name(pthread_t thread, const char *name) {
    struct record of = { .event = EVENT_NAME, .object = (uint64_t)thread };
    log_put_text(of, name, NAME_BYTES - 1);
}

/* The kernel's policy and priority are those that were set, not what is inherited. Where the kernel
 * may not be asked, the collector puts the level, and the thread has no name. */
void thread_introduce(void) {
    struct sched_param param = { .sched_priority = 0 };
    char name[NAME_BYTES] = "";
    int error = errno;
    log_cursor.depth++;
    log_cursor.is_introduced = true;
    log_cursor.task = inner_task();
    int policy = POLICY_KEPT;
    bool is_asked = !atomic_load(&log_is_quiet);
    if (is_asked) policy = sched_getscheduler(0);
    if (is_asked) sched_getparam(0, &param);
    if (is_asked) prctl(PR_GET_NAME, name);
    if (is_asked) log_is_real_time(is_real_time(policy));
    log_cursor.priority = detail_of_priority(policy, param.sched_priority);
    log_put((struct record){ .event = EVENT_THREAD,
                             .object = (uint64_t)pthread_self(),
                             .detail = log_cursor.priority });
    if (is_asked) put_name(pthread_self(), name);
    if (has_exit_key) pthread_setspecific(exit_key, &log_cursor);
    log_cursor.depth--;
    errno = error;
}

/* The destructors of the program's keys may lock, too: the record is put in the last round. The
 * thread's chunk is the collector's then, so that short threads take no more than they wrote. */
static void ends(void *unused) {
    (void)unused;
    if (!log_header) return; /* a forked process that isn't recorded */
    if (++log_cursor.exits < PTHREAD_DESTRUCTOR_ITERATIONS) {
        pthread_setspecific(exit_key, &log_cursor);
        return;
    }
    log_put((struct record){ .event = EVENT_EXIT });
    log_leave_chunk();
}

void thread_make_key(void) {
    has_exit_key = pthread_key_create(&exit_key, ends) == 0;
}

/* ---- create ---- */

/* What isn't set explicitly is the creator's. */
static uint16_t detail_of_attributes(const pthread_attr_t *attributes) {
    int from = PTHREAD_INHERIT_SCHED, policy = POLICY_KEPT;
    struct sched_param param = { .sched_priority = 0 };
    if (attributes) pthread_attr_getinheritsched(attributes, &from);
    if (from != PTHREAD_EXPLICIT_SCHED) return detail_of_priority(POLICY_KEPT, 0);
    pthread_attr_getschedpolicy(attributes, &policy);
    pthread_attr_getschedparam(attributes, &param);
    return detail_of_priority(policy, param.sched_priority);
}

EXPORT int pthread_create(pthread_t *thread, const pthread_attr_t *attributes,
                          void *(*start)(void *), void *argument) {
    bool is_told = is_recorded();
    if (is_told) log_prepare();
    int error = real.create(thread, attributes, start, argument);
    if (error || !is_told) return error;
    struct record create = { .event = EVENT_CREATE,
                             .object = (uint64_t)*thread,
                             .detail = detail_of_attributes(attributes) };
    log_put_both(create, (struct record){ .event = EVENT_PLACE, .object = (uintptr_t)start });
    return 0;
}

/* ---- names ---- */

EXPORT int pthread_setname_np(pthread_t thread, const char *name) {
    bool is_told = is_recorded();
    int error = real.setname(thread, name);
    if (error == 0 && is_told) put_name(thread, name);
    return error;
}

/* The arguments that a call doesn't have are read and handed on, as glibc does itself. Only a name
 * is told: an allocator may make another such call within malloc, and the recorder's start may
 * allocate. So the kernel is called without it. A process that isn't root sets PR_SET_NO_NEW_PRIVS
 * before it sets a filter, by whichever call. */
EXPORT int prctl(int option, ...) {
    unsigned long arguments[4];
    va_list list;
    va_start(list, option);
    for (size_t i = 0; i < 4; i++) arguments[i] = va_arg(list, unsigned long);
    va_end(list);
    bool is_told = option == PR_SET_NAME && is_recorded();
    bool may_filter = option == PR_SET_NO_NEW_PRIVS || option == PR_SET_SECCOMP;
    if (may_filter && is_recorded()) log_be_quiet();
    int result =
        (int)syscall(SYS_prctl, option, arguments[0], arguments[1], arguments[2], arguments[3]);
    int error = errno;
    if (result == 0 && is_told) put_name(pthread_self(), (const char *)arguments[0]);
    errno = error;
    return result;
}

/* ---- priorities ---- */

/* The target is a pthread_t, or the kernel's number of a thread. */
static void put_priority(uint64_t target, uint32_t task, int policy, int priority) {
    bool is_own = target ? target == (uint64_t)pthread_self() : task == log_cursor.task;
    bool is_set = policy != POLICY_KEPT;
    if (is_set && is_own)
        log_is_real_time(is_real_time(policy));
    else if (is_set && is_real_time(policy))
        log_has_real_time();
    uint16_t detail = detail_of_priority(policy, priority);
    if (is_own && is_set) log_cursor.priority = detail;
    if (is_own && !is_set) log_cursor.priority = (detail & 0xff00) | (log_cursor.priority & 15);
    log_put((struct record){
        .event = EVENT_PRIORITY, .object = target, .value = task, .detail = detail });
}

EXPORT int pthread_setschedparam(pthread_t thread, int policy, const struct sched_param *param) {
    bool is_told = is_recorded();
    int error = real.setschedparam(thread, policy, param);
    if (error == 0 && is_told)
        put_priority((uint64_t)thread, 0, policy, param->sched_priority);
    return error;
}

EXPORT int pthread_setschedprio(pthread_t thread, int priority) {
    bool is_told = is_recorded();
    int error = real.setschedprio(thread, priority);
    if (error == 0 && is_told) put_priority((uint64_t)thread, 0, POLICY_KEPT, priority);
    return error;
}

void thread_look(void) {
    struct sched_param param = { .sched_priority = 0 };
    int error = errno;
    bool is_told = inner_known & KNOWN_KIND && !log_cursor.has_ceiling; /* else it isn't its own */
    if (!is_told || atomic_load(&log_is_quiet)) return;
    int policy = sched_getscheduler(0);
    sched_getparam(0, &param);
    if (detail_of_priority(policy, param.sched_priority) != log_cursor.priority)
        put_priority(0, log_cursor.task, policy, param.sched_priority);
    errno = error;
}

static uint32_t task_of(pid_t task) {
    return task ? (uint32_t)task : log_cursor.task;
}

EXPORT int sched_setscheduler(pid_t task, int policy, const struct sched_param *param) {
    bool is_told = is_recorded();
    int result = real.sched_setscheduler(task, policy, param);
    int error = errno;
    if (result >= 0 && is_told) put_priority(0, task_of(task), policy, param->sched_priority);
    errno = error;
    return result;
}

EXPORT int sched_setparam(pid_t task, const struct sched_param *param) {
    bool is_told = is_recorded();
    int result = real.sched_setparam(task, param);
    int error = errno;
    if (result >= 0 && is_told) put_priority(0, task_of(task), POLICY_KEPT, param->sched_priority);
    errno = error;
    return result;
}
