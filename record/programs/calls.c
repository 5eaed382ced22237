/* Each recorded call, by one thread, with what it returns; and errno stays what it was. */
#define _GNU_SOURCE
#include "common.h"

#include <sys/prctl.h>

static pthread_mutex_t normal = PTHREAD_MUTEX_INITIALIZER;
static pthread_mutex_t recursive = PTHREAD_RECURSIVE_MUTEX_INITIALIZER_NP;
static pthread_mutex_t errorcheck = PTHREAD_ERRORCHECK_MUTEX_INITIALIZER_NP;
static pthread_mutex_t adaptive = PTHREAD_ADAPTIVE_MUTEX_INITIALIZER_NP;

enum { KEPT = 77 };

static void keeps_errno(const char *what) {
    expect(errno, KEPT, what);
}

static void locks(void) {
    struct timespec real = after(CLOCK_REALTIME, 1000), monotonic = after(CLOCK_MONOTONIC, 1000);
    errno = KEPT;
    lock(&normal);
    keeps_errno("the first lock");
    unlock(&normal);
    must(pthread_mutex_trylock(&normal), "trylock");
    expect(pthread_mutex_trylock(&normal), EBUSY, "trylock again");
    unlock(&normal);
    must(pthread_mutex_timedlock(&normal, &real), "timedlock");
    unlock(&normal);
    must(pthread_mutex_clocklock(&normal, CLOCK_MONOTONIC, &monotonic), "clocklock");
    real = after(CLOCK_REALTIME, 1);
    monotonic = after(CLOCK_MONOTONIC, 1);
    errno = KEPT;
    expect(pthread_mutex_timedlock(&normal, &real), ETIMEDOUT, "timedlock of one's own");
    expect(pthread_mutex_clocklock(&normal, CLOCK_MONOTONIC, &monotonic), ETIMEDOUT, "clocklock");
    unlock(&normal);
    keeps_errno("the other locks");
}

static void types(void) {
    lock(&recursive);
    lock(&recursive);
    unlock(&recursive);
    unlock(&recursive);
    expect(pthread_mutex_unlock(&recursive), EPERM, "an unlock too many");
    lock(&errorcheck);
    expect(pthread_mutex_lock(&errorcheck), EDEADLK, "a second lock");
    unlock(&errorcheck);
    expect(pthread_mutex_unlock(&errorcheck), EPERM, "a second unlock");
    lock(&adaptive);
    unlock(&adaptive);
    keeps_errno("the types");
}

static void inits(void) {
    pthread_mutexattr_t attributes;
    pthread_mutex_t mutex;
    must(pthread_mutex_init(&mutex, NULL), "init without attributes");
    lock(&mutex);
    expect(pthread_mutex_destroy(&mutex), EBUSY, "destroy while it is owned");
    unlock(&mutex);
    must(pthread_mutex_destroy(&mutex), "destroy");
    make(&mutex, PTHREAD_PRIO_INHERIT, PTHREAD_MUTEX_RECURSIVE, 0);
    make(&mutex, PTHREAD_PRIO_INHERIT, PTHREAD_MUTEX_ERRORCHECK, 0);
    make(&mutex, PTHREAD_PRIO_PROTECT, PTHREAD_MUTEX_NORMAL, 17);
    make(&mutex, PTHREAD_PRIO_NONE, PTHREAD_MUTEX_ADAPTIVE_NP, 0);
    must(pthread_mutexattr_init(&attributes), "pthread_mutexattr_init");
    must(pthread_mutexattr_setpshared(&attributes, PTHREAD_PROCESS_SHARED), "setpshared");
    must(pthread_mutex_init(&mutex, &attributes), "init of a shared one");
    must(pthread_mutexattr_setrobust(&attributes, PTHREAD_MUTEX_ROBUST), "setrobust");
    must(pthread_mutex_init(&mutex, &attributes), "init of a shared and robust one");
    lock(&mutex);
    unlock(&mutex);
    must(pthread_mutexattr_setprotocol(&attributes, PTHREAD_PRIO_PROTECT), "setprotocol");
    expect(pthread_mutex_init(&mutex, &attributes), ENOTSUP, "init of what there isn't");
    keeps_errno("init and destroy");
}

static void names(void) {
    must(pthread_setname_np(pthread_self(), "calls-one"), "pthread_setname_np");
    expect(pthread_setname_np(pthread_self(), "longer than it may be"), ERANGE, "a long name");
    expect(prctl(PR_SET_NAME, "calls-two and what is cut"), 0, "prctl");
    char name[16];
    expect(prctl(PR_GET_NAME, name), 0, "prctl of another kind");
    expect(strcmp(name, "calls-two and w"), 0, "the name");
    keeps_errno("the names");
}

static void priorities(void) {
    struct sched_param param = { .sched_priority = 0 };
    must(pthread_setschedparam(pthread_self(), SCHED_BATCH, &param), "pthread_setschedparam");
    must(pthread_setschedprio(pthread_self(), 0), "pthread_setschedprio");
    expect(sched_setscheduler(0, SCHED_OTHER, &param), 0, "sched_setscheduler");
    expect(sched_setparam(getpid(), &param), 0, "sched_setparam");
    keeps_errno("priorities that are set");
    param.sched_priority = 1;
    expect(pthread_setschedparam(pthread_self(), SCHED_OTHER, &param), EINVAL, "a wrong priority");
    expect(pthread_setschedprio(pthread_self(), 1), EINVAL, "a wrong priority");
    expect(sched_setscheduler(0, SCHED_OTHER, &param), -1, "sched_setscheduler");
    expect(errno, EINVAL, "its errno");
    errno = KEPT;
    expect(sched_setparam(0, &param), -1, "sched_setparam");
    expect(errno, EINVAL, "its errno");
}

int main(void) {
    expect(errno, 0, "errno at the start");
    locks();
    types();
    inits();
    names();
    priorities();
    return 0;
}
