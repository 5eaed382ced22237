/* What the programs share: threads at a priority, mutexes of a protocol, errors that end them. */
#ifndef COMMON_H
#define COMMON_H

#include <errno.h>
#include <fcntl.h>
#include <pthread.h>
#include <sched.h>
#include <semaphore.h>
#include <stdbool.h>
#include <stdint.h>
#include <stdio.h>
#include <stdlib.h>
#include <string.h>
#include <sys/syscall.h>
#include <sys/wait.h>
#include <time.h>
#include <unistd.h>

enum { SKIPPED = 77 };

/* Ends the program where a call has another result than the one that is wanted. */
static inline void expect(int result, int wanted, const char *what) {
    if (result == wanted) return;
    fprintf(stderr, "%s: %s in place of %s\n", what, strerror(result), strerror(wanted));
    exit(1);
}

static inline void must(int error, const char *what) {
    expect(error, 0, what);
}

/* Gives the calling thread a priority of SCHED_FIFO, or ends the program as skipped without the
 * right to. */
static inline void be_real_time(int priority) {
    struct sched_param param = { .sched_priority = priority };
    if (pthread_setschedparam(pthread_self(), SCHED_FIFO, &param) == 0) return;
    puts("SCHED_FIFO isn't permitted");
    exit(SKIPPED);
}

/* Keeps the program on one CPU, so that its threads run in the order of their priorities. */
static inline void stay_on_one_cpu(void) {
    cpu_set_t allowed, one;
    CPU_ZERO(&one);
    sched_getaffinity(0, sizeof allowed, &allowed);
    for (int cpu = 0; cpu < CPU_SETSIZE; cpu++)
        if (CPU_ISSET(cpu, &allowed)) {
            CPU_SET(cpu, &one);
            break;
        }
    sched_setaffinity(0, sizeof one, &one);
}

static inline void rest(long milliseconds) {
    struct timespec time = { milliseconds / 1000, milliseconds % 1000 * 1000000 };
    nanosleep(&time, NULL);
}

static inline struct timespec after(clockid_t clock, long milliseconds) {
    struct timespec time;
    clock_gettime(clock, &time);
    time.tv_nsec += milliseconds % 1000 * 1000000;
    time.tv_sec += milliseconds / 1000 + time.tv_nsec / 1000000000;
    time.tv_nsec %= 1000000000;
    return time;
}

/* Stores the calling thread.
 * From then on it sleeps in no call but the one that until_waits is for. */
static inline void comes(_Atomic pid_t *thread) {
    *thread = (pid_t)syscall(SYS_gettid);
}

/* Waits until a thread has come and sleeps, however busy the machine is. */
static inline void until_waits(const _Atomic pid_t *thread) {
    for (char state = '?'; state != 'S'; rest(1)) {
        char path[64], line[256] = "";
        snprintf(path, sizeof path, "/proc/self/task/%d/stat", *thread);
        int file = open(path, O_RDONLY | O_CLOEXEC);
        ssize_t length = file < 0 ? 0 : read(file, line, sizeof line - 1);
        if (file >= 0) close(file);
        const char *behind = length > 0 ? strrchr(line, ')') : NULL;
        if (behind && behind[1] != '\0') state = behind[2];
    }
}

/* Makes a mutex of a protocol and a type; a ceiling counts for PTHREAD_PRIO_PROTECT. */
static inline void make(pthread_mutex_t *mutex, int protocol, int type, int ceiling) {
    pthread_mutexattr_t attributes;
    must(pthread_mutexattr_init(&attributes), "pthread_mutexattr_init");
    must(pthread_mutexattr_setprotocol(&attributes, protocol), "setprotocol");
    must(pthread_mutexattr_settype(&attributes, type), "settype");
    if (protocol == PTHREAD_PRIO_PROTECT)
        must(pthread_mutexattr_setprioceiling(&attributes, ceiling), "setprioceiling");
    must(pthread_mutex_init(mutex, &attributes), "pthread_mutex_init");
    must(pthread_mutexattr_destroy(&attributes), "pthread_mutexattr_destroy");
}

static inline pthread_t start(void *(*body)(void *), void *argument) {
    pthread_t thread;
    must(pthread_create(&thread, NULL, body, argument), "pthread_create");
    return thread;
}

/* Starts a thread at a priority of SCHED_FIFO. */
static inline pthread_t start_at(int priority, void *(*body)(void *), void *argument) {
    struct sched_param param = { .sched_priority = priority };
    pthread_attr_t attributes;
    pthread_t thread;
    must(pthread_attr_init(&attributes), "pthread_attr_init");
    must(pthread_attr_setinheritsched(&attributes, PTHREAD_EXPLICIT_SCHED), "setinheritsched");
    must(pthread_attr_setschedpolicy(&attributes, SCHED_FIFO), "setschedpolicy");
    must(pthread_attr_setschedparam(&attributes, &param), "setschedparam");
    must(pthread_create(&thread, &attributes, body, argument), "pthread_create");
    must(pthread_attr_destroy(&attributes), "pthread_attr_destroy");
    return thread;
}

static inline void lock(pthread_mutex_t *mutex) {
    must(pthread_mutex_lock(mutex), "pthread_mutex_lock");
}

static inline void unlock(pthread_mutex_t *mutex) {
    must(pthread_mutex_unlock(mutex), "pthread_mutex_unlock");
}

static inline void join(pthread_t thread) {
    must(pthread_join(thread, NULL), "pthread_join");
}

#endif
