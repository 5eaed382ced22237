/* What a lock and an unlock of a pthread mutex take, in nanoseconds, the median of ROUNDS runs: of the
 * C library's, or of pthreads/ where that is preloaded. Alone, by protocol; and two threads that
 * contend for an INHERIT mutex, on one CPU, where each yields as it owns the mutex, and on two. They
 * run under SCHED_FIFO: a PROTECT mutex needs it. Status 77 if the process may not use it. */
#define _GNU_SOURCE
#include <pthread.h>
#include <sched.h>
#include <stdbool.h>
#include <stdio.h>
#include <stdlib.h>
#include <time.h>

enum { ROUNDS = 15, SKIPPED = 77 };

static pthread_mutex_t mutex;
static pthread_barrier_t start;
static int times;
static bool is_yielding;

struct run {
    int cpu;
    double began, ended;
};

static double seconds(void) {
    struct timespec now;
    clock_gettime(CLOCK_MONOTONIC, &now);
    return (double)now.tv_sec + (double)now.tv_nsec * 1e-9;
}

static void *lock_and_unlock(void *of) {
    struct run *run = of;
    cpu_set_t one;
    CPU_ZERO(&one);
    CPU_SET(run->cpu, &one);
    sched_setaffinity(0, sizeof one, &one);
    pthread_barrier_wait(&start);
    run->began = seconds();
    for (int i = 0; i < times; i++) {
        pthread_mutex_lock(&mutex);
        if (is_yielding) sched_yield();
        pthread_mutex_unlock(&mutex);
    }
    run->ended = seconds();
    return NULL;
}

static double nanoseconds(int threads, int cpus) {
    struct run first = { 0, 0, 0 }, second = { cpus - 1, 0, 0 };
    pthread_t other;
    pthread_barrier_init(&start, NULL, (unsigned)threads);
    if (threads > 1) pthread_create(&other, NULL, lock_and_unlock, &second);
    lock_and_unlock(&first);
    if (threads == 1) return (first.ended - first.began) * 1e9 / times;
    pthread_join(other, NULL);
    double began = first.began < second.began ? first.began : second.began;
    double ended = first.ended > second.ended ? first.ended : second.ended;
    return (ended - began) * 1e9 / times / 2;
}

static int compare(const void *a, const void *b) {
    double difference = *(const double *)a - *(const double *)b;
    return (difference > 0) - (difference < 0);
}

static void report(const char *name, int protocol, int count, int threads, int cpus) {
    pthread_mutexattr_t attributes;
    double rounds[ROUNDS];
    pthread_mutexattr_init(&attributes);
    pthread_mutexattr_setprotocol(&attributes, protocol);
    if (protocol == PTHREAD_PRIO_PROTECT) pthread_mutexattr_setprioceiling(&attributes, 2);
    pthread_mutex_init(&mutex, &attributes);
    times = count;
    is_yielding = threads > cpus;
    for (int i = 0; i < ROUNDS; i++) rounds[i] = nanoseconds(threads, cpus);
    qsort(rounds, ROUNDS, sizeof *rounds, compare);
    pthread_mutex_destroy(&mutex);
    printf("%-32s %8.1f ns\n", name, rounds[ROUNDS / 2]);
}

int main(void) {
    struct sched_param fifo = { .sched_priority = 1 };
    if (pthread_setschedparam(pthread_self(), SCHED_FIFO, &fifo) != 0) return SKIPPED;
    report("alone, NONE", PTHREAD_PRIO_NONE, 200000, 1, 1);
    report("alone, INHERIT", PTHREAD_PRIO_INHERIT, 200000, 1, 1);
    report("alone, PROTECT", PTHREAD_PRIO_PROTECT, 20000, 1, 1);
    report("two threads on one CPU, INHERIT", PTHREAD_PRIO_INHERIT, 5000, 2, 1);
    report("two threads on two CPUs, INHERIT", PTHREAD_PRIO_INHERIT, 20000, 2, 2);
    return 0;
}
