/* cost [COUNT]: nanoseconds that a cycle of hand-overs takes, on one CPU. The owner of an INHERIT
 * mutex executes at 10. Threads at 20, 30 and 40 ask for it, the lowest first, so that each
 * preempts the owner and waits. The owner unlocks, the highest gets the mutex and unlocks, and so
 * on: with N of them N - 1 hand-overs leave waiters. Where a guest's clock counts instructions
 * (linux/kernels --count), a nanosecond is one. Needs the right to SCHED_FIFO. */
#define _GNU_SOURCE
#include <linux/futex.h>
#include <pthread.h>
#include <sched.h>
#include <stdatomic.h>
#include <stdio.h>
#include <stdlib.h>
#include <sys/syscall.h>
#include <time.h>
#include <unistd.h>

enum { MOST = 3, ROUNDS = 2 };

static pthread_mutex_t mutex;
static atomic_uint turns[MOST + 1]; /* the cycle in which a thread is to ask for the mutex */

static void *ask(void *argument) {
    atomic_uint *turn = argument;
    for (unsigned seen = 0;; seen++) {
        while (*turn == seen) syscall(SYS_futex, turn, FUTEX_WAIT_PRIVATE, seen, NULL, NULL, 0);
        pthread_mutex_lock(&mutex), pthread_mutex_unlock(&mutex);
    }
    return argument;
}

static void start(int number) {
    struct sched_param p = { 10 + 10 * number }; pthread_attr_t a; pthread_t t;
    pthread_attr_init(&a); pthread_attr_setinheritsched(&a, PTHREAD_EXPLICIT_SCHED);
    pthread_attr_setschedpolicy(&a, SCHED_FIFO); pthread_attr_setschedparam(&a, &p);
    if (!pthread_create(&t, &a, ask, &turns[number])) return;
    puts("SCHED_FIFO isn't permitted");
    _exit(77);
}

static void cycle(int waiters) {
    pthread_mutex_lock(&mutex);
    for (int w = 1; w <= waiters; w++) {
        turns[w]++;
        syscall(SYS_futex, &turns[w], FUTEX_WAKE_PRIVATE, 1, NULL, NULL, 0);
    }
    pthread_mutex_unlock(&mutex);
}

static double now(void) {
    struct timespec t;
    clock_gettime(CLOCK_MONOTONIC, &t);
    return t.tv_sec * 1e9 + t.tv_nsec;
}

int main(int count, char **arguments) {
    int cycles = count > 1 ? atoi(arguments[1]) : 300;
    struct sched_param low = { 10 }; cpu_set_t one; pthread_mutexattr_t a;
    if (cycles < 1) { puts("cost: COUNT is at least 1"); return 2; }
    CPU_ZERO(&one); CPU_SET(sched_getcpu(), &one); sched_setaffinity(0, sizeof one, &one);
    if (sched_setscheduler(0, SCHED_FIFO, &low)) { puts("SCHED_FIFO isn't permitted"); return 77; }
    pthread_mutexattr_init(&a); pthread_mutexattr_setprotocol(&a, PTHREAD_PRIO_INHERIT);
    pthread_mutex_init(&mutex, &a);
    for (int waiters = 1; waiters <= MOST; waiters++) {
        start(waiters);
        for (int round = 0; round < ROUNDS; round++) {
            double begin = now();
            for (int k = 0; k < cycles; k++) cycle(waiters);
            printf("waiters %d: %.0f ns a cycle\n", waiters, (now() - begin) / cycles);
        }
    }
    return 0;
}
