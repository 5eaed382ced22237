/* A boost is stale: after a timed lock at the end of a chain has timed out, the thread 'one' (10,
 * boosted to 60) still executes at 90. A thread at 75 is then delayed by it. Needs the right to
 * SCHED_FIFO. */
#define _GNU_SOURCE
#include <pthread.h>
#include <stdatomic.h>
#include <stdio.h>
#include <time.h>
#include <unistd.h>

static pthread_mutex_t a, b, c, d;
static atomic_int may_go;
static double began;
static double now(void) {
    struct timespec t;
    clock_gettime(CLOCK_MONOTONIC, &t);
    return t.tv_sec * 1e3 + t.tv_nsec / 1e6;
}
static void compute(double ms) { for (double t = now(); now() - t < ms;) ; }
static void wait_for(int value) { while (may_go < value) usleep(1000); }
static void *one(void *x) { pthread_mutex_lock(&a); wait_for(2); compute(120); pause(); return x; }
static void *two(void *x) {
    pthread_mutex_lock(&b), pthread_mutex_lock(&c);
    wait_for(1);
    pthread_mutex_lock(&a);
    return x;
}
static void *three(void *x) { pthread_mutex_lock(&d), pthread_mutex_lock(&b); return x; }
static void *four(void *x) { pthread_mutex_lock(&c); return x; }
static void *five(void *x) {
    struct timespec t;
    clock_gettime(CLOCK_REALTIME, &t), t.tv_sec += 1;
    pthread_mutex_timedlock(&d, &t);
    return x;
}
static void *medium(void *x) { began = now(); return x; }
static pthread_t start(void *(*body)(void *), int priority) {
    struct sched_param p = { priority }; pthread_attr_t at; pthread_t t;
    pthread_attr_init(&at); pthread_attr_setinheritsched(&at, PTHREAD_EXPLICIT_SCHED);
    pthread_attr_setschedpolicy(&at, SCHED_FIFO); pthread_attr_setschedparam(&at, &p);
    if (pthread_create(&t, &at, body, NULL)) { puts("SCHED_FIFO isn't permitted"); _exit(77); }
    usleep(20000);
    return t;
}
int main(int count, char **arguments) {
    int is_plain = count > 1 && arguments[1]; /* then 'five' doesn't ask */
    struct sched_param top = { 99 }; cpu_set_t cpu; pthread_mutexattr_t at;
    pthread_t five_is, medium_is;
    CPU_ZERO(&cpu); CPU_SET(sched_getcpu(), &cpu); sched_setaffinity(0, sizeof cpu, &cpu);
    if (sched_setscheduler(0, SCHED_FIFO, &top)) { puts("SCHED_FIFO isn't permitted"); return 77; }
    pthread_mutexattr_init(&at); pthread_mutexattr_setprotocol(&at, PTHREAD_PRIO_INHERIT);
    pthread_mutex_init(&a, &at), pthread_mutex_init(&b, &at);
    pthread_mutex_init(&c, &at), pthread_mutex_init(&d, &at);
    start(one, 10), start(two, 20), start(three, 30), start(four, 60);
    may_go = 1;
    usleep(20000); /* now 'two' waits for a */
    if (!is_plain) five_is = start(five, 90), pthread_join(five_is, NULL);
    may_go = 2;
    usleep(20000); /* 'one' computes */
    double ready = now();
    medium_is = start(medium, 75), pthread_join(medium_is, NULL);
    printf("the thread at 75 waited %.0f ms for one that should execute at 60\n", began - ready);
    return 0;
}
