/* A boost is lost: 'high' (80) waits for a mutex of 'owner' (30), which still executes at 30. A
 * thread at 60 that has no mutex then delays both. Needs the right to SCHED_FIFO. */
#define _GNU_SOURCE
#include <pthread.h>
#include <stdatomic.h>
#include <stdio.h>
#include <time.h>
#include <unistd.h>

static pthread_mutex_t a, b;
static atomic_int turn;
static double got;
static double now(void) {
    struct timespec t;
    clock_gettime(CLOCK_MONOTONIC, &t);
    return t.tv_sec * 1e3 + t.tv_nsec / 1e6;
}
static void compute(double ms) { for (double t = now(); now() - t < ms;) ; }
static void wait_for(int value) { while (turn < value) usleep(1000); }
static void *first(void *x) {
    pthread_mutex_lock(&a), wait_for(1), pthread_mutex_unlock(&a);
    return x;
}
static void *owner(void *x) {
    pthread_mutex_lock(&b), pthread_mutex_lock(&a);
    wait_for(2);
    compute(5);
    pthread_mutex_unlock(&b), pthread_mutex_unlock(&a);
    return x;
}
static void *other(void *x) { pthread_mutex_lock(&a); pthread_mutex_unlock(&a); return x; }
static void *high(void *x) {
    pthread_mutex_lock(&b), got = now(), pthread_mutex_unlock(&b);
    return x;
}
static void *medium(void *x) { compute(400); return x; }
static pthread_t start(void *(*body)(void *), int priority) {
    struct sched_param p = { priority }; pthread_attr_t at; pthread_t t;
    pthread_attr_init(&at); pthread_attr_setinheritsched(&at, PTHREAD_EXPLICIT_SCHED);
    pthread_attr_setschedpolicy(&at, SCHED_FIFO); pthread_attr_setschedparam(&at, &p);
    if (pthread_create(&t, &at, body, NULL)) { puts("SCHED_FIFO isn't permitted"); _exit(77); }
    usleep(20000);
    return t;
}
int main(int count, char **arguments) {
    int is_plain = count > 1 && arguments[1]; /* then 'other' is at 20 from its start */
    struct sched_param top = { 99 }; cpu_set_t cpu; pthread_mutexattr_t at;
    CPU_ZERO(&cpu); CPU_SET(sched_getcpu(), &cpu); sched_setaffinity(0, sizeof cpu, &cpu);
    if (sched_setscheduler(0, SCHED_FIFO, &top)) { puts("SCHED_FIFO isn't permitted"); return 77; }
    pthread_mutexattr_init(&at); pthread_mutexattr_setprotocol(&at, PTHREAD_PRIO_INHERIT);
    pthread_mutex_init(&a, &at), pthread_mutex_init(&b, &at);
    start(first, 10), start(owner, 30);
    pthread_t third = start(other, is_plain ? 20 : 90);
    pthread_setschedprio(third, 20);
    turn = 1;
    usleep(20000); /* 'first' hands a to 'owner' */
    pthread_t last = start(high, 80);
    double asked = now();
    turn = 2;
    start(medium, 60);
    pthread_join(last, NULL);
    printf("the thread at 80 waited %.0f ms more for 5 ms of work\n", got - asked);
    return 0;
}
