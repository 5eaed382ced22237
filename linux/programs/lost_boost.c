/* A boost is lost: 'high' (40) waits for an INHERIT mutex whose owner's own priority is lowered to
 * 20. A thread at 30 that has no mutex then delays both. Needs the right to SCHED_FIFO. */
#define _GNU_SOURCE
#include <pthread.h>
#include <stdatomic.h>
#include <stdio.h>
#include <time.h>
#include <unistd.h>

static pthread_mutex_t mutex;
static atomic_int has_begun;
static double asked, got;
static double now(void) {
    struct timespec t;
    clock_gettime(CLOCK_MONOTONIC, &t);
    return t.tv_sec * 1e3 + t.tv_nsec / 1e6;
}
static void compute(double ms) { for (double t = now(); now() - t < ms;) ; }
static void *first(void *a) {
    pthread_mutex_lock(&mutex), usleep(200000), pthread_mutex_unlock(&mutex);
    return a;
}
static void *owner(void *a) {
    pthread_mutex_lock(&mutex);
    while (!has_begun) usleep(1000);
    compute(5);
    pthread_mutex_unlock(&mutex);
    return a;
}
static void *high(void *a) {
    pthread_mutex_lock(&mutex), got = now(), pthread_mutex_unlock(&mutex);
    return a;
}
static void *medium(void *a) { compute(400); return a; }
static pthread_t start(void *(*body)(void *), int priority) {
    struct sched_param p = { priority }; pthread_attr_t a; pthread_t t;
    pthread_attr_init(&a); pthread_attr_setinheritsched(&a, PTHREAD_EXPLICIT_SCHED);
    pthread_attr_setschedpolicy(&a, SCHED_FIFO); pthread_attr_setschedparam(&a, &p);
    if (pthread_create(&t, &a, body, NULL)) { puts("SCHED_FIFO isn't permitted"); _exit(77); }
    usleep(20000);
    return t;
}
int main(int count, char **arguments) {
    int is_late = count > 1 && arguments[1]; /* then 'high' asks after the mutex was handed */
    struct sched_param top = { 99 }; cpu_set_t one; pthread_mutexattr_t a; pthread_t t[4];
    CPU_ZERO(&one); CPU_SET(sched_getcpu(), &one); sched_setaffinity(0, sizeof one, &one);
    if (sched_setscheduler(0, SCHED_FIFO, &top)) { puts("SCHED_FIFO isn't permitted"); return 77; }
    pthread_mutexattr_init(&a); pthread_mutexattr_setprotocol(&a, PTHREAD_PRIO_INHERIT);
    pthread_mutex_init(&mutex, &a);
    t[0] = start(first, 10), t[1] = start(owner, 50);
    if (!is_late) t[2] = start(high, 40);
    usleep(300000); /* the first unlocks, and hands the mutex to the owner */
    if (is_late) t[2] = start(high, 40);
    pthread_setschedprio(t[1], 20);
    asked = now();
    has_begun = 1;
    t[3] = start(medium, 30);
    for (int i = 0; i < 4; i++) pthread_join(t[i], NULL);
    printf("the thread at 40 waited %.0f ms more for 5 ms of work\n", got - asked);
    return 0;
}
