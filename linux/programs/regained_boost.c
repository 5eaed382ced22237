/* A lost boost comes back: as in lost_boost.c 'owner' is lowered to 20, while a thread at 40 waits
 * for its INHERIT mutex. Then 'owner' and a thread on another CPU ask for the same spinlock of the
 * kernel, that of a futex's hash bucket, for 2 s or until its priority in force changes. With
 * PREEMPT_RT that lock is an rt_mutex. Needs CPUs 0 and 1, and the right to SCHED_FIFO. */
#define _GNU_SOURCE
#include <fcntl.h>
#include <linux/futex.h>
#include <pthread.h>
#include <stdatomic.h>
#include <stdio.h>
#include <stdlib.h>
#include <string.h>
#include <sys/prctl.h>
#include <sys/syscall.h>
#include <time.h>
#include <unistd.h>

static pthread_mutex_t mutex;
static atomic_int tid, has_begun, is_over, word;
static double now(void) {
    struct timespec t;
    clock_gettime(CLOCK_MONOTONIC, &t);
    return t.tv_sec * 1e3 + t.tv_nsec / 1e6;
}
static void *first(void *a) {
    pthread_mutex_lock(&mutex), usleep(200000), pthread_mutex_unlock(&mutex);
    return a;
}
/* The word isn't 1, so the call returns at once; before, it takes the lock of the hash bucket. */
static void ask(void) { syscall(SYS_futex, &word, FUTEX_WAIT_PRIVATE, 1, NULL, NULL, 0); }
static void *owner(void *a) {
    prctl(PR_SET_NAME, "owner"), tid = (int)syscall(SYS_gettid);
    pthread_mutex_lock(&mutex);
    while (!has_begun) usleep(1000);
    while (!is_over) ask();
    pthread_mutex_unlock(&mutex);
    return a;
}
static void *high(void *a) { pthread_mutex_lock(&mutex), pthread_mutex_unlock(&mutex); return a; }
static void *other(void *a) { while (!is_over) ask(); return a; }
static int priority(void) {
    char path[60], text[1024] = ""; int file, field = 3;
    snprintf(path, sizeof path, "/proc/self/task/%d/stat", tid);
    if ((file = open(path, O_RDONLY)) < 0 || read(file, text, sizeof text - 1) <= 0) _exit(2);
    close(file);
    for (char *rest = strrchr(text, ')') + 2;; rest = strchr(rest, ' ') + 1)
        if (field++ == 18) return -1 - atoi(rest);
}
static pthread_t start(void *(*body)(void *), int base, int cpu) {
    struct sched_param p = { base }; pthread_attr_t a; pthread_t t; cpu_set_t one;
    CPU_ZERO(&one); CPU_SET(cpu, &one); pthread_attr_init(&a);
    pthread_attr_setaffinity_np(&a, sizeof one, &one);
    pthread_attr_setinheritsched(&a, PTHREAD_EXPLICIT_SCHED);
    pthread_attr_setschedpolicy(&a, SCHED_FIFO); pthread_attr_setschedparam(&a, &p);
    if (pthread_create(&t, &a, body, NULL)) { puts("CPUs 0 and 1, SCHED_FIFO?"); _exit(77); }
    usleep(20000);
    return t;
}
int main(void) {
    struct sched_param top = { 99 }; pthread_mutexattr_t a; pthread_t t[4]; int lowered, last;
    if (sched_setscheduler(0, SCHED_FIFO, &top)) { puts("SCHED_FIFO isn't permitted"); return 77; }
    pthread_mutexattr_init(&a); pthread_mutexattr_setprotocol(&a, PTHREAD_PRIO_INHERIT);
    pthread_mutex_init(&mutex, &a);
    t[0] = start(first, 10, 1), t[1] = start(owner, 50, 1), t[2] = start(high, 40, 1);
    usleep(300000); /* the first unlocks, and hands the mutex to the owner */
    pthread_setschedprio(t[1], 20);
    printf("the owner is lowered, and executes at %d\n", lowered = priority());
    double begin = now();
    has_begun = 1;
    t[3] = start(other, 5, 0);
    while ((last = priority()) == lowered && now() - begin < 2000) usleep(1000);
    printf("after %.0f ms it executes at %d\n", now() - begin, last);
    is_over = 1;
    for (int i = 0; i < 4; i++) pthread_join(t[i], NULL);
    return 0;
}
