/* late [inherit]: servo (80) and logger (10) share a mutex, and planner (40) computes, all on one
 * CPU. The mutex passes no priority on: planner keeps logger from its unlock, and servo waits for
 * both. With `inherit` logger runs at 80 while servo waits.
 *
 *     cc -g -pthread late.c -o late
 *
 * It takes the right to use SCHED_FIFO: root, CAP_SYS_NICE or `ulimit -r 99`. */
#define _GNU_SOURCE
#include <pthread.h>
#include <sched.h>
#include <stdio.h>
#include <stdlib.h>
#include <time.h>

static pthread_mutex_t state_lock;

/* Computes for so long, by the time that the thread is on a CPU. */
static void compute(long milliseconds) {
    struct timespec used;
    do clock_gettime(CLOCK_THREAD_CPUTIME_ID, &used);
    while (used.tv_sec * 1000 + used.tv_nsec / 1000000 < milliseconds);
}

static void *save_state(void *unused) {
    pthread_mutex_lock(&state_lock);
    compute(4);
    pthread_mutex_unlock(&state_lock);
    return unused;
}

static void *plan(void *unused) {
    compute(20);
    return unused;
}

static void *step(void *unused) {
    pthread_mutex_lock(&state_lock);
    pthread_mutex_unlock(&state_lock);
    return unused;
}

static void demand(int error) {
    if (error == 0) return;
    fprintf(stderr, "late: error %d; it takes root, CAP_SYS_NICE or `ulimit -r 99`\n", error);
    exit(1);
}

static void make_lock(int protocol) {
    pthread_mutexattr_t attributes;
    pthread_mutexattr_init(&attributes);
    pthread_mutexattr_setprotocol(&attributes, protocol);
    pthread_mutex_init(&state_lock, &attributes);
}

static pthread_t start(const char *name, int priority, void *(*routine)(void *)) {
    struct sched_param param = { .sched_priority = priority };
    pthread_attr_t attributes;
    pthread_t thread;
    pthread_attr_init(&attributes);
    pthread_attr_setinheritsched(&attributes, PTHREAD_EXPLICIT_SCHED);
    pthread_attr_setschedpolicy(&attributes, SCHED_FIFO);
    pthread_attr_setschedparam(&attributes, &param);
    demand(pthread_create(&thread, &attributes, routine, NULL));
    pthread_setname_np(thread, name);
    return thread;
}

int main(int count, char **arguments) {
    (void)arguments;
    struct sched_param highest = { .sched_priority = 90 };
    cpu_set_t one;
    CPU_ZERO(&one);
    CPU_SET(0, &one);
    sched_setaffinity(0, sizeof one, &one);
    demand(pthread_setschedparam(pthread_self(), SCHED_FIFO, &highest));
    make_lock(count > 1 ? PTHREAD_PRIO_INHERIT : PTHREAD_PRIO_NONE);
    pthread_t logger = start("logger", 10, save_state);
    nanosleep(&(struct timespec){ .tv_nsec = 1000000 }, NULL);
    pthread_t servo = start("servo", 80, step), planner = start("planner", 40, plan);
    pthread_join(servo, NULL);
    pthread_join(planner, NULL);
    pthread_join(logger, NULL);
    return 0;
}
