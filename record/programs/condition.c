/* Waits at a condition variable: one that is signalled, two that time out, one that is refused and
 * didn't release the mutex, and one that is cancelled. */
#define _GNU_SOURCE
#include "common.h"

static pthread_mutex_t mutex = PTHREAD_MUTEX_INITIALIZER;
static pthread_cond_t condition = PTHREAD_COND_INITIALIZER;
static sem_t is_ready;
static bool is_set;

static void *signalled(void *unused) {
    lock(&mutex);
    sem_post(&is_ready);
    while (!is_set) must(pthread_cond_wait(&condition, &mutex), "pthread_cond_wait");
    unlock(&mutex);
    return unused;
}

static void *timed_out(void *unused) {
    struct timespec past = { .tv_sec = 1 }, wrong = { .tv_sec = 1, .tv_nsec = 1000000000 };
    lock(&mutex);
    expect(pthread_cond_timedwait(&condition, &mutex, &past), ETIMEDOUT, "timedwait");
    expect(pthread_cond_clockwait(&condition, &mutex, CLOCK_MONOTONIC, &past), ETIMEDOUT,
           "clockwait");
    expect(pthread_cond_timedwait(&condition, &mutex, &wrong), EINVAL, "a wrong time");
    unlock(&mutex);
    return unused;
}

static void unlock_after(void *unused) {
    (void)unused;
    unlock(&mutex);
}

static void *cancelled(void *unused) {
    lock(&mutex);
    pthread_cleanup_push(unlock_after, NULL);
    sem_post(&is_ready);
    for (;;) pthread_cond_wait(&condition, &mutex);
    pthread_cleanup_pop(1);
    return unused;
}

int main(void) {
    sem_init(&is_ready, 0, 0);
    pthread_t thread = start(signalled, NULL);
    while (sem_wait(&is_ready)) continue;
    lock(&mutex); /* the other one waits by then */
    is_set = true;
    must(pthread_cond_signal(&condition), "pthread_cond_signal");
    unlock(&mutex);
    join(thread);
    join(start(timed_out, NULL));
    thread = start(cancelled, NULL);
    while (sem_wait(&is_ready)) continue;
    lock(&mutex);
    unlock(&mutex);
    must(pthread_cancel(thread), "pthread_cancel");
    join(thread);
    return 0;
}
