/* relock: a boost by a waiter at the end of a condition wait, on one CPU. A thread high (30) waits
 * at a condition variable with an INHERIT mutex. A thread low (10) owns the mutex, signals, and
 * computes for 20 ms before it unlocks. So high waits for the mutex of low meanwhile, and low runs
 * at 30. */
#define _GNU_SOURCE
#include "common.h"

static pthread_mutex_t mutex;
static pthread_cond_t condition = PTHREAD_COND_INITIALIZER;
static bool is_set;

static void compute(long milliseconds) {
    struct timespec until = after(CLOCK_MONOTONIC, milliseconds), now;
    do clock_gettime(CLOCK_MONOTONIC, &now);
    while (now.tv_sec < until.tv_sec ||
           (now.tv_sec == until.tv_sec && now.tv_nsec < until.tv_nsec));
}

static void *high(void *unused) {
    pthread_setname_np(pthread_self(), "high");
    lock(&mutex);
    while (!is_set) must(pthread_cond_wait(&condition, &mutex), "pthread_cond_wait");
    unlock(&mutex);
    return unused;
}

static void *low(void *unused) {
    pthread_setname_np(pthread_self(), "low");
    lock(&mutex);
    is_set = true;
    must(pthread_cond_signal(&condition), "pthread_cond_signal");
    compute(20);
    unlock(&mutex);
    return unused;
}

int main(void) {
    stay_on_one_cpu();
    be_real_time(50);
    make(&mutex, PTHREAD_PRIO_INHERIT, PTHREAD_MUTEX_NORMAL, 0);
    pthread_t h = start_at(30, high, NULL);
    rest(5); /* high waits by then */
    pthread_t l = start_at(10, low, NULL);
    join(h);
    join(l);
    return 0;
}
