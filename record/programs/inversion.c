/* inversion [none|inherit [MILLISECONDS]]: the classic priority inversion, on one CPU. A thread low
 * (10) owns a mutex, high (30) waits for it, and medium (20) computes meanwhile, for 100 ms unless
 * told. With NONE, medium keeps low from its unlock, and so holds up high; with INHERIT, low runs
 * at 30 until it has unlocked. */
#define _GNU_SOURCE
#include "common.h"

static pthread_mutex_t mutex;
static sem_t is_owned;
static long medium_computes = 100;

static void compute(long milliseconds) {
    struct timespec until = after(CLOCK_MONOTONIC, milliseconds), now;
    do clock_gettime(CLOCK_MONOTONIC, &now);
    while (now.tv_sec < until.tv_sec ||
           (now.tv_sec == until.tv_sec && now.tv_nsec < until.tv_nsec));
}

static void *low(void *unused) {
    pthread_setname_np(pthread_self(), "low");
    lock(&mutex);
    sem_post(&is_owned);
    compute(40);
    unlock(&mutex);
    return unused;
}

static void *medium(void *unused) {
    pthread_setname_np(pthread_self(), "medium");
    compute(medium_computes);
    return unused;
}

static void *high(void *unused) {
    pthread_setname_np(pthread_self(), "high");
    lock(&mutex);
    unlock(&mutex);
    return unused;
}

int main(int count, char **arguments) {
    bool is_none = count > 1 && strcmp(arguments[1], "none") == 0;
    if (count > 2) medium_computes = atol(arguments[2]);
    stay_on_one_cpu();
    be_real_time(50);
    sem_init(&is_owned, 0, 0);
    make(&mutex, is_none ? PTHREAD_PRIO_NONE : PTHREAD_PRIO_INHERIT, PTHREAD_MUTEX_NORMAL, 0);
    pthread_t l = start_at(10, low, NULL);
    while (sem_wait(&is_owned)) continue;
    pthread_t h = start_at(30, high, NULL);
    rest(5);
    pthread_t m = start_at(20, medium, NULL);
    join(h);
    join(m);
    join(l);
    return 0;
}
