/* A chain of three, on one CPU: high (30) waits for B of middle (20), which waits for A of low
 * (10). All mutexes are INHERIT, so low runs at 30 until it unlocks A. */
#define _GNU_SOURCE
#include "common.h"

static pthread_mutex_t a, b;
static sem_t step, done;
static _Atomic pid_t waiting[3];

static void *low(void *unused) {
    lock(&a);
    sem_post(&step);
    comes(&waiting[0]);
    while (sem_wait(&done)) continue;
    unlock(&a);
    return unused;
}

static void *middle(void *unused) {
    lock(&b);
    sem_post(&step);
    comes(&waiting[1]);
    lock(&a);
    unlock(&a);
    unlock(&b);
    return unused;
}

static void *high(void *unused) {
    sem_post(&step);
    comes(&waiting[2]);
    lock(&b);
    unlock(&b);
    return unused;
}

int main(void) {
    void *(*const bodies[])(void *) = { low, middle, high };
    pthread_t threads[3];
    stay_on_one_cpu();
    be_real_time(50);
    sem_init(&step, 0, 0);
    sem_init(&done, 0, 0);
    make(&a, PTHREAD_PRIO_INHERIT, PTHREAD_MUTEX_NORMAL, 0);
    make(&b, PTHREAD_PRIO_INHERIT, PTHREAD_MUTEX_NORMAL, 0);
    for (int i = 0; i < 3; i++) {
        threads[i] = start_at(10 * (i + 1), bodies[i], NULL);
        while (sem_wait(&step)) continue;
        until_waits(&waiting[i]);
    }
    sem_post(&done);
    for (int i = 2; i >= 0; i--) join(threads[i]);
    return 0;
}
