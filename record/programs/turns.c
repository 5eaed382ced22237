/* turns [TURNS]: nanoseconds of a turn in which a thread (20) waits for the INHERIT mutex of
 * another one (10), on one CPU. So each turn has a boost, and four switches between the two. */
#define _GNU_SOURCE
#include "common.h"

static pthread_mutex_t mutex;
static sem_t turn;
static long turns = 5000;

static void *high(void *unused) {
    for (long i = 0; i < turns; i++) {
        while (sem_wait(&turn)) continue;
        lock(&mutex);
        unlock(&mutex);
    }
    return unused;
}

static void *low(void *nanoseconds) {
    struct timespec began, ended;
    clock_gettime(CLOCK_MONOTONIC, &began);
    for (long i = 0; i < turns; i++) {
        lock(&mutex);
        sem_post(&turn); /* high runs until it waits */
        unlock(&mutex);  /* high runs until it waits for its next turn */
    }
    clock_gettime(CLOCK_MONOTONIC, &ended);
    double seconds = (double)(ended.tv_sec - began.tv_sec);
    *(double *)nanoseconds = seconds * 1e9 + (double)(ended.tv_nsec - began.tv_nsec);
    return NULL;
}

int main(int count, char **arguments) {
    double nanoseconds;
    if (count > 1) turns = atol(arguments[1]);
    if (turns < 1) return 2;
    stay_on_one_cpu();
    be_real_time(50);
    sem_init(&turn, 0, 0);
    make(&mutex, PTHREAD_PRIO_INHERIT, PTHREAD_MUTEX_NORMAL, 0);
    pthread_t waits = start_at(20, high, NULL), owns = start_at(10, low, &nanoseconds);
    join(owns);
    join(waits);
    printf("contended %.1f\n", nanoseconds / (double)turns);
    return 0;
}
