/* pair [PAIRS] [THREADS]: nanoseconds of a lock and an unlock, each thread with a mutex of its own.
 * Prints a line for PTHREAD_PRIO_NONE, and one for PTHREAD_PRIO_INHERIT. pair PAIRS THREADS others:
 * a line for a post and a wait of a semaphore, and one for a read-write lock that is locked to
 * write and unlocked. */
#define _GNU_SOURCE
#include "common.h"

static long pairs = 1000000;
static int protocol;

static void *work(void *unused) {
    pthread_mutex_t mutex;
    make(&mutex, protocol, PTHREAD_MUTEX_NORMAL, 0);
    for (long i = 0; i < pairs; i++) {
        pthread_mutex_lock(&mutex);
        pthread_mutex_unlock(&mutex);
    }
    pthread_mutex_destroy(&mutex);
    return unused;
}

static void *work_on_semaphore(void *unused) {
    sem_t semaphore;
    sem_init(&semaphore, 0, 0);
    for (long i = 0; i < pairs; i++) {
        sem_post(&semaphore);
        sem_wait(&semaphore);
    }
    return unused;
}

static void *work_on_rwlock(void *unused) {
    pthread_rwlock_t rwlock = PTHREAD_RWLOCK_INITIALIZER;
    for (long i = 0; i < pairs; i++) {
        pthread_rwlock_wrlock(&rwlock);
        pthread_rwlock_unlock(&rwlock);
    }
    return unused;
}

static double measure(void *(*body)(void *), int threads) {
    struct timespec began, ended;
    pthread_t started[64];
    clock_gettime(CLOCK_MONOTONIC, &began);
    for (int i = 0; i < threads; i++) started[i] = start(body, NULL);
    for (int i = 0; i < threads; i++) join(started[i]);
    clock_gettime(CLOCK_MONOTONIC, &ended);
    double seconds = (double)(ended.tv_sec - began.tv_sec);
    return (seconds * 1e9 + (double)(ended.tv_nsec - began.tv_nsec)) / (double)pairs;
}

int main(int count, char **arguments) {
    if (count > 1) pairs = atol(arguments[1]);
    int threads = count > 2 ? atoi(arguments[2]) : 1;
    if (pairs < 1 || threads < 1 || threads > 64) return 2;
    if (count > 3) {
        printf("semaphore %.1f\n", measure(work_on_semaphore, threads));
        printf("rwlock %.1f\n", measure(work_on_rwlock, threads));
        return 0;
    }
    protocol = PTHREAD_PRIO_NONE;
    printf("none %.1f\n", measure(work, threads));
    protocol = PTHREAD_PRIO_INHERIT;
    printf("inherit %.1f\n", measure(work, threads));
    return 0;
}
