/* A robust mutex whose owner ends: the next owner learns it from lock, from trylock, and from the
 * relock of a wait. One that is unlocked without being made consistent can't be recovered. */
#define _GNU_SOURCE
#include "common.h"

static pthread_mutex_t mutex;
static pthread_cond_t condition = PTHREAD_COND_INITIALIZER;
static sem_t is_ready;
static bool is_set;

static void *leave_it_locked(void *unused) {
    lock(&mutex);
    return unused;
}

static void *wait_for_it(void *unused) {
    int error = 0;
    lock(&mutex);
    sem_post(&is_ready);
    while (!is_set && error == 0) error = pthread_cond_wait(&condition, &mutex);
    expect(error, EOWNERDEAD, "pthread_cond_wait");
    must(pthread_mutex_consistent(&mutex), "pthread_mutex_consistent");
    unlock(&mutex);
    return unused;
}

static void *signal_and_leave(void *unused) {
    lock(&mutex);
    is_set = true;
    pthread_cond_signal(&condition);
    return unused;
}

int main(void) {
    pthread_mutexattr_t attributes;
    pthread_mutexattr_init(&attributes);
    pthread_mutexattr_setrobust(&attributes, PTHREAD_MUTEX_ROBUST);
    must(pthread_mutex_init(&mutex, &attributes), "pthread_mutex_init");
    sem_init(&is_ready, 0, 0);
    pthread_t waiter = start(wait_for_it, NULL);
    while (sem_wait(&is_ready)) continue;
    join(start(signal_and_leave, NULL));
    join(waiter);
    join(start(leave_it_locked, NULL));
    expect(pthread_mutex_lock(&mutex), EOWNERDEAD, "pthread_mutex_lock");
    must(pthread_mutex_consistent(&mutex), "pthread_mutex_consistent");
    unlock(&mutex);
    join(start(leave_it_locked, NULL));
    expect(pthread_mutex_trylock(&mutex), EOWNERDEAD, "pthread_mutex_trylock");
    unlock(&mutex);
    expect(pthread_mutex_lock(&mutex), ENOTRECOVERABLE, "a lock of what can't be recovered");
    return 0;
}
