/* A recursive INHERIT mutex: its owner locks it three times, and another waits until it is unlocked
 * as often. */
#define _GNU_SOURCE
#include "common.h"

static pthread_mutex_t mutex;
static sem_t is_owned, is_coming;
static _Atomic pid_t waiting;

static void *owner(void *unused) {
    for (int i = 0; i < 3; i++) lock(&mutex);
    sem_post(&is_owned);
    while (sem_wait(&is_coming)) continue;
    until_waits(&waiting);
    for (int i = 0; i < 3; i++) unlock(&mutex);
    return unused;
}

static void *waiter(void *unused) {
    while (sem_wait(&is_owned)) continue;
    sem_post(&is_coming);
    comes(&waiting);
    errno = 77; /* which its first recorded call doesn't change */
    lock(&mutex);
    expect(errno, 77, "errno after the first lock");
    unlock(&mutex);
    return unused;
}

int main(void) {
    sem_init(&is_owned, 0, 0);
    sem_init(&is_coming, 0, 0);
    make(&mutex, PTHREAD_PRIO_INHERIT, PTHREAD_MUTEX_RECURSIVE, 0);
    pthread_t o = start(owner, NULL);
    pthread_t w = start(waiter, NULL);
    join(o);
    join(w);
    return 0;
}
