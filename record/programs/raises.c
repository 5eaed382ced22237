/* A PROTECT mutex that a thread at 20 owns, and whose ceiling another one changes from 40 to 45: the
 * C library waits for the mutex within that call. Then the call is refused: 0 is no ceiling. */
#define _GNU_SOURCE
#include "common.h"

static pthread_mutex_t mutex;
static sem_t is_owned, is_changed, is_over;
static _Atomic pid_t waiting;

static void *own(void *unused) {
    lock(&mutex);
    sem_post(&is_owned);
    until_waits(&waiting);
    rest(20);
    unlock(&mutex);
    while (sem_wait(&is_changed)) continue;
    lock(&mutex);
    sem_post(&is_owned);
    while (sem_wait(&is_over)) continue;
    unlock(&mutex);
    return unused;
}

static void *change(void *unused) {
    int old = 0;
    comes(&waiting);
    must(pthread_mutex_setprioceiling(&mutex, 45, &old), "pthread_mutex_setprioceiling");
    expect(old, 40, "the old ceiling");
    return unused;
}

int main(void) {
    int old = 0;
    be_real_time(50);
    sem_init(&is_owned, 0, 0);
    sem_init(&is_changed, 0, 0);
    sem_init(&is_over, 0, 0);
    make(&mutex, PTHREAD_PRIO_PROTECT, PTHREAD_MUTEX_NORMAL, 40);
    pthread_t owner = start_at(20, own, NULL);
    while (sem_wait(&is_owned)) continue;
    join(start_at(30, change, NULL));
    sem_post(&is_changed);
    while (sem_wait(&is_owned)) continue;
    expect(pthread_mutex_setprioceiling(&mutex, 0, &old), EINVAL, "a ceiling of 0");
    sem_post(&is_over);
    join(owner);
    must(pthread_mutex_destroy(&mutex), "pthread_mutex_destroy");
    return 0;
}
