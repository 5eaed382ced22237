/* A PROTECT mutex with ceiling 40, which becomes 45: locked by a thread at 20, tried and waited for
 * by one at 30, and refused to one at 46, which is above the ceiling. */
#define _GNU_SOURCE
#include "common.h"

static pthread_mutex_t mutex;
static sem_t is_owned, is_tried;
static _Atomic pid_t waiting;

static void *owner(void *unused) {
    lock(&mutex);
    sem_post(&is_owned);
    while (sem_wait(&is_tried)) continue;
    until_waits(&waiting);
    unlock(&mutex);
    return unused;
}

static void *waiter(void *unused) {
    expect(pthread_mutex_trylock(&mutex), EBUSY, "pthread_mutex_trylock");
    sem_post(&is_tried);
    comes(&waiting);
    lock(&mutex);
    unlock(&mutex);
    return unused;
}

static void *above(void *unused) {
    expect(pthread_mutex_lock(&mutex), EINVAL, "a lock above the ceiling");
    return unused;
}

int main(void) {
    int old = 0;
    be_real_time(50);
    sem_init(&is_owned, 0, 0);
    sem_init(&is_tried, 0, 0);
    make(&mutex, PTHREAD_PRIO_PROTECT, PTHREAD_MUTEX_NORMAL, 40);
    pthread_t o = start_at(20, owner, NULL);
    while (sem_wait(&is_owned)) continue;
    pthread_t w = start_at(30, waiter, NULL);
    join(o);
    join(w);
    be_real_time(35);
    must(pthread_mutex_setprioceiling(&mutex, 45, &old), "pthread_mutex_setprioceiling");
    expect(old, 40, "the old ceiling");
    join(start_at(46, above, NULL));
    must(pthread_mutex_destroy(&mutex), "pthread_mutex_destroy");
    return 0;
}
