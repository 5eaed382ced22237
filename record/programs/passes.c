/* A thread passes over one that waits: on one CPU, a thread at 50 releases a NONE mutex for which
 * one at 10 waits, and locks it three times more before that one runs. It also locks a PROTECT
 * mutex, for which nobody waits. */
#define _GNU_SOURCE
#include "common.h"

enum { TIMES = 3 };

static pthread_mutex_t mutex = PTHREAD_MUTEX_INITIALIZER, protect;
static _Atomic pid_t waiting;

static void *wait_for_it(void *unused) {
    comes(&waiting);
    lock(&mutex);
    unlock(&mutex);
    return unused;
}

int main(void) {
    stay_on_one_cpu();
    be_real_time(50);
    lock(&mutex);
    pthread_t waiter = start_at(10, wait_for_it, NULL);
    while (!waiting) rest(1);
    until_waits(&waiting);
    unlock(&mutex);
    for (int i = 0; i < TIMES; i++) {
        lock(&mutex);
        unlock(&mutex);
    }
    join(waiter);
    make(&protect, PTHREAD_PRIO_PROTECT, PTHREAD_MUTEX_NORMAL, 60);
    lock(&protect);
    unlock(&protect);
    return 0;
}
