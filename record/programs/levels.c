/* levels: a thread waits for a mutex, at a condition variable, for a semaphore, and for a PROTECT
 * mutex, one after another. As it sleeps, its number is printed. A line of standard input ends the
 * wait. It takes the right to SCHED_FIFO. */
#define _GNU_SOURCE
#include "common.h"

#include <semaphore.h>

static pthread_mutex_t mutex = PTHREAD_MUTEX_INITIALIZER, own = PTHREAD_MUTEX_INITIALIZER, protect;
static pthread_cond_t condition = PTHREAD_COND_INITIALIZER;
static sem_t semaphore;
static bool is_told;
static _Atomic pid_t waiter;

static void *waits(void *unused) {
    comes(&waiter);
    lock(&mutex);
    unlock(&mutex);
    lock(&own);
    while (!is_told) pthread_cond_wait(&condition, &own);
    unlock(&own);
    sem_wait(&semaphore);
    lock(&protect);
    unlock(&protect);
    return unused;
}

static void tell(void) {
    lock(&own);
    is_told = true;
    pthread_cond_signal(&condition);
    unlock(&own);
}

/* Waits until the other thread sleeps, and for a line of standard input then. */
static void until_line(void) {
    until_waits(&waiter);
    printf("%d\n", waiter);
    fflush(stdout);
    while (getchar() != '\n') continue;
}

int main(void) {
    sem_init(&semaphore, 0, 0);
    make(&protect, PTHREAD_PRIO_PROTECT, PTHREAD_MUTEX_NORMAL, 50);
    be_real_time(10);
    lock(&mutex);
    pthread_t thread = start(waits, NULL);
    lock(&protect);
    until_line();
    unlock(&mutex);
    until_line();
    tell();
    until_line();
    sem_post(&semaphore);
    until_line();
    unlock(&protect);
    join(thread);
    return 0;
}
