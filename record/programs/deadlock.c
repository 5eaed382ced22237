/* Two threads that lock two NONE mutexes in opposite orders, so that each waits for the other until
 * the program ends. */
#define _GNU_SOURCE
#include "common.h"

static pthread_mutex_t first, second;
static sem_t has_first, has_second;
static _Atomic pid_t waiting[2];
static _Atomic bool is_named;

static void *one(void *unused) {
    pthread_setname_np(pthread_self(), "one");
    is_named = true;
    lock(&first);
    sem_post(&has_first);
    while (sem_wait(&has_second)) continue;
    comes(&waiting[0]);
    lock(&second);
    return unused;
}

static void *two(void *unused) {
    while (sem_wait(&has_first)) continue;
    pthread_setname_np(pthread_self(), "two");
    lock(&second);
    sem_post(&has_second);
    comes(&waiting[1]);
    lock(&first);
    return unused;
}

int main(void) {
    sem_init(&has_first, 0, 0);
    sem_init(&has_second, 0, 0);
    make(&first, PTHREAD_PRIO_NONE, PTHREAD_MUTEX_NORMAL, 0);
    make(&second, PTHREAD_PRIO_NONE, PTHREAD_MUTEX_NORMAL, 0);
    start(one, NULL);
    while (!is_named) rest(1); /* so that one's records come first */
    start(two, NULL);
    for (int i = 0; i < 2; i++) until_waits(&waiting[i]);
    return 0;
}
