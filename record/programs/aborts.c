/* aborts [kill]: ends by abort, or by SIGKILL, while it owns a mutex and a thread waits for it. */
#define _GNU_SOURCE
#include "common.h"

#include <signal.h>

static pthread_mutex_t mutex = PTHREAD_MUTEX_INITIALIZER;
static sem_t is_coming;
static _Atomic pid_t waiting;

static void *waiter(void *unused) {
    sem_post(&is_coming);
    comes(&waiting);
    lock(&mutex);
    return unused;
}

int main(int count, char **arguments) {
    (void)arguments;
    sem_init(&is_coming, 0, 0);
    lock(&mutex);
    start(waiter, NULL);
    while (sem_wait(&is_coming)) continue;
    until_waits(&waiting);
    if (count > 1) raise(SIGKILL);
    abort();
}
