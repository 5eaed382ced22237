/* A handler of a signal that comes every tenth of a millisecond locks a mutex, while the program
 * locks another, makes a third, and waits at a condition variable, for a tenth of a second. */
#define _GNU_SOURCE
#include "common.h"

#include <signal.h>
#include <sys/time.h>

static pthread_mutex_t mutex = PTHREAD_MUTEX_INITIALIZER, handlers = PTHREAD_MUTEX_INITIALIZER;
static pthread_cond_t condition = PTHREAD_COND_INITIALIZER;

static void handle(int signal) {
    (void)signal;
    lock(&handlers);
    unlock(&handlers);
}

int main(void) {
    struct sigaction action = { .sa_handler = handle, .sa_flags = SA_RESTART };
    struct itimerval often = { .it_interval = { .tv_usec = 100 }, .it_value = { .tv_usec = 100 } };
    struct timespec past = { .tv_sec = 1 }, until = after(CLOCK_MONOTONIC, 100), now;
    pthread_mutex_t own;
    sigaction(SIGALRM, &action, NULL);
    setitimer(ITIMER_REAL, &often, NULL);
    do {
        lock(&mutex);
        expect(pthread_cond_timedwait(&condition, &mutex, &past), ETIMEDOUT, "timedwait");
        unlock(&mutex);
        must(pthread_mutex_init(&own, NULL), "pthread_mutex_init");
        clock_gettime(CLOCK_MONOTONIC, &now);
    } while (now.tv_sec < until.tv_sec ||
             (now.tv_sec == until.tv_sec && now.tv_nsec < until.tv_nsec));
    return 0;
}
