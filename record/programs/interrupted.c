/* A handler of a signal that comes every tenth of a millisecond posts a semaphore, while the
 * program locks mutexes, of which it owns up to three, and tries to lock them once more. Nobody
 * waits. It prints how many calls got a mutex, how many got none, and how many posts there were. */
#define _GNU_SOURCE
#include "common.h"

#include <signal.h>
#include <sys/time.h>

enum { MUTEXES = 3, ROUNDS = 300000 };

static sem_t semaphore;
static pthread_mutex_t mutexes[MUTEXES] = { PTHREAD_MUTEX_INITIALIZER, PTHREAD_MUTEX_INITIALIZER,
                                            PTHREAD_MUTEX_INITIALIZER };

static void post(int signal) {
    (void)signal;
    sem_post(&semaphore);
}

int main(void) {
    struct sigaction action = { .sa_handler = post, .sa_flags = SA_RESTART };
    struct itimerval often = { .it_interval = { .tv_usec = 100 }, .it_value = { .tv_usec = 100 } };
    struct itimerval never = { .it_value = { .tv_usec = 0 } };
    int posts;
    sem_init(&semaphore, 0, 0);
    sigaction(SIGALRM, &action, NULL);
    setitimer(ITIMER_REAL, &often, NULL);
    for (int i = 0; i < ROUNDS; i++) {
        for (int j = 0; j < MUTEXES; j++) lock(&mutexes[j]);
        for (int j = 0; j < MUTEXES; j++)
            expect(pthread_mutex_trylock(&mutexes[j]), EBUSY, "trylock");
        for (int j = 0; j < MUTEXES; j++) unlock(&mutexes[j]);
    }
    setitimer(ITIMER_REAL, &never, NULL);
    sem_getvalue(&semaphore, &posts);
    printf("%d %d %d\n", MUTEXES * ROUNDS, MUTEXES * ROUNDS, posts);
    return 0;
}
