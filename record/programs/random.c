/* random [SEED] [STEPS] [ordinary]: eight threads with six INHERIT mutexes, nested in ascending
 * order, by lock, trylock and timedlock. With the right to SCHED_FIFO they set each other's
 * priorities, unless they are to be ordinary. */
#define _GNU_SOURCE
#include "common.h"

enum { THREADS = 8, MUTEXES = 6, NESTED = 3 };

static pthread_mutex_t mutexes[MUTEXES];
static pthread_t threads[THREADS];
static pthread_barrier_t all_are_started;
static unsigned seed = 1;
static int steps = 200;
static bool is_real_time;

static int take(pthread_mutex_t *mutex, unsigned *random) {
    struct timespec soon = after(CLOCK_REALTIME, 1);
    switch (rand_r(random) % 4) {
    case 0: return pthread_mutex_timedlock(mutex, &soon);
    case 1: return pthread_mutex_trylock(mutex);
    default: return pthread_mutex_lock(mutex);
    }
}

static void step(unsigned *random) {
    pthread_mutex_t *held[NESTED];
    int count = 0;
    for (int next = rand_r(random) % 3; next < MUTEXES && count < NESTED;) {
        if (take(&mutexes[next], random)) break;
        held[count++] = &mutexes[next];
        next += 1 + rand_r(random) % 3;
    }
    if (rand_r(random) % 8 == 0) usleep(50);
    if (is_real_time && rand_r(random) % 8 == 0)
        pthread_setschedprio(threads[rand_r(random) % THREADS], 10 + rand_r(random) % 40);
    while (count) unlock(held[--count]);
}

static void *work(void *number) {
    unsigned random = seed * 1000 + (unsigned)(uintptr_t)number;
    pthread_barrier_wait(&all_are_started);
    for (int i = 0; i < steps; i++) step(&random);
    pthread_barrier_wait(&all_are_started); /* so that each can set the others' priorities */
    return NULL;
}

int main(int count, char **arguments) {
    struct sched_param param = { .sched_priority = 60 };
    if (count > 1) seed = (unsigned)atoi(arguments[1]);
    if (count > 2) steps = atoi(arguments[2]);
    bool is_ordinary = count > 3 && strcmp(arguments[3], "ordinary") == 0;
    is_real_time = !is_ordinary && pthread_setschedparam(pthread_self(), SCHED_FIFO, &param) == 0;
    pthread_barrier_init(&all_are_started, NULL, THREADS);
    for (int i = 0; i < MUTEXES; i++) make(&mutexes[i], PTHREAD_PRIO_INHERIT, 0, 0);
    for (int i = 0; i < THREADS; i++)
        threads[i] = is_real_time ? start_at(10 + 5 * i, work, (void *)(uintptr_t)i)
                                  : start(work, (void *)(uintptr_t)i);
    for (int i = 0; i < THREADS; i++) join(threads[i]);
    return 0;
}
