/* Locks from several threads for so many seconds: busy ones, quiet ones, one at SCHED_FIFO 80 that
 * waits for the mutex of one at 10 each second, short ones, and one that makes and destroys
 * mutexes. Prints how often each of them locked. */
#define _GNU_SOURCE
#include "common.h"

enum { BUSY = 4, QUIET = 4, BURST = 1000, BURST_MS = 50, OWNED_MS = 5, MANY = 70000 };

static pthread_mutex_t shared = PTHREAD_MUTEX_INITIALIZER;
static pthread_mutex_t many[MANY];
static _Atomic bool is_over;
static _Atomic unsigned long pairs[4]; /* of the busy, the quiet, the waiting and the short ones */
static sem_t is_owned;

/* The right to SCHED_FIFO is there by now. */
static void be_ordinary(void) {
    const struct sched_param none = { 0 };
    must(pthread_setschedparam(pthread_self(), SCHED_OTHER, &none), "pthread_setschedparam");
}

static bool is_past(struct timespec time) {
    struct timespec now = after(CLOCK_MONOTONIC, 0);
    return now.tv_sec > time.tv_sec || (now.tv_sec == time.tv_sec && now.tv_nsec >= time.tv_nsec);
}

static void lock_once(pthread_mutex_t *mutex, int kind) {
    lock(mutex);
    unlock(mutex);
    pairs[kind]++;
}

static void *be_busy(void *unused) {
    pthread_mutex_t own;
    make(&own, PTHREAD_PRIO_INHERIT, PTHREAD_MUTEX_NORMAL, 0);
    for (; !is_over; rest(BURST_MS))
        for (int i = 0; i < BURST; i++) lock_once(&own, 0);
    return unused;
}

static void *be_quiet(void *unused) {
    pthread_mutex_t own = PTHREAD_MUTEX_INITIALIZER;
    for (int tenths = 0; !is_over; rest(100), tenths++)
        if (tenths % 600 == 0) lock_once(&own, 1);
    return unused;
}

static void *own_it(void *unused) {
    for (; !is_over; rest(1000)) {
        lock(&shared);
        sem_post(&is_owned);
        rest(OWNED_MS);
        unlock(&shared);
    }
    sem_post(&is_owned);
    return unused;
}

static void *wait_for_it(void *unused) {
    while (!is_over) {
        while (sem_wait(&is_owned) != 0) continue;
        lock_once(&shared, 2);
    }
    return unused;
}

static void *be_short(void *unused) {
    lock_once(&shared, 3);
    return unused;
}

static void *make_many(void *unused) {
    for (int i = 0; !is_over; i = (i + 1) % MANY) {
        make(&many[i], PTHREAD_PRIO_NONE, PTHREAD_MUTEX_NORMAL, 0);
        must(pthread_mutex_destroy(&many[(i + 1) % MANY]), "pthread_mutex_destroy");
        if (i % 10 == 0) rest(1);
    }
    return unused;
}

int main(int count, char **arguments) {
    pthread_t threads[BUSY + QUIET + 3];
    int started = 0;
    be_real_time(50);
    be_ordinary();
    for (int i = 0; i < BUSY; i++) threads[started++] = start(be_busy, NULL);
    for (int i = 0; i < QUIET; i++) threads[started++] = start(be_quiet, NULL);
    threads[started++] = start_at(10, own_it, NULL);
    threads[started++] = start_at(80, wait_for_it, NULL);
    threads[started++] = start(make_many, NULL);
    struct timespec end = after(CLOCK_MONOTONIC, count > 1 ? 1000 * atol(arguments[1]) : 1000);
    while (!is_past(end)) {
        join(start(be_short, NULL));
        rest(100);
    }
    is_over = true;
    while (started > 0) join(threads[--started]);
    printf("busy %lu, quiet %lu, waiting %lu, short %lu\n", pairs[0], pairs[1], pairs[2], pairs[3]);
    return 0;
}
