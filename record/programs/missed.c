/* missed [ROUNDS]: each wait of a thread high (80) is for a thread low (10), and nothing bounds it.
 * They have a CPU each. In each round high wakes low at a condition variable, and low computes for
 * 300 us with the NONE mutex. Meanwhile high locks and unlocks the mutex over and over, so that it
 * waits for low once in most rounds. Low's relock has its GRANTED when the wait at the condition
 * variable returns. The REQUEST of high, which names low, may have come before that: then the last
 * owner in the log is high itself. Prints how often high was kept for more than 20 us. */
#define _GNU_SOURCE
#include "common.h"

static pthread_mutex_t mutex = PTHREAD_MUTEX_INITIALIZER;
static pthread_cond_t condition = PTHREAD_COND_INITIALIZER;
static bool is_asked, is_over;
static int rounds = 20, cpus[2];

static int64_t microseconds(void) {
    struct timespec now;
    clock_gettime(CLOCK_MONOTONIC, &now);
    return now.tv_sec * (int64_t)1000000 + now.tv_nsec / 1000;
}

static void compute_until(int64_t time) {
    while (microseconds() < time) continue;
}

static void run_on(int cpu, const char *name) {
    cpu_set_t one;
    CPU_ZERO(&one);
    CPU_SET(cpu, &one);
    must(pthread_setaffinity_np(pthread_self(), sizeof one, &one), "pthread_setaffinity_np");
    pthread_setname_np(pthread_self(), name);
}

static void *low(void *unused) {
    run_on(cpus[0], "low");
    lock(&mutex);
    while (!is_over) {
        must(pthread_cond_wait(&condition, &mutex), "pthread_cond_wait");
        if (!is_asked) continue;
        is_asked = false;
        compute_until(microseconds() + 300);
    }
    unlock(&mutex);
    return unused;
}

static void wake_low(bool *why) {
    lock(&mutex);
    *why = true;
    must(pthread_cond_signal(&condition), "pthread_cond_signal");
    unlock(&mutex);
}

static void *high(void *unused) {
    int waits = 0;
    run_on(cpus[1], "high");
    for (int round = 0; round < rounds; round++) {
        rest(1); /* low waits at the condition variable by then */
        wake_low(&is_asked);
        int64_t end = microseconds() + 400;
        while (microseconds() < end) {
            int64_t began = microseconds();
            lock(&mutex);
            waits += microseconds() - began > 20;
            unlock(&mutex);
        }
    }
    wake_low(&is_over);
    printf("high waited for low %d times\n", waits);
    return unused;
}

/* Finds two CPUs that the program may run on. */
static bool has_two_cpus(void) {
    cpu_set_t allowed;
    int count = 0;
    sched_getaffinity(0, sizeof allowed, &allowed);
    for (int cpu = 0; cpu < CPU_SETSIZE && count < 2; cpu++)
        if (CPU_ISSET(cpu, &allowed)) cpus[count++] = cpu;
    return count == 2;
}

int main(int count, char **arguments) {
    if (count > 1) rounds = atoi(arguments[1]);
    if (!has_two_cpus()) {
        puts("there is one CPU");
        return SKIPPED;
    }
    be_real_time(90);
    pthread_t l = start_at(10, low, NULL), h = start_at(80, high, NULL);
    join(h);
    join(l);
    return 0;
}
