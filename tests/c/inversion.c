/* The priority inversion itself, by the system's scheduler: three threads under SCHED_FIFO on one
 * CPU, over c/threads/pi_mutex.c. The low one owns a mutex, the high one waits for it, and
 * the medium one is ready to work for half a second when the low one unlocks. The high thread must
 * own the mutex before the medium one has finished. Prints how long it took. Status 1 where the
 * medium thread was first, 77 where the process may not set priorities or its CPU. */
#define _GNU_SOURCE
#include "threads/pi_mutex.h"

#include <errno.h>
#include <pthread.h>
#include <sched.h>
#include <stdatomic.h>
#include <stdio.h>
#include <string.h>
#include <unistd.h>

enum { LOW = 1, MEDIUM = 2, HIGH = 3, MUTEX = 1, SKIPPED = 77 };

static atomic_int is_held, is_medium_there, is_wanted, has_medium_finished, is_over, is_inverted;
static double asked, unlocked, owned;

static double seconds(clockid_t clock) {
    struct timespec now;
    clock_gettime(clock, &now);
    return (double)now.tv_sec + (double)now.tv_nsec * 1e-9;
}

static void nap(long milliseconds) {
    struct timespec time = { 0, milliseconds * 1000000 };
    nanosleep(&time, NULL);
}

/* Works with the mutex until the nap of the medium thread is long over. */
static void *low(void *none) {
    pi_register(LOW);
    pi_lock(LOW, MUTEX);
    atomic_store(&is_held, 1);
    while (!pi_is_waiting(HIGH)) nap(1);
    atomic_store(&is_wanted, 1);
    double end = seconds(CLOCK_MONOTONIC) + 0.05;
    while (seconds(CLOCK_MONOTONIC) < end) continue;
    unlocked = seconds(CLOCK_MONOTONIC);
    pi_unlock(LOW, MUTEX);
    return none;
}

static void *medium(void *none) {
    pi_register(MEDIUM);
    atomic_store(&is_medium_there, 1);
    while (!atomic_load(&is_wanted)) nap(1);
    double end = seconds(CLOCK_THREAD_CPUTIME_ID) + 0.5;
    while (seconds(CLOCK_THREAD_CPUTIME_ID) < end && !atomic_load(&is_over)) continue;
    atomic_store(&has_medium_finished, 1);
    return none;
}

static void *high(void *none) {
    pi_register(HIGH);
    while (!atomic_load(&is_held) || !atomic_load(&is_medium_there)) nap(1);
    nap(5);
    asked = seconds(CLOCK_MONOTONIC);
    pi_lock(HIGH, MUTEX);
    owned = seconds(CLOCK_MONOTONIC);
    atomic_store(&is_inverted, atomic_load(&has_medium_finished));
    atomic_store(&is_over, 1);
    pi_unlock(HIGH, MUTEX);
    return none;
}

/* Returns 0 where the process may run on one CPU and under SCHED_FIFO up to 90, else why not. */
static int take_one_cpu(void) {
    struct sched_param fifo = { .sched_priority = 90 }, other = { .sched_priority = 0 };
    cpu_set_t allowed, one;
    int cpu = CPU_SETSIZE - 1;
    if (sched_getaffinity(0, sizeof allowed, &allowed) != 0) return errno;
    while (cpu > 0 && !CPU_ISSET(cpu, &allowed)) cpu--;
    CPU_ZERO(&one);
    CPU_SET(cpu, &one);
    if (sched_setaffinity(0, sizeof one, &one) != 0) return errno;
    if (sched_setscheduler(0, SCHED_FIFO, &fifo) != 0) return errno;
    return sched_setscheduler(0, SCHED_OTHER, &other) != 0 ? errno : 0;
}

int main(void) {
    static const uint16_t bases[] = { 10, 50, 90 };
    static const struct pim_protocol protocols[] = { { PIM_INHERIT, 0 } };
    static void *(*const work[])(void *) = { low, medium, high };
    pthread_t threads[3];
    int error = take_one_cpu();
    if (error != 0) {
        printf("SCHED_FIFO on one CPU: %s\n", strerror(error));
        return SKIPPED;
    }
    alarm(20);
    if (pi_start(bases, 3, protocols, 1) != 0) return 1;
    for (int i = 0; i < 3; i++) pthread_create(&threads[i], NULL, work[i], NULL);
    for (int i = 0; i < 3; i++) pthread_join(threads[i], NULL);
    printf("%.1f ms after its request, %.3f ms after the unlock", (owned - asked) * 1e3, (owned - unlocked) * 1e3);
    printf("%s\n", atomic_load(&is_inverted) ? ", when the medium thread had finished" : "");
    if (!pi_is_scheduled()) printf("the priorities were not set\n");
    int wrong = atomic_load(&is_inverted) || !pi_is_scheduled();
    pi_end();
    return wrong;
}
