/* Three threads over the mutexes of pi_mutex.h: the low one owns a mutex, the medium one works, and
 * the high one asks for the mutex; then a deadlock is refused, and a wait is given up; a recursive
 * mutex is locked twice, and a ceiling is set. What each is answered is printed, the same at each
 * run. The word -v tells on standard error whether the system ran the threads at their
 * priorities. */
#include "pi_mutex.h"

#include <errno.h>
#include <pthread.h>
#include <stdatomic.h>
#include <stdio.h>
#include <string.h>

enum { LOW = 1, MEDIUM = 2, HIGH = 3, MUTEX = 1, OTHER = 2, RECURSIVE = 3, PROTECTED = 4, TURNS = 2000 };

static atomic_int is_held, is_over;
static long counted; /* guarded by the mutex: each thread adds to it */

static void wait_until_set(atomic_int *flag) {
    struct timespec moment = { 0, 1000000 };
    while (!atomic_load(flag)) nanosleep(&moment, NULL);
}

static void wait_until_waiting(uint16_t thread) {
    struct timespec moment = { 0, 1000000 };
    while (!pi_is_waiting(thread)) nanosleep(&moment, NULL);
}

static void *low(void *none) {
    pi_register(LOW);
    pi_lock(LOW, MUTEX);
    printf("low owns the mutex, at %u\n", (unsigned)pi_priority(LOW));
    atomic_store(&is_held, 1);
    wait_until_waiting(HIGH);
    printf("high waits, so low executes at %u\n", (unsigned)pi_priority(LOW));
    printf("low asks for what it owns: %s\n", pi_lock(LOW, MUTEX) == EDEADLK ? "EDEADLK" : "?");
    pi_unlock(LOW, MUTEX);
    return none;
}

/* Works from the time that high waits until it is through: on one processor low would never run
 * again, were it not at the priority of high. */
static void *medium(void *none) {
    struct timespec moment = { 0, 1000000 };
    pi_register(MEDIUM);
    while (!pi_is_waiting(HIGH) && !atomic_load(&is_over)) nanosleep(&moment, NULL);
    while (!atomic_load(&is_over)) continue;
    return none;
}

static void *high(void *none) {
    pi_register(HIGH);
    wait_until_set(&is_held);
    pi_lock(HIGH, MUTEX);
    printf("high was handed the mutex, and low is back at %u\n", (unsigned)pi_priority(LOW));
    pi_unlock(HIGH, MUTEX);
    atomic_store(&is_over, 1);
    return none;
}

/* Locks, counts and unlocks, against the other threads. */
static void *count(void *thread) {
    uint16_t self = *(const uint16_t *)thread;
    pi_register(self);
    for (int turn = 0; turn < TURNS; turn++) {
        pi_lock(self, MUTEX);
        counted++;
        pi_unlock(self, MUTEX);
    }
    return thread;
}

static void *give_up(void *none) {
    struct timespec until;
    clock_gettime(CLOCK_REALTIME, &until);
    until.tv_nsec += 20000000;
    if (until.tv_nsec >= 1000000000) until.tv_nsec -= 1000000000, until.tv_sec++;
    pi_register(HIGH);
    printf("high waits for a while: %s\n", pi_timedlock(HIGH, OTHER, &until) == ETIMEDOUT ? "ETIMEDOUT" : "?");
    return none;
}

static void *lock_twice(void *none) {
    pi_register(LOW);
    pi_lock(LOW, RECURSIVE);
    printf("low locks a recursive mutex again: %s\n", pi_lock(LOW, RECURSIVE) == 0 ? "granted" : "?");
    atomic_store(&is_held, 1);
    wait_until_waiting(HIGH);
    pi_unlock(LOW, RECURSIVE);
    printf("after one unlock high still waits, and low executes at %u\n", (unsigned)pi_priority(LOW));
    pi_unlock(LOW, RECURSIVE);
    return none;
}

static void *ask_for_it(void *none) {
    pi_register(HIGH);
    wait_until_set(&is_held);
    pi_lock(HIGH, RECURSIVE);
    printf("after two high was handed the mutex, and low is back at %u\n", (unsigned)pi_priority(LOW));
    pi_unlock(HIGH, RECURSIVE);
    return none;
}

static void *lock_too_often(void *none) {
    int locks = 0, error;
    pi_register(LOW);
    while ((error = pi_lock(LOW, RECURSIVE)) == 0) locks++;
    printf("low locks it %d times, and then: %s\n", locks, error == EAGAIN ? "EAGAIN" : "?");
    while (locks-- > 0) pi_unlock(LOW, RECURSIVE);
    return none;
}

static void *set_ceiling(void *none) {
    uint16_t old = 0;
    pi_register(LOW);
    pi_lock(LOW, PROTECTED);
    printf("low owns a mutex with a ceiling, at %u\n", (unsigned)pi_priority(LOW));
    int error = pi_setprioceiling(LOW, PROTECTED, 70, &old);
    printf("it sets the ceiling, %u, to 70: %s, at %u\n", (unsigned)old, error == 0 ? "set" : "?", (unsigned)pi_priority(LOW));
    pi_unlock(LOW, PROTECTED);
    return none;
}

static void run(void *(*const work[])(void *), int count_of_work) {
    static const uint16_t numbers[] = { LOW, MEDIUM, HIGH };
    pthread_t threads[3];
    for (int i = 0; i < count_of_work; i++) pthread_create(&threads[i], NULL, work[i], (void *)&numbers[i]);
    for (int i = 0; i < count_of_work; i++) pthread_join(threads[i], NULL);
}

/* One thread after the other: high gives up a wait for a mutex of low; low locks one too often, and
 * sets a ceiling. */
static void run_alone(void) {
    static void *(*const waits[])(void *) = { give_up };
    static void *(*const locks[])(void *) = { lock_too_often };
    static void *(*const ceilings[])(void *) = { set_ceiling };
    pi_register(LOW);
    pi_lock(LOW, OTHER);
    run(waits, 1);
    printf("and low is at %u\n", (unsigned)pi_priority(LOW));
    pi_unlock(LOW, OTHER);
    run(locks, 1);
    run(ceilings, 1);
}

int main(int argc, char **argv) {
    static const uint16_t bases[] = { 10, 50, 90 };
    static const struct pim_protocol protocols[] = {
        { PIM_INHERIT, 0 }, { PIM_INHERIT, 0 }, { PIM_INHERIT_RECURSIVE, 0 }, { PIM_PROTECT, 60 }
    };
    static void *(*const inversion[])(void *) = { low, medium, high };
    static void *(*const counts[])(void *) = { count, count, count };
    static void *(*const recursion[])(void *) = { lock_twice, ask_for_it };
    if (pi_start(bases, 3, protocols, 4) != 0) return 1;
    run(inversion, 3);
    run(counts, 3);
    printf("three threads counted to %ld\n", counted);
    atomic_store(&is_held, 0);
    run(recursion, 2);
    run_alone();
    if (argc > 1 && strcmp(argv[1], "-v") == 0) fprintf(stderr, "priorities: %s\n", pi_is_scheduled() ? "by the system" : "told alone");
    pi_end();
    return 0;
}
