/* The functions of c/threads/pi_mutex.h that tests/c/inversion.c calls, over pthread_mutex_lock: so that
 * the program shows the same of the mutexes of the system, or of c/pthreads in their place. */
#define _GNU_SOURCE
#include "threads/pi_mutex.h"

#include <pthread.h>
#include <sched.h>
#include <stdatomic.h>

static pthread_mutex_t mutex;
static uint16_t bases[4];
static atomic_int asks[4];
static atomic_bool is_scheduled;

int pi_start(const uint16_t *given, size_t count, const struct pim_protocol *protocols, size_t mutexes) {
    pthread_mutexattr_t attributes;
    if (count > 3 || mutexes != 1) return 1;
    for (size_t t = 0; t < count; t++) bases[t + 1] = given[t];
    pthread_mutexattr_init(&attributes);
    pthread_mutexattr_setprotocol(&attributes, protocols->kind == PIM_INHERIT ? PTHREAD_PRIO_INHERIT : PTHREAD_PRIO_NONE);
    return pthread_mutex_init(&mutex, &attributes);
}

void pi_end(void) {
    pthread_mutex_destroy(&mutex);
}

void pi_register(uint16_t thread) {
    struct sched_param param = { .sched_priority = bases[thread] };
    atomic_store(&is_scheduled, pthread_setschedparam(pthread_self(), SCHED_FIFO, &param) == 0);
}

int pi_lock(uint16_t thread, uint16_t number) {
    (void)number;
    atomic_store(&asks[thread], 1);
    return pthread_mutex_lock(&mutex);
}

int pi_unlock(uint16_t thread, uint16_t number) {
    (void)number;
    atomic_store(&asks[thread], 0);
    return pthread_mutex_unlock(&mutex);
}

/* It is asked each millisecond: ten of them after its request, the thread waits. */
bool pi_is_waiting(uint16_t thread) {
    return atomic_load(&asks[thread]) != 0 && atomic_fetch_add(&asks[thread], 1) > 10;
}

bool pi_is_scheduled(void) {
    return atomic_load(&is_scheduled);
}
