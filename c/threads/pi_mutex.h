/* pi_mutex.h - mutexes for POSIX threads, with the protocols NONE, INHERIT and PROTECT, by libpim;
 * those with INHERIT may be recursive.
 *
 * A small thread library's mutex: libpim decides, and this file turns its answers into blocking,
 * waking and priorities. A thread has a number, and so has a mutex. One mutex of the C library,
 * the guard, is held around each call of libpim and until its answer is done; no thread holds it
 * while it works with a mutex of this file.
 *
 * A thread that lowers itself may be preempted at that moment. Two things keep a thread of medium
 * priority from delaying a higher one then: an unlock wakes the new owner before any priority is
 * lowered, and the guard inherits priorities.
 *
 * Where the process may, each thread runs under SCHED_FIFO at its effective priority. Elsewhere
 * pi_priority only reports priorities: the answers are the same, and the threads run as the system
 * schedules them. */
#ifndef PI_MUTEX_H
#define PI_MUTEX_H

#include "pim.h"

#include <stdbool.h>
#include <time.h>

/* Makes the mutexes and the numbers of the threads: thread t has the base priority bases[t - 1].
 * Returns 0, or ENOMEM, or EINVAL where pim_make refuses the numbers, or ENOTSUP where the system has
 * no mutexes that inherit. The functions below are for after that. */
int pi_start(const uint16_t *bases, size_t threads, const struct pim_protocol *protocols, size_t mutexes);

/* Frees everything. No thread may be in a function of this file. */
void pi_end(void);

/* Makes the calling thread the one of this number: it executes at the priority of that from then
 * on. */
void pi_register(uint16_t thread);

/* As their namesakes of pthreads, with the same errors; and the caller's number first. */
int pi_lock(uint16_t thread, uint16_t mutex);
int pi_trylock(uint16_t thread, uint16_t mutex);
int pi_timedlock(uint16_t thread, uint16_t mutex, const struct timespec *until);
int pi_unlock(uint16_t thread, uint16_t mutex);
int pi_setschedprio(uint16_t thread, uint16_t target, uint16_t prio);

/* As pthread_mutex_setprioceiling, but that it doesn't lock the mutex, and so blocks nobody: EBUSY
 * where another thread owns it. The ceiling that it had is written to old, unless old is NULL. */
int pi_setprioceiling(uint16_t thread, uint16_t mutex, uint16_t ceiling, uint16_t *old);

/* Returns the priority at which the thread is to execute. */
uint16_t pi_priority(uint16_t thread);

/* Returns whether the thread waits for a mutex. */
bool pi_is_waiting(uint16_t thread);

/* Returns whether the system runs the threads at their priorities; false before the first
 * pi_register. */
bool pi_is_scheduled(void);

#endif
