/* Mutexes. libpim decides who owns one and at which priority each thread executes; this blocks,
 * wakes and schedules threads accordingly. Threads call it, with interrupts on.
 *
 * Each function returns 0 unless it says otherwise, or why it did nothing: the negative number of
 * a refusal, as -PIM_REFUSED_DEADLOCK, or one of the numbers below. */
#ifndef MUTEXES_H
#define MUTEXES_H

#include "pim.h"
#include "scheduler.h"

enum { MUTEX_KEPT = 1, MUTEX_TIMED_OUT = -64, MUTEX_WITHDRAWN = -65 };

/* Makes threads 1, 2, .. known with these priorities, and free mutexes 1, 2, .. of these
 * protocols, in place of all before. Returns what pim_make does. */
uint32_t mutexes_start(const uint16_t *bases, uint16_t thread_count,
                       const struct pim_protocol *protocols, uint16_t mutex_count);

/* Waits for the mutex. The second stops waiting at a tick after the deadline, in counts of the
 * clock, and returns MUTEX_TIMED_OUT. Returns MUTEX_WITHDRAWN if another thread withdrew the
 * wait. */
int mutex_lock(uint16_t mutex);
int mutex_timedlock(uint16_t mutex, uint64_t deadline);
int mutex_trylock(uint16_t mutex);

/* Returns MUTEX_KEPT if the thread has locked the recursive mutex more often. */
int mutex_unlock(uint16_t mutex);

/* Unlocks all mutexes of the thread. Returns how many. */
int mutex_unlock_all(void);

/* Ends the wait of another thread. */
int mutex_withdraw(uint16_t thread);

/* Sets the priority that a thread has without boosts, 1 to 99. */
int thread_set_priority(uint16_t thread, uint16_t prio);

/* Sets the ceiling of a PROTECT mutex that is free or the thread's, 1 to 99. */
int mutex_set_ceiling(uint16_t mutex, uint16_t ceiling);

/* Ends the wait of a thread whose deadline has passed: locked. */
void mutex_time_is_out(struct thread *thread);

/* Returns libpim's manager, for programs that compare the kernel with it. */
struct pim_handle *mutexes_manager(void);

#endif
