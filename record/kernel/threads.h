/* The threads whose events an instance records. */
#ifndef THREADS_H
#define THREADS_H

#include <stdbool.h>
#include <sys/types.h>

#include "instance.h"

/* Has the events of each thread of a process recorded, and of each task that these create from then
 * on. A process that has ended has none. Threads that each create the next one and end may keep it
 * looking: it stops once `is_over`, if that isn't NULL, returns true.
 * Returns false with errno set. */
bool choose_threads(const struct instance *of, pid_t process, bool (*is_over)(void));

#endif
