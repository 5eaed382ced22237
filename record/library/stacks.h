/* --stacks: who called a lock that finds its mutex owned. The thread waits anyway, so its stack is
 * unwound first, by backtrace(3). */
#ifndef PIM_STACKS_H
#define PIM_STACKS_H

#include "visibility.h"

#include <stdbool.h>
#include <stdint.h>

enum { MOST_CALLERS = 15 }; /* with the place of the call 16 frames */

extern HIDDEN bool stacks_are_on;

/* Has stacks recorded, or says in a line why they can't be. Loads what the unwinder needs, so that
 * nothing is loaded or allocated later. */
void stacks_start(void);

/* Puts a FRAME of this time for each caller of the function at whose place the call is made, the
 * innermost first. Functions that lock for others by wrappers.h are left out. It is called between
 * log_begin and log_end: a lock that the unwinder takes, or a handler that interrupts it, isn't
 * put, but counted, and never unwinds. */
void stacks_put(uint64_t place, uint64_t time);

#endif
