/* How many threads of a program haven't finished. Any thread may be preempted while it counts. */
#ifndef FINISHING_H
#define FINISHING_H

#include "board.h"

#include <stdbool.h>

static int unfinished;

static inline void one_has_finished(void) {
    __atomic_fetch_sub(&unfinished, 1, __ATOMIC_RELAXED);
}

static inline bool all_have_finished(void) {
    return __atomic_load_n(&unfinished, __ATOMIC_RELAXED) == 0;
}

/* For the idle thread. */
static inline void wait_for_all(void) {
    while (!all_have_finished()) wait_for_interrupt();
}

#endif
