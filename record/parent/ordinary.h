/* A process of the recorder that is never to keep the program's threads from a CPU. */
#ifndef ORDINARY_H
#define ORDINARY_H

#include <sched.h>
#include <stdbool.h>

/* Leaves a real-time priority. */
static inline void be_ordinary(void) {
    const struct sched_param none = { 0 };
    int policy = sched_getscheduler(0);
    bool is_real_time = policy != SCHED_OTHER && policy != SCHED_BATCH && policy != SCHED_IDLE;
    if (is_real_time) sched_setscheduler(0, SCHED_OTHER, &none);
}

#endif
