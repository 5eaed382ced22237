/* How long interrupts are off and the kernel's lock is held, in cycles: only with -DMEASURE. */
#ifndef MEASURE_H
#define MEASURE_H

#include "board.h"

#include <stdbool.h>

/* A kind of time that begins and ends again and again, each time perhaps in another thread. */
struct span {
    bool has_begun;   /* and not ended */
    uint64_t since;   /* cycle counter at its last begin */
    uint64_t longest; /* cycles, since it was last set to 0 */
};
extern struct span interrupts_are_off, lock_is_held;

#ifdef MEASURE
/* A begin within a begun time changes nothing. */
static inline void span_begins(struct span *span) {
    if (span->has_begun) return;
    span->has_begun = true;
    span->since = cycles_now();
}

static inline void span_ends(struct span *span) {
    uint64_t cycles = cycles_now() - span->since;
    span->has_begun = false;
    if (cycles > span->longest) span->longest = cycles;
}
#else
static inline void span_begins(struct span *span) { (void)span; }
static inline void span_ends(struct span *span) { (void)span; }
#endif

static inline void interrupts_off(void) {
    disable_interrupts();
    span_begins(&interrupts_are_off);
}

static inline void interrupts_on(void) {
    span_ends(&interrupts_are_off);
    enable_interrupts();
}

#endif
