/* What the kernel is built with: two switches, and its sizes. -D overrides each. */
#ifndef CONFIG_H
#define CONFIG_H

/* 1: interrupts are off from a step of libpim until its answer is carried out.
 * 0: interrupts stay on, and no thread is switched meanwhile. */
#ifndef INTERRUPTS_OFF
#define INTERRUPTS_OFF 0
#endif

/* 1: a free NONE or INHERIT mutex is locked and unlocked without libpim.
 * 0: libpim is called for each lock and unlock. */
#ifndef FAST_PATH
#define FAST_PATH 1
#endif

#ifndef TICKS_PER_SECOND
#define TICKS_PER_SECOND 1000
#endif

/* How many waits and sleeps one tick ends at most. The following ticks end the others. */
#ifndef ENDED_PER_TICK
#define ENDED_PER_TICK 8
#endif

enum {
    MAX_THREADS = 32, /* tasks of libpim; the kernel has two threads more */
    MAX_MUTEXES = 64,
    STACK_BYTES = 4096
};

#endif
