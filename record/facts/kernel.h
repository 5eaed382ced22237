/* What the kernel did meanwhile, by LOG.kernel: FORMAT.md. */
#ifndef PIM_FACTS_KERNEL_H
#define PIM_FACTS_KERNEL_H

#include "told.h"

enum { MOST_CPUS = 65536 };

enum kernel_what { RUNS, ON, READY, ASLEEP, WAKE, LOST, FUTEX, FUTEX_ENDS, LOCK, LOCK_FAILS };

struct kernel_fact {
    uint64_t time;
    uint64_t count;  /* LOST: events */
    uint32_t thread; /* of the log's threads, to which those of other programs are added */
    uint32_t value;  /* RUNS: the level; ON: the CPU; FUTEX, FUTEX_ENDS: the object; LOCK,
                      * LOCK_FAILS: the mutex */
    uint32_t by;     /* FUTEX_ENDS: the thread that woke it, or NONE; LOCK: the call's record */
    uint16_t flags;  /* FUTEX_ENDS: how it ended */
    bool is_boost;   /* RUNS: a boost begins, changes or ends */
    uint8_t what;
};

struct kernel {
    struct kernel_fact *facts;
    uint32_t count, next;
    uint32_t first_other; /* the threads from this one on aren't in the log */
    bool is_there, is_whole;
};

/* Reads the kernel's events, and adds the threads that only they show to the log, and the futexes
 * to the objects. Refuses what is none, or is damaged. The waits of the log are found by then. */
void kernel_read(struct kernel *kernel, struct told *told, const char *path, const char *bytes,
                 size_t length);

#endif
