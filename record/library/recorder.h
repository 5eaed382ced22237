/* How each recorded function begins: whether its call is recorded. */
#ifndef PIM_RECORDER_H
#define PIM_RECORDER_H

#include "log.h"
#include "real.h"

#include <stdatomic.h>
#include <stdbool.h>

extern HIDDEN _Atomic bool recorder_is_ready;

/* Whether what can be had at once is tried first. Not under valgrind: helgrind and drd don't know
 * all of the calls that try, and would find races in the program. */
extern HIDDEN bool recorder_tries;

/* Finds the C library's functions, makes the log, and tells how the program began. Runs before
 * main, or at the first recorded call, which may come before. */
void recorder_start(void);

/* Puts the calling thread's first records: its priority and its name. */
void thread_introduce(void);

/* Puts the calling thread's priority if it is another one than before: another process may set it,
 * and no call of the program says so. */
void thread_look(void);

/* Says for how long a call of the thread took. The thread looks after a long one. */
static inline void thread_took(uint64_t nanoseconds) {
    const uint64_t is_long = 1000000;
    if (__builtin_expect(nanoseconds > is_long, 0)) thread_look();
}

/* Makes the key whose destructor tells of a thread's end. */
void thread_make_key(void);

/* Has forks recorded. */
void processes_start(void);

/* Tells of the modules that are loaded, but for those of which it told before. */
void modules_tell(void);

/* Has the C library's functions there. */
static inline void recorder_find(void) {
    bool is_ready = atomic_load_explicit(&recorder_is_ready, memory_order_acquire);
    if (__builtin_expect(!is_ready, 0)) recorder_start();
}

/* Returns whether the calling thread's call is to be recorded. */
static inline bool is_recorded(void) {
    recorder_find();
    if (__builtin_expect(!log_header || log_cursor.depth, 0)) return false;
    if (__builtin_expect(!log_cursor.is_introduced, 0)) thread_introduce();
    return true;
}

#endif
