#define _GNU_SOURCE
#include "recorder.h"

#include "inner.h"
#include "wrappers.h"

#include <errno.h>
#include <sched.h>
#include <stdlib.h>
#include <string.h>
#include <unistd.h>

_Atomic bool recorder_is_ready;
bool recorder_tries;

static void begin(void) {
    const char *preloaded = getenv("LD_PRELOAD");
    recorder_tries = !preloaded || !strstr(preloaded, "/vgpreload_");
    real_find();
    inner_test();
    log_make();
    if (log_header) {
        wrappers_find();
        processes_start();
        thread_make_key();
        thread_introduce();
        modules_tell();
    }
    log_has_begun();
}

/* A thread that comes while another begins waits for it. A call that begin itself makes, as an
 * allocator's under dlsym, goes to the function that is found by then. */
__attribute__((constructor)) void recorder_start(void) {
    static _Atomic bool has_begun;
    if (log_cursor.depth) return;
    if (atomic_exchange(&has_begun, true)) {
        while (!atomic_load_explicit(&recorder_is_ready, memory_order_acquire)) sched_yield();
        return;
    }
    int error = errno;
    log_cursor.depth++;
    begin();
    /* First: a handler of this thread would wait for itself. */
    atomic_store_explicit(&recorder_is_ready, true, memory_order_release);
    log_cursor.depth--;
    errno = error;
}
