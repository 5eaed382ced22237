/* kernel_lines FILE: writes events that are made here as lines of record/FORMAT.md, and prints what
 * is counted of them. Then it writes to files that have no room. */
#define _GNU_SOURCE
#include <errno.h>
#include <inttypes.h>
#include <signal.h>
#include <stdio.h>
#include <string.h>
#include <sys/resource.h>
#include <unistd.h>

#include "../../record/kernel/text.h"

enum { NO_TASK = 4 << 20 };

static struct text text;
static uint64_t time_of_event = 2000;

static void put(enum kind kind, int task, int64_t a, int64_t b, int64_t c, int64_t d) {
    struct event event = { .time = time_of_event++, .cpu = 1, .task = task, .kind = kind,
                           .values = { a, b, c, d } };
    put_event(&text, &event);
}

static void put_switch(int task, const char *name, int64_t state, int64_t next, const char *other) {
    struct event event = { .time = time_of_event++, .cpu = 3, .task = task, .kind = SWITCH,
                           .values = { 49, state, next, 89 } };
    memcpy(event.names[0], name, strnlen(name, NAME_BYTES));
    memcpy(event.names[1], other, strnlen(other, NAME_BYTES));
    put_event(&text, &event);
}

static void names(void) {
    put_switch(21, "lo w", 1, 22, "back\\slash");
    put_switch(22, "back\\slash", 1, 21, "lo w");
    put_switch(21, "0123456789abcdef", 1, 22, "\x7f~!\xff\n");
    put_switch(0, "swapper/3", 0, NO_TASK - 1, "last");
    put_switch(NO_TASK, "none", 0, 0, "swapper/3");
    put_switch(22, "\x7f~!\xff\n", 0, -1, "none");
}

static void states(void) {
    for (int64_t bit = 1; bit <= 0x200; bit *= 2) put_switch(21, "a", bit, 22, "b");
    put_switch(21, "a", 0, 22, "b");
    put_switch(21, "a", 0x102, 22, "b");
    put_switch(21, "a", 3, 22, "b");
    put_switch(21, "a", 0x181, 22, "b");
    put_switch(21, "a", INT64_MIN, 22, "b");
}

static void call(int task, int64_t operation) { put(CALL, task, operation, 0x5000, 0, 0); }

static void calls(void) {
    static const int64_t operations[] = { 6, 134, 7, 135, 8, 136, 13, 141, 0x186, 0x7f00000006 };
    for (size_t i = 0; i < sizeof operations / sizeof *operations; i++) {
        call(21, operations[i]);
        put(RETURN, 21, -(int64_t)i, 0, 0, 0);
    }
    for (int64_t operation = 0; operation < 128; operation++) {
        bool is_lock = (operation >= 6 && operation <= 8) || operation == 13;
        bool is_wait = operation == 0 || operation == 9 || operation == 11;
        if (is_lock || is_wait) continue;
        call(21, operation);
        put(RETURN, 21, 1, 0, 0, 0);
    }
    put(CALL, 21, 134, -4096, 0, 0);
    call(22, 134);
    put(RETURN, 22, -35, 0, 0, 0);
    put(RETURN, 22, 2, 0, 0, 0); /* which answers no call */
    put(RETURN, 21, -110, 0, 0, 0);
    call(21, 134);
    call(21, 1);
    put(RETURN, 21, 3, 0, 0, 0); /* of the later call */
    call(NO_TASK, 134);
    call(-1, 134);
}

static void wake(int task, int64_t woken) { put(WAKING, task, woken, 0, 0, 0); }

static void waits(void) {
    static const int64_t operations[] = { 0, 9, 11, 128, 0x180, 0x189, 139 };
    for (size_t i = 0; i < sizeof operations / sizeof *operations; i++) {
        call(23, operations[i]);
        put(RETURN, 23, -(int64_t)i, 0, 0, 0);
    }
    wake(21, 23); /* which has returned */
    call(23, 128);
    wake(21, 22); /* which doesn't wait */
    wake(21, 23);
    wake(0, 23);
    wake(23, 23);
    wake(NO_TASK, 23);
    wake(21, 0);
    wake(21, -1);
    wake(21, NO_TASK);
    put(RETURN, 23, 0, 0, 0, 0);
    call(23, 134);
    wake(21, 23); /* which waits for a PI mutex */
    call(23, 0);
    put_switch(23, "a", 2, 22, "b");
    wake(21, 23);
    put_switch(23, "a", 0x10, 22, "b"); /* it ends */
    wake(21, 23);
    call(23, 0);
    put_switch(23, "a", 0x20, 22, "b");
    wake(21, 23);
    put(RETURN, 23, 5, 0, 0, 0);
    call(23, 0);
}

static void losses(void) {
    call(21, 134);
    put(LOST, 0, 5, 2150, 0, 0);
    put(RETURN, 21, 4, 0, 0, 0); /* of a call before the loss */
    wake(21, 23);                /* in such a call */
    call(23, 0);
    wake(21, 23);
    call(22, 134);
    put(RETURN, 22, 0, 0, 0, 0);
    time_of_event += 10;
    put(LOST, 0, 7, 2149, 0, 0);
    time_of_event -= 10;
    put(LOST, 0, 1, 2160, 0, 0);
    put(SET_PRIORITY, 21, 22, 89, -1, 0);
}

/* Writes a file that may have a few bytes, of which a first part is written before the rest. */
static void put_cut(const char *path, rlim_t bytes, rlim_t later) {
    struct rlimit limit = { bytes, RLIM_INFINITY };
    unlink(path);
    if (!open_text(&text, path)) return;
    put_head(&text, 1, 1);
    setrlimit(RLIMIT_FSIZE, &limit);
    flush_text(&text);
    limit.rlim_cur = later;
    setrlimit(RLIMIT_FSIZE, &limit);
    put_end(&text, 1);
    errno = 0;
    bool is_whole = close_text(&text);
    printf("a file of %d bytes, %d later: %s\n", (int)bytes, (int)later,
           is_whole ? "whole" : strerror(errno));
}

int main(int count, char **arguments) {
    if (count != 2 || !open_text(&text, arguments[1])) return 1;
    text.began = 1000;
    put_head(&text, 4242, 4);
    names();
    states();
    calls();
    waits();
    losses();
    put_end(&text, 9000);
    uint64_t from = text.lost_from, to = text.lost_to;
    printf("%" PRIu64 " events, %" PRIu64 " lost in %u stretches, %" PRIu64 " to %" PRIu64 "\n",
           text.events, text.lost, text.losses, from, to);
    printf("%s\n", close_text(&text) ? "whole" : strerror(errno));
    bool is_made = open_text(&text, arguments[1]);
    printf("a file that is there: %s\n", is_made ? "is opened" : strerror(errno));
    signal(SIGXFSZ, SIG_IGN);
    char path[4096];
    snprintf(path, sizeof path, "%s.cut", arguments[1]);
    put_cut(path, 5000, 5000);
    put_cut(path, 20, 20);
    put_cut(path, 20, 5000);
    return 0;
}
