#define _GNU_SOURCE
#include "text.h"

#include <errno.h>
#include <inttypes.h>
#include <string.h>
#include <sys/mman.h>
#include <sys/utsname.h>

enum { OPERATION = 127, PRIVATE = 128 };

/* By FUTEX_WAIT and the others of linux/futex.h. */
static const char WAIT[] = "wait";
static const char *const CALLS[] = {
    [0] = WAIT, [9] = WAIT, [11] = WAIT, /* of a bit set; to be requeued to a PI mutex */
    [6] = "lock", [7] = "unlock", [8] = "trylock", [13] = "lock2",
};
enum { CALLED = sizeof CALLS / sizeof *CALLS };

bool open_text(struct text *text, const char *path) {
    *text = (struct text){ .file = fopen(path, "wxe") };
    if (!text->file) return false;
    /* Untouched pages aren't allocated. */
    text->tasks = mmap(NULL, TASKS * sizeof *text->tasks, PROT_READ | PROT_WRITE,
                       MAP_PRIVATE | MAP_ANONYMOUS | MAP_NORESERVE, -1, 0);
    return text->tasks != MAP_FAILED;
}

void put_head(struct text *text, pid_t process, int cpus) {
    struct utsname system;
    uname(&system);
    fprintf(text->file, "pim-kernel 2\nkernel %s %s\nclock mono\n", system.release, system.machine);
    fprintf(text->file, "process %d\nbegan %" PRIu64 "\ncpus %d\n", (int)process, text->began,
            cpus);
}

/* ---- lines ---- */

static void put_start(struct text *text, const struct event *event) {
    fprintf(text->file, "%" PRIu64 " %d %d ", event->time, event->cpu, event->task);
}

/* Tells a task's name if it is another than before. The idle tasks have no number of their own. */
static void put_name(struct text *text, const struct event *event, int64_t number,
                     const char name[NAME_BYTES]) {
    if (number <= 0 || number >= TASKS) return;
    struct task *task = &text->tasks[number];
    if (memcmp(task->name, name, NAME_BYTES) == 0) return;
    memcpy(task->name, name, NAME_BYTES);
    put_start(text, event);
    fprintf(text->file, "name %" PRId64 " ", number);
    for (int i = 0; i < NAME_BYTES && name[i]; i++) {
        bool is_plain = name[i] > ' ' && name[i] <= '~' && name[i] != '\\';
        fprintf(text->file, is_plain ? "%c" : "\\x%02x", (unsigned char)name[i]);
    }
    fputc('\n', text->file);
}

enum { DEAD = 0x30 }; /* in the state of a task that stopped: X or Z */

/* What a task was as it stopped: sched_switch has a bit for each, and one more for preempted. */
static void put_state(struct text *text, int64_t state) {
    static const char letters[] = "SDTtXZPI";
    const char *plus = state & 0x100 ? "+" : "";
    int64_t bits = state & 0xff;
    if (state & ~INT64_C(0x1ff) || bits & (bits - 1)) /* of another kernel */
        fprintf(text->file, "0x%" PRIx64, (uint64_t)state);
    else
        fprintf(text->file, "%c%s", bits ? letters[__builtin_ctzll((uint64_t)bits)] : 'R', plus);
}

static void put_switch(struct text *text, const struct event *event, struct task *task) {
    const int64_t *values = event->values;
    if (values[1] & DEAD) task->calling = 0; /* another task may have its number later */
    put_name(text, event, event->task, event->names[0]);
    put_name(text, event, values[2], event->names[1]);
    put_start(text, event);
    fprintf(text->file, "switch %" PRId64 " ", values[0]);
    put_state(text, values[1]);
    fprintf(text->file, " %" PRId64 " %" PRId64 "\n", values[2], values[3]);
}

/* sys_exit_futex doesn't report the operation that returns. So each task's last call is
 * kept, and returns of other operations are left out; those before a loss, too. */
static bool put_call(struct text *text, const struct event *event, struct task *task) {
    uint32_t word = (uint32_t)event->values[0], operation = word & OPERATION;
    const char *name = operation < CALLED ? CALLS[operation] : NULL;
    task->calling = name ? text->losses + 1 : 0;
    task->is_waiting = name == WAIT;
    if (!name) return false;
    put_start(text, event);
    fprintf(text->file, "%s 0x%" PRIx64 " %s\n", name, (uint64_t)event->values[1],
            word & PRIVATE ? "private" : "shared");
    return true;
}

static bool put_return(struct text *text, const struct event *event, struct task *task) {
    bool is_known = task->calling == text->losses + 1;
    task->calling = 0;
    if (!is_known) return false;
    put_start(text, event);
    fprintf(text->file, "return %" PRId64 "\n", event->values[0]);
    return true;
}

/* Tells who made a task ready, if that task waits in a call that is known. */
static bool put_wake(struct text *text, const struct event *event) {
    int64_t woken = event->values[0];
    if (woken <= 0 || woken >= TASKS) return false;
    const struct task *task = &text->tasks[woken];
    if (task->calling != text->losses + 1 || !task->is_waiting) return false;
    put_start(text, event);
    fprintf(text->file, "wake %" PRId64 "\n", woken);
    return true;
}

static void put_lost(struct text *text, const struct event *event) {
    uint64_t from = (uint64_t)event->values[1];
    put_start(text, event);
    fprintf(text->file, "lost %" PRId64 " %" PRIu64 "\n", event->values[0], from);
    text->lost += (uint64_t)event->values[0];
    if (text->losses == 0 || from < text->lost_from) text->lost_from = from;
    if (event->time > text->lost_to) text->lost_to = event->time;
    text->losses++;
}

void put_event(struct text *text, const struct event *event) {
    if (text->error) return;
    struct task *task = &text->tasks[event->task >= 0 && event->task < TASKS ? event->task : 0];
    bool is_put = event->kind != LOST;
    switch (event->kind) {
    case SET_PRIORITY:
        put_start(text, event);
        fprintf(text->file, "setprio %" PRId64 " %" PRId64 " %" PRId64 "\n", event->values[0],
                event->values[1], event->values[2]);
        break;
    case SWITCH: put_switch(text, event, task); break;
    case CALL: is_put = put_call(text, event, task); break;
    case RETURN: is_put = put_return(text, event, task); break;
    case WAKING: is_put = put_wake(text, event); break;
    default: put_lost(text, event); break;
    }
    text->events += is_put;
}

void put_end(struct text *text, uint64_t time) {
    if (text->error) return;
    fprintf(text->file, "end %" PRIu64 " %" PRIu64 " %" PRIu64 "\n", time, text->events,
            text->lost);
}

void flush_text(struct text *text) {
    bool is_written = fflush(text->file) == 0 && !ferror(text->file);
    if (!is_written && !text->error) text->error = errno;
}

bool close_text(struct text *text) {
    flush_text(text);
    munmap(text->tasks, TASKS * sizeof *text->tasks);
    if (fclose(text->file) != 0 && !text->error) text->error = errno;
    errno = text->error;
    return errno == 0;
}
