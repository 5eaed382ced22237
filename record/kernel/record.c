#define _GNU_SOURCE
#include "record.h"

#include <errno.h>
#include <fcntl.h>
#include <inttypes.h>
#include <signal.h>
#include <stdio.h>
#include <stdlib.h>
#include <string.h>
#include <time.h>
#include <unistd.h>

#include "../library/clock.h"
#include "events.h"
#include "instance.h"
#include "text.h"
#include "threads.h"

enum { NO_RIGHTS = 77, FAULT = 2, MOST_PAGES = 4096 };

static const int64_t SECOND = 1000000000;

/* An event may become readable later than a newer one of another CPU: the newest are held back. */
static const uint64_t HELD_BACK = 1000000000;

static const char INITIAL_PID_NAMESPACE[] = "pid:[4026531836]";

static struct recording {
    enum program program;
    const char *path;
    struct instance instance;
    struct layouts layouts;
    struct text text;
    unsigned char *page;
    int cpus;
    int *pages;            /* of each CPU: a descriptor that pages are read from */
    struct queue *queues;
    struct guard *guard;
} recording;

/* ---- begin and end ---- */

static void end_instance(void) {
    put_setting(&recording.instance, "tracing_on", "0");
    for (int cpu = 0; cpu < recording.cpus; cpu++) close(recording.pages[cpu]);
    end_guard(recording.guard, &recording.instance);
}

/* What wasn't done where nothing was. */
static const char *done(void) { return recording.program == RUNNING ? "recorded" : "run"; }

static _Noreturn void refuse(const char *what) {
    const char *why = errno ? strerror(errno) : "it isn't as it should be";
    fprintf(stderr,
            "pim-record: %s needs root, and tracefs with the events of futex and sched: %s: %s;"
            " nothing was %s\n", recording.program == RUNNING ? "--pid" : "--kernel", what, why,
            done());
    exit(NO_RIGHTS);
}

static const char *open_pages(void) {
    char path[64];
    for (;; recording.cpus++) {
        int cpu = recording.cpus;
        snprintf(path, sizeof path, "per_cpu/cpu%d/trace_pipe_raw", cpu);
        int flags = O_RDONLY | O_NONBLOCK | O_CLOEXEC;
        int pages = openat(recording.instance.folder, path, flags);
        if (pages < 0) return errno == ENOENT && cpu > 0 ? NULL : "per_cpu";
        recording.pages = reallocarray(recording.pages, cpu + 1, sizeof *recording.pages);
        recording.queues = reallocarray(recording.queues, cpu + 1, sizeof *recording.queues);
        if (!recording.pages || !recording.queues) return "per_cpu";
        recording.pages[cpu] = pages;
        recording.queues[cpu] = (struct queue){ .cpu = cpu };
    }
}

/* Returns the name of what is missing, or NULL. */
static const char *set_up(const char *kilobytes) {
    static char clock[256];
    struct instance *instance = &recording.instance;
    if (!put_setting(instance, "tracing_on", "0")) return "tracing_on";
    if (!put_setting(instance, "trace_clock", "mono")) return "trace_clock";
    if (!read_setting(instance, "trace_clock", clock, sizeof clock)) return "trace_clock";
    errno = 0;
    if (!strstr(clock, "[mono]")) return "trace_clock";
    if (!put_setting(instance, "buffer_size_kb", kilobytes)) return "buffer_size_kb";
    if (!put_setting(instance, "options/overwrite", "1")) return "options/overwrite";
    if (!put_setting(instance, "options/event-fork", "1")) return "options/event-fork";
    const char *missing = turn_on_events(instance, &recording.layouts);
    if (missing) return missing;
    recording.page = malloc(recording.layouts.page_bytes);
    return recording.page ? open_pages() : "events/header_page";
}

/* ---- events ---- */

/* Returns how many of a CPU's events the kernel says that it overwrote or dropped. */
static uint64_t count_lost(int cpu) {
    char path[64], stats[1024];
    snprintf(path, sizeof path, "per_cpu/cpu%d/stats", cpu);
    bool is_read = read_setting(&recording.instance, path, stats, sizeof stats);
    return is_read ? lost_by_stats(stats) : 0;
}

/* Reads the pages of a CPU that are there, up to a number. Returns whether they were fewer. */
static bool read_pages(int cpu) {
    struct queue *queue = &recording.queues[cpu];
    for (int i = 0; i < MOST_PAGES; i++) {
        if (read(recording.pages[cpu], recording.page, recording.layouts.page_bytes) <= 0)
            return true;
        int64_t missed = missed_before(&recording.layouts, recording.page);
        if (missed == MISSED_UNKNOWN) missed = (int64_t)(count_lost(cpu) - queue->lost);
        if (missed > 0)
            queue_lost(queue, (uint64_t)missed, queue->last_time, time_of_page(recording.page));
        queue_page(&recording.layouts, recording.page, queue);
    }
    return false;
}

static struct queue *earliest_queue(void) {
    struct queue *earliest = NULL;
    for (int cpu = 0; cpu < recording.cpus; cpu++) {
        struct queue *queue = &recording.queues[cpu];
        if (queue->next == queue->count) continue;
        if (!earliest || queue->events[queue->next].time < earliest->events[earliest->next].time)
            earliest = queue;
    }
    return earliest;
}

/* Writes the events before a time in the order of their times. */
static void put_events(uint64_t limit) {
    struct queue *queue;
    while ((queue = earliest_queue()) && queue->events[queue->next].time < limit)
        put_event(&recording.text, &queue->events[queue->next++]);
    flush_text(&recording.text);
}

/* Reads and writes what is left, once the kernel records no more. */
static void put_rest(void) {
    put_setting(&recording.instance, "tracing_on", "0");
    uint64_t end = clock_time();
    for (int cpu = 0; cpu < recording.cpus; cpu++) {
        struct queue *queue = &recording.queues[cpu];
        while (!read_pages(cpu)) continue;
        uint64_t lost = count_lost(cpu) + queue->unheld;
        if (lost > queue->lost) queue_lost(queue, lost - queue->lost, recording.text.began, end);
    }
    put_events(UINT64_MAX);
    put_end(&recording.text, end);
}

/* ---- the end ---- */

static void say_lost(void) {
    const struct text *text = &recording.text;
    double began = (double)text->began;
    if (!text->lost) return;
    fprintf(stderr, "pim-record: %" PRIu64 " of the kernel's events were lost, in %u stretches from"
            " %.6f s to %.6f s; %s has each\n", text->lost, text->losses,
            ((double)text->lost_from - began) / (double)SECOND,
            ((double)text->lost_to - began) / (double)SECOND, recording.path);
}

_Noreturn void give_up_kernel(const char *failed) {
    int error = errno;
    end_instance();
    if (recording.text.file) unlink(recording.path);
    errno = error;
    if (failed != recording.path) refuse(failed);
    fprintf(stderr, "pim-record: %s: %s; nothing was %s\n", failed, strerror(error), done());
    exit(FAULT);
}

const char *turn_on_kernel(pid_t program, bool (*is_over)(void)) {
    if (!choose_threads(&recording.instance, program, is_over)) return "set_event_pid";
    recording.text.began = clock_time();
    for (int cpu = 0; cpu < recording.cpus; cpu++)
        recording.queues[cpu].last_time = recording.text.began;
    if (!put_setting(&recording.instance, "tracing_on", "1")) return "tracing_on";
    put_head(&recording.text, program, recording.cpus);
    flush_text(&recording.text);
    return NULL;
}

void read_kernel(void) {
    uint64_t limit = clock_time() - HELD_BACK;
    for (int cpu = 0; cpu < recording.cpus; cpu++) read_pages(cpu);
    put_events(limit);
}

bool end_kernel(bool is_kept) {
    if (is_kept) put_rest();
    end_instance();
    bool is_whole = close_text(&recording.text);
    if (!is_kept) {
        unlink(recording.path);
        return false;
    }
    if (!is_whole)
        fprintf(stderr, "pim-record: %s isn't whole: %s\n", recording.path, strerror(errno));
    say_lost();
    return is_whole;
}

void begin_kernel(enum program program, const char *path, const char *kilobytes,
                  struct guard *guard) {
    char namespace[64] = "";
    recording.program = program;
    recording.path = path;
    recording.guard = guard;
    errno = 0;
    if (readlink("/proc/self/ns/pid", namespace, sizeof namespace - 1) > 0 &&
        strcmp(namespace, INITIAL_PID_NAMESPACE) != 0)
        refuse("the kernel's numbers of tasks, which aren't those of a container");
    sigset_t all, before; /* so that no signal leaves an instance without its guard */
    sigfillset(&all);
    sigprocmask(SIG_SETMASK, &all, &before);
    if (!make_instance(&recording.instance)) refuse("tracefs");
    const char *failed = start_guard(guard, &recording.instance) ? NULL : "fork";
    sigprocmask(SIG_SETMASK, &before, NULL);
    if (!failed) failed = set_up(kilobytes);
    if (!failed && program == RUNNING) unlink(path); /* pim-record has seen whose it is */
    if (!failed && !open_text(&recording.text, path)) failed = path;
    if (failed) give_up_kernel(failed);
}
