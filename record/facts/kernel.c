/* What the kernel's events say of threads and waits: FORMAT.md, 'What the kernel's events add'. */
#define _GNU_SOURCE
#include "kernel.h"

#include "events.h"
#include "names.h"

#include <errno.h>
#include <stdlib.h>

enum { SHARED = NONE - 1 }; /* in place of a thread: several had its task */

/* What a task's call of a futex has come to. */
struct futex_call {
    uint32_t begin, slept, waker; /* events, a task; or NONE */
};

struct futex_wait {
    uint32_t begin, end; /* events; the end may be NONE */
    uint32_t object, waker;
    uint32_t record; /* of the call for a mutex, or NONE: it is for a futex that isn't one */
    uint16_t flags;
};

struct stretch {
    uint64_t begin, end, count;
    uint32_t event;
};

/* A time in which a thread waits by the log, its ends included. */
struct interval {
    uint64_t begin, end, latest; /* `latest`: of the ends of those of the thread up to it */
    uint32_t thread;
};

struct reading {
    struct kernel *kernel;
    struct told *told;
    struct log *log;
    struct events events;
    struct table tasks; /* the threads */
    struct stretch *losses;
    struct futex_wait *waits;
    struct interval *intervals;
    uint32_t *begins, *ends; /* by event the wait that it begins or ends, or NONE */
    bool *leaves;            /* by event: the task that it puts on a CPU is seen to leave */
    uint32_t *reached;       /* by thread the last of its records before its last call, or NONE */
    uint32_t loss_count, wait_count, interval_count;
};

/* ---- threads ---- */

/* Returns the thread that has a task, or NONE. */
static uint32_t thread_of(const struct reading *reading, uint32_t task) {
    uint32_t thread = task ? table_get(&reading->tasks, task, 0) : NONE;
    return thread == SHARED ? NONE : thread;
}

static void add_thread(struct reading *reading, uint32_t task, uint8_t level) {
    struct log *log = reading->log;
    uint32_t *thread = table_at(&reading->tasks, task, 0);
    if (task == 0 || *thread != NONE) return;
    log->threads = with_room(log->threads, log->thread_count, sizeof *log->threads);
    log->threads[log->thread_count] = (struct thread){
        .task = task, .name = NONE, .first = NONE, .last = NONE, .first_level = level
    };
    *thread = log->thread_count++;
}

/* Finds the threads of the log, and adds those that run or ran. What a task did that several
 * threads of the log had in turn isn't told of any. */
static void find_threads(struct reading *reading) {
    struct log *log = reading->log;
    uint32_t known = reading->kernel->first_other = log->thread_count;
    for (uint32_t i = 0; i < known; i++) {
        if (log->threads[i].first == NONE) continue;
        uint32_t *thread = table_at(&reading->tasks, log->threads[i].task, 0);
        *thread = *thread == NONE ? i : SHARED;
    }
    for (uint32_t i = 0; i < reading->events.count; i++) {
        const struct kernel_event *event = &reading->events.list[i];
        if (event->what != SWITCH || event->time < log->header.began_monotonic) continue;
        add_thread(reading, event->task, event->level);
        add_thread(reading, event->other, event->other_level);
    }
    for (uint32_t i = 0; i < reading->events.count; i++) {
        const struct kernel_event *event = &reading->events.list[i];
        if (event->what != NAMED) continue;
        uint32_t thread = thread_of(reading, event->other);
        if (thread == NONE || thread < known) continue;
        const char *name = reading->events.bytes + event->value;
        log->names = with_room(log->names, log->name_count, sizeof *log->names);
        struct name *its = &log->names[log->threads[thread].name = log->name_count++];
        for (its->length = 0; its->length<NAME_BYTES && * name> 32; name++)
            its->bytes[its->length++] = *name;
    }
}

/* ---- what was lost ---- */

static int by_begin(const void *one, const void *other) {
    const struct stretch *a = one, *b = other;
    if (a->begin != b->begin) return a->begin < b->begin ? -1 : 1;
    return a->event < b->event ? -1 : a->event > b->event;
}

static void find_losses(struct reading *reading) {
    for (uint32_t i = 0; i < reading->events.count; i++) {
        const struct kernel_event *event = &reading->events.list[i];
        if (event->what != LOSS || event->time < reading->log->header.began_monotonic) continue;
        reading->losses = with_room(reading->losses, reading->loss_count, sizeof *reading->losses);
        reading->losses[reading->loss_count++] = (struct stretch){ event->since, event->time,
                                                                   event->value, i };
    }
    if (reading->loss_count)
        qsort(reading->losses, reading->loss_count, sizeof *reading->losses, by_begin);
    for (uint32_t i = 1; i < reading->loss_count; i++)
        if (reading->losses[i].end < reading->losses[i - 1].end)
            reading->losses[i].end = reading->losses[i - 1].end;
}

/* Returns how many stretches in which something was lost begin before a time, or at it. */
static uint32_t losses_until(const struct reading *reading, uint64_t time, bool is_at) {
    uint32_t least = 0, most = reading->loss_count;
    while (least < most) {
        uint32_t middle = least + (most - least) / 2;
        uint64_t begin = reading->losses[middle].begin;
        if (begin < time || (is_at && begin == time))
            least = middle + 1;
        else
            most = middle;
    }
    return least;
}

/* ---- waits that the log has ---- */

static int by_thread(const void *one, const void *other) {
    const struct interval *a = one, *b = other;
    if (a->thread != b->thread) return a->thread < b->thread ? -1 : 1;
    return a->begin < b->begin ? -1 : a->begin > b->begin;
}

/* Ends a thread's open interval, if it has one. */
static void end_interval(struct reading *reading, uint32_t *open, uint32_t thread, uint64_t time) {
    if (open[thread] == NONE) return;
    reading->intervals[open[thread]].end = time;
    open[thread] = NONE;
}

static void find_intervals(struct reading *reading) {
    const struct told *told = reading->told;
    uint32_t *open = nones(reading->log->thread_count);
    for (uint32_t i = 0; i < told->fact_count; i++) {
        const struct fact *fact = &told->facts[i];
        uint64_t time = record_at(reading->log, fact->record)->time;
        bool is_begin = fact->what == WAITS || fact->what == BLOCKS;
        bool is_end = fact->what == GRANTED || fact->what == GAVE_UP || fact->what == RESUMES;
        if (is_begin || is_end) end_interval(reading, open, fact->thread, time);
        if (!is_begin) continue;
        reading->intervals = with_room(reading->intervals, reading->interval_count,
                                       sizeof *reading->intervals);
        reading->intervals[reading->interval_count] = (struct interval){ time, UINT64_MAX, 0,
                                                                         fact->thread };
        open[fact->thread] = reading->interval_count++;
    }
    if (reading->interval_count)
        qsort(reading->intervals, reading->interval_count, sizeof *reading->intervals, by_thread);
    for (uint32_t i = 0; i < reading->interval_count; i++) {
        struct interval *one = &reading->intervals[i];
        bool has_before = i > 0 && one[-1].thread == one->thread && one[-1].latest > one->end;
        one->latest = has_before ? one[-1].latest : one->end;
    }
}

/* Returns whether a thread waits by the log at some time between two, which count. */
static bool is_logged(const struct reading *reading, uint32_t thread, uint64_t begin,
                      uint64_t end) {
    uint32_t least = 0, most = reading->interval_count;
    while (least < most) {
        uint32_t middle = least + (most - least) / 2;
        const struct interval *one = &reading->intervals[middle];
        if (one->thread < thread || (one->thread == thread && one->begin <= end))
            least = middle + 1;
        else
            most = middle;
    }
    const struct interval *last = least ? &reading->intervals[least - 1] : NULL;
    return last && last->thread == thread && last->latest >= begin;
}

/* ---- waits for futexes ---- */

/* Returns the record that says for which mutex a call of FUTEX_LOCK_PI slept: its thread's next
 * one, which ends the call, or its last one, if none follows. NONE: it is of no mutex. */
static uint32_t record_of(struct reading *reading, uint32_t thread,
                          const struct futex_call *call) {
    const struct log *log = reading->log;
    const struct kernel_event *list = reading->events.list;
    if (list[call->begin].what != LOCK_CALL || log->threads[thread].first == NONE) return NONE;
    uint32_t *reached = &reading->reached[thread], next;
    for (next = *reached == NONE ? log->threads[thread].first : log->next[*reached];
         next != NONE && record_at(log, next)->time < list[call->slept].time;
         next = log->next[next])
        *reached = next;
    uint32_t record = next == NONE ? *reached : next;
    if (record == NONE || log->mutex_of[record] == NONE) return NONE;
    return address_of(log, record_at(log, record)) == list[call->begin].value ? record : NONE;
}

/* Keeps a wait, unless it is in the log, or something was lost meanwhile. */
static void keep_wait(struct reading *reading, const struct futex_call *call, uint32_t end,
                      uint16_t flags, bool is_woken) {
    const struct kernel_event *list = reading->events.list, *begin = &list[call->begin];
    uint64_t until = end == NONE ? reading->events.ended : list[end].time;
    uint32_t thread = thread_of(reading, begin->task);
    uint32_t before = losses_until(reading, until, true);
    bool is_lost = before && reading->losses[before - 1].end >= begin->time;
    if (call->slept == NONE || thread == NONE || is_lost) return;
    uint32_t record = record_of(reading, thread, call);
    if (record == NONE && is_logged(reading, thread, begin->time, until)) return;
    reading->waits = with_room(reading->waits, reading->wait_count, sizeof *reading->waits);
    reading->begins[record == NONE ? call->begin : call->slept] = reading->wait_count;
    if (end != NONE) reading->ends[end] = reading->wait_count;
    uint32_t waker = is_woken ? call->waker : NONE;
    reading->waits[reading->wait_count++] =
        (struct futex_wait){ call->begin, end, NONE, waker, record, flags };
}

/* Returns how a wait ended that returned this. */
static uint16_t how_ended(int64_t result) {
    if (result >= 0) return 0;
    return result == -ETIMEDOUT ? IS_TIMED_OUT : HAS_FAILED;
}

static bool is_call(const struct kernel_event *event) {
    return event->what == CALL || event->what == LOCK_CALL || event->what == WAIT_CALL;
}

/* Ends or goes on with the call of a task. Returns whether it has ended. */
static bool go_on(struct reading *reading, struct futex_call *call, uint32_t at) {
    const struct kernel_event *event = &reading->events.list[at];
    bool is_dead = event->what == SWITCH && event->state[1] == 0 &&
                   (event->state[0] == 'X' || event->state[0] == 'Z');
    bool is_asleep = event->what == SWITCH && event->state[1] == 0 &&
                     (event->state[0] == 'S' || event->state[0] == 'D');
    if (is_asleep && call->slept == NONE) call->slept = at;
    if (is_call(event)) keep_wait(reading, call, at, 0, false);
    if (event->what == RETURN && event->result != -EAGAIN)
        keep_wait(reading, call, at, how_ended(event->result), event->result >= 0);
    if (is_dead) keep_wait(reading, call, at, HAS_FAILED, false);
    return is_dead || is_call(event) || event->what == RETURN;
}

/* Notes who wakes a task that sleeps in its call. */
static void wake(const struct table *calling, struct futex_call *calls,
                 const struct kernel_event *event) {
    uint32_t woken = table_get(calling, event->other, 0);
    if (woken != NONE && calls[woken].begin != NONE && calls[woken].slept != NONE &&
        event->task != event->other)
        calls[woken].waker = event->task;
}

static void find_futex_waits(struct reading *reading) {
    struct table calling = { 0 };
    struct futex_call *calls = NULL;
    uint32_t count = 0;
    for (uint32_t i = 0; i < reading->events.count; i++) {
        const struct kernel_event *event = &reading->events.list[i];
        if (event->what == NAMED || event->what == LOSS || event->task == 0 ||
            event->time < reading->log->header.began_monotonic) {
            if (event->what == WOKEN) wake(&calling, calls, event);
            continue;
        }
        uint32_t *number = table_at(&calling, event->task, 0);
        if (*number == NONE) {
            calls = with_room(calls, count, sizeof *calls);
            calls[count] = (struct futex_call){ NONE, NONE, NONE };
            *number = count++;
        }
        struct futex_call *call = &calls[*number];
        if (call->begin != NONE && go_on(reading, call, i)) call->begin = NONE;
        if (event->what == WAIT_CALL || event->what == LOCK_CALL)
            *call = (struct futex_call){ i, NONE, NONE };
        if (event->what == WOKEN) wake(&calling, calls, event);
    }
    for (uint32_t i = 0; i < count; i++)
        if (calls[i].begin != NONE) keep_wait(reading, &calls[i], NONE, 0, false);
}

/* Adds the futexes to the objects, in the order in which waits for them begin. */
static void add_objects(struct reading *reading) {
    struct table known = { 0 };
    struct told *told = reading->told;
    for (uint32_t i = 0; i < reading->events.count; i++) {
        if (reading->begins[i] == NONE) continue;
        struct futex_wait *wait = &reading->waits[reading->begins[i]];
        if (wait->record != NONE) continue;
        uint64_t address = reading->events.list[i].value;
        uint32_t *object = table_at(&known, address, 0);
        if (*object == NONE) {
            told->objects = with_room(told->objects, told->object_count, sizeof *told->objects);
            told->objects[told->object_count] = (struct object){ address, NONE, KIND_FUTEX };
            *object = told->object_count++;
        }
        wait->object = *object;
    }
}

/* ---- facts ---- */

/* Finds which tasks are seen to leave the CPU that they are put on, before anything is lost. */
static void find_leaves(struct reading *reading) {
    uint32_t *next = nones(MOST_CPUS); /* by CPU the next event that is a switch */
    for (uint32_t i = reading->events.count; i-- > 0;) {
        const struct kernel_event *event = &reading->events.list[i];
        reading->leaves[i] = false;
        if (event->what != SWITCH || event->cpu >= MOST_CPUS) continue;
        uint32_t following = next[event->cpu];
        next[event->cpu] = i;
        if (following == NONE) continue;
        const struct kernel_event *behind = &reading->events.list[following];
        if (behind->task != event->other) continue;
        uint32_t before = losses_until(reading, event->time, false);
        reading->leaves[i] = before == losses_until(reading, behind->time, false) &&
                             (before == 0 || reading->losses[before - 1].end <= event->time);
    }
}

static struct kernel_fact *put(struct reading *reading, const struct kernel_event *event,
                               uint32_t task, enum kernel_what what) {
    static struct kernel_fact unused;
    struct kernel *kernel = reading->kernel;
    uint32_t thread = thread_of(reading, task);
    if (thread == NONE) return &unused;
    kernel->facts = with_room(kernel->facts, kernel->count, sizeof *kernel->facts);
    struct kernel_fact *fact = &kernel->facts[kernel->count++];
    *fact = (struct kernel_fact){
        .time = event->time, .thread = thread, .by = NONE, .what = (uint8_t)what
    };
    return fact;
}

static void put_loss(struct reading *reading, const struct stretch *loss) {
    struct kernel *kernel = reading->kernel;
    if (loss->count == 0) return;
    kernel->facts = with_room(kernel->facts, kernel->count, sizeof *kernel->facts);
    kernel->facts[kernel->count++] = (struct kernel_fact){
        .time = loss->begin, .count = loss->count, .thread = NONE, .what = LOST
    };
}

static void put_switch(struct reading *reading, const struct kernel_event *event, bool leaves) {
    bool is_ready = event->state[0] == 'R';
    put(reading, event, event->task, RUNS)->value = event->level;
    put(reading, event, event->task, is_ready ? READY : ASLEEP);
    put(reading, event, event->other, RUNS)->value = event->other_level;
    if (leaves) put(reading, event, event->other, ON)->value = event->cpu;
}

/* A wait begins at an event. That for a mutex does when its thread sleeps. */
static void put_begin(struct reading *reading, const struct kernel_event *event,
                      const struct futex_wait *wait) {
    bool is_lock = wait->record != NONE;
    struct kernel_fact *fact = put(reading, event, event->task, is_lock ? LOCK : FUTEX);
    fact->value = is_lock ? reading->log->mutex_of[wait->record] : wait->object;
    if (is_lock) fact->by = wait->record;
}

/* A wait ends at an event. That for a mutex which its thread got ends by the log. */
static void put_end(struct reading *reading, const struct kernel_event *event,
                    const struct futex_wait *wait) {
    bool is_lock = wait->record != NONE;
    if (is_lock && wait->flags == 0) return;
    uint32_t task = reading->events.list[wait->begin].task;
    struct kernel_fact *fact = put(reading, event, task, is_lock ? LOCK_FAILS : FUTEX_ENDS);
    fact->value = is_lock ? reading->log->mutex_of[wait->record] : wait->object;
    fact->flags = wait->flags;
    if (wait->waker != NONE) fact->by = thread_of(reading, wait->waker);
}

static void put_event(struct reading *reading, uint32_t at) {
    const struct kernel_event *event = &reading->events.list[at];
    if (reading->ends[at] != NONE)
        put_end(reading, event, &reading->waits[reading->ends[at]]);
    if (event->what == SWITCH) put_switch(reading, event, reading->leaves[at]);
    if (event->what == SETPRIO) {
        struct kernel_fact *fact = put(reading, event, event->other, RUNS);
        fact->value = event->other_level;
        fact->is_boost = true;
    }
    if (event->what == WOKEN) put(reading, event, event->other, WAKE);
    if (reading->begins[at] != NONE)
        put_begin(reading, event, &reading->waits[reading->begins[at]]);
}

/* Lists what the kernel did. What it did while something was lost isn't certain, and left out. */
static void list_events(struct reading *reading) {
    uint32_t loss = 0;
    for (uint32_t i = 0; i < reading->events.count; i++) {
        const struct kernel_event *event = &reading->events.list[i];
        if (event->time < reading->log->header.began_monotonic) continue;
        for (; loss < reading->loss_count && reading->losses[loss].begin < event->time; loss++)
            put_loss(reading, &reading->losses[loss]);
        bool is_certain = loss == 0 || reading->losses[loss - 1].end <= event->time;
        if (is_certain) put_event(reading, i);
    }
    for (; loss < reading->loss_count; loss++) put_loss(reading, &reading->losses[loss]);
}

void kernel_read(struct kernel *kernel, struct told *told, const char *path, const char *bytes,
                 size_t length) {
    struct reading reading = { .kernel = kernel, .told = told, .log = told->log };
    events_read(&reading.events, path, bytes, length);
    kernel->is_there = true;
    kernel->is_whole = reading.events.is_whole;
    struct log *log = told->log;
    if (log->chunks == 0 && log->length == 0)
        log->header.began_monotonic = log->ended = reading.events.began;
    find_losses(&reading);
    find_intervals(&reading);
    find_threads(&reading);
    reading.reached = nones(log->thread_count);
    reading.begins = nones(reading.events.count);
    reading.ends = nones(reading.events.count);
    reading.leaves = resized(NULL, reading.events.count);
    find_futex_waits(&reading);
    add_objects(&reading);
    find_leaves(&reading);
    list_events(&reading);
    uint64_t ended = reading.events.ended; /* some time after the program did */
    if (log->header.ended && reading.events.count)
        ended = reading.events.list[reading.events.count - 1].time;
    if (ended > log->ended) log->ended = ended;
}
