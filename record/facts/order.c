/* The order of the lines, and what is added: FORMAT.md, 'Owners that come late or go early'. */
#define _GNU_SOURCE
#include "order.h"

#include <stdlib.h>
#include <string.h>

/* What the kernel does with a thread. */
struct running {
    uint32_t level, cpu; /* or NONE */
    uint32_t losses;     /* before it was said */
};

/* Who owns and awaits what by the lines so far. The owner that isn't known has the number behind
 * those of the threads. */
struct order {
    struct told *told;
    const struct log *log;
    struct kernel *kernel;
    struct names *names;
    struct text *text;
    struct running *running; /* by thread */
    uint32_t *on;            /* by CPU the thread that is on it, or was before the last loss */
    uint32_t losses;
    uint32_t *owner;           /* by mutex, or NONE */
    uint32_t *early;           /* by mutex: its RELEASED that is still to come, or NONE */
    uint32_t *awaits;          /* by thread a mutex, or NONE */
    uint32_t *blocked;         /* by thread an object, or NONE */
    uint32_t *resumes;         /* by thread: the RESUMES that is to come, or NONE */
    uint32_t *releases;        /* by thread: the RELEASED that is still to come, or NONE */
    uint32_t *level;           /* by thread */
    bool *is_own;              /* by thread: it waits for itself */
    bool *is_kernels;          /* by thread: only the kernel's events show that it waits */
    /* By thread of the log: how many of each it owns, if it counts. */
    uint32_t (*ceilings)[LEVEL_MOST + 1];
    uint32_t *ceiling;         /* by mutex, or NONE */
    bool is_ceiling[LEVEL_MOST + 1]; /* by level: a mutex has it, or had it */
    struct table owned_before; /* by thread and mutex */
    uint32_t *declared;        /* the threads, in the order of the log's numbers */
    uint32_t declared_count;
    uint32_t unknown_number; /* of the owner that isn't known */
    bool is_unknown_declared;
    uint64_t now;
};

/* ---- lines ---- */

/* Returns a time as nanoseconds since the recording began. */
static uint64_t since_begin(const struct log *log, uint64_t time) {
    uint64_t began = log->header.began_monotonic, since = time > began ? time - began : 0;
    return since < LAST_TIME ? since : LAST_TIME;
}

static uint64_t time_of(const struct order *order, const struct fact *fact) {
    return since_begin(order->log, record_at(order->log, fact->record)->time);
}

static uint32_t number_of(const struct order *order, uint32_t thread) {
    bool is_known = thread < order->log->thread_count;
    return is_known ? order->log->threads[thread].text_number : order->unknown_number;
}

/* Begins a line of a thread, about a mutex or an object, or NONE. */
static void begin_line(struct order *order, uint64_t time, uint32_t thread, const char *what,
                       uint32_t about) {
    text_time(order->text, time);
    text_number(order->text, number_of(order, thread));
    text_word(order->text, what);
    if (about != NONE) text_number(order->text, (uint64_t)about + 1);
}

static void put_line(struct order *order, uint32_t thread, const char *what, uint32_t about) {
    begin_line(order, order->now, thread, what, about);
    text_end(order->text);
}

/* Writes the place of a record, and those of the callers. */
static void put_places(struct order *order, uint32_t record) {
    static const struct name unknown = { 1, "-" };
    const struct name *name = name_of_place(order->names, record);
    bool may_have_callers = name->length && record_at(order->log, record)->event == EVENT_REQUEST;
    if (name->length) text_name(order->text, name);
    for (int count = 1; may_have_callers && count < MOST_PLACES; count++) {
        record = order->log->next[record];
        if (record == NONE || record_at(order->log, record)->event != EVENT_FRAME) break;
        const struct name *caller = name_of_place(order->names, record);
        text_name(order->text, caller->length ? caller : &unknown);
    }
}

/* Ends a line of a fact with the places that it has. */
static void end_line(struct order *order, const struct fact *fact) {
    if (fact && fact->said != NONE) put_places(order, fact->said);
    text_end(order->text);
}

/* ---- what the kernel runs ---- */

/* Returns what the kernel does with a thread, of which a loss leaves nothing. */
static struct running *running_of(struct order *order, uint32_t thread) {
    struct running *running = &order->running[thread];
    if (running->losses != order->losses) *running = (struct running){ NONE, NONE, order->losses };
    return running;
}

static void put_level(struct order *order, uint32_t thread, const char *what, uint32_t level) {
    begin_line(order, order->now, thread, what, NONE);
    text_number(order->text, level);
    text_end(order->text);
}

/* The kernel runs a thread at a level from now on. That is the own one of a thread which isn't in
 * the log: nothing else is known of it. */
static void runs(struct order *order, uint32_t thread, uint32_t level) {
    bool is_other = thread >= order->kernel->first_other;
    uint32_t *known = is_other ? &order->level[thread] : &running_of(order, thread)->level;
    if (*known == level) return;
    *known = level;
    put_level(order, thread, is_other ? " priority" : " runs", level);
}

/* Returns the greatest of a thread's level and the ceilings of what it owns. */
static uint32_t own_level(const struct order *order, uint32_t thread) {
    uint32_t level = order->level[thread];
    for (uint32_t ceiling = LEVEL_MOST; order->ceilings && ceiling > level; ceiling--)
        if (order->ceilings[thread][ceiling]) return ceiling;
    return level;
}

/* The kernel follows where a thread's own level changes, unless the thread has a boost. */
static void follow(struct order *order, uint32_t thread, uint32_t before) {
    uint32_t after = own_level(order, thread), level = running_of(order, thread)->level;
    bool is_boosted = level != before && level >= after;
    if (after != before && level != NONE && !is_boosted) runs(order, thread, after);
}

/* A thread owns one mutex more of a ceiling, or one less. */
static void has_ceiling(struct order *order, uint32_t thread, uint32_t ceiling, int more) {
    if (!order->ceilings || thread == order->log->thread_count || ceiling == NONE) return;
    uint32_t before = own_level(order, thread);
    order->ceilings[thread][ceiling] += (uint32_t)more;
    follow(order, thread, before);
}

/* ---- what a thread stops before it does something else ---- */

/* The fact is none where the line is added. */
static void give_up(struct order *order, uint32_t thread, const struct fact *fact) {
    if (order->awaits[thread] == NONE) return;
    begin_line(order, order->now, thread, " gave-up", order->awaits[thread]);
    end_line(order, fact);
    order->awaits[thread] = NONE;
}

static void resume(struct order *order, uint32_t thread) {
    if (order->blocked[thread] == NONE) return;
    put_line(order, thread, " resumes", order->blocked[thread]);
    order->blocked[thread] = NONE;
}

/* A thread releases a mutex that it owns. If it waits, it does so again behind that. */
static void lose(struct order *order, uint32_t thread, uint32_t mutex, const struct fact *fact) {
    uint32_t awaited = order->awaits[thread], object = order->blocked[thread];
    give_up(order, thread, NULL);
    resume(order, thread);
    begin_line(order, order->now, thread, " released", mutex);
    end_line(order, fact);
    order->owner[mutex] = NONE;
    if (awaited != NONE) put_line(order, thread, " waits", awaited);
    if (object != NONE) put_line(order, thread, " blocks", object);
    order->awaits[thread] = awaited;
    order->blocked[thread] = object;
    has_ceiling(order, thread, order->ceiling[mutex], -1);
}

/* A release that was told early comes now. */
static void catch_up(struct order *order, uint32_t release) {
    if (release == NONE) return;
    const struct fact *fact = &order->told->facts[release];
    order->releases[fact->thread] = order->early[fact->mutex] = NONE;
    lose(order, fact->thread, fact->mutex, fact);
}

/* ---- facts ---- */

/* A thread owns a mutex. The fact is none where that isn't in the log. */
static void grant(struct order *order, uint32_t thread, uint32_t mutex, const struct fact *fact) {
    catch_up(order, order->releases[thread]);
    catch_up(order, order->early[mutex]);
    if (order->owner[mutex] != NONE) lose(order, order->owner[mutex], mutex, NULL);
    resume(order, thread);
    if (order->awaits[thread] != mutex) give_up(order, thread, NULL);
    const struct record *record = fact ? record_at(order->log, fact->record) : NULL;
    bool is_try = record && call_of(record) == CALL_TRYLOCK && order->awaits[thread] == NONE;
    begin_line(order, order->now, thread, is_try ? " took" : " granted", mutex);
    end_line(order, fact);
    order->owner[mutex] = thread;
    order->awaits[thread] = NONE;
    has_ceiling(order, thread, order->ceiling[mutex], 1);
    if (order->told->has_missing) *table_at(&order->owned_before, thread, mutex) = 0;
}

/* The owner that a request found isn't known. */
static void grant_unknown(struct order *order, uint32_t mutex) {
    static const struct name nothing = { 1, "-" };
    if (!order->is_unknown_declared) {
        text_begin(order->text);
        text_word(order->text, "thread");
        text_number(order->text, order->unknown_number);
        text_number(order->text, LEVEL_OTHER);
        text_name(order->text, &nothing);
        text_end(order->text);
        order->is_unknown_declared = true;
    }
    grant(order, order->log->thread_count, mutex, NULL);
}

/* A request found a mutex owned that is free by the lines so far. */
static void mend(struct order *order, const struct fact *wait) {
    uint32_t owner = wait->other, mutex = wait->mutex;
    if (owner == NONE) {
        grant_unknown(order, mutex);
        return;
    }
    uint32_t awaited = order->awaits[owner];
    if (order->blocked[owner] != NONE || (awaited != NONE && awaited != mutex)) return;
    if (wait->flags & IS_LATE) {
        struct fact *late = &order->told->facts[wait->link];
        uint64_t now = order->now, time = time_of(order, late);
        if (time < now) order->now = time;
        late->flags |= IS_DONE;
        grant(order, owner, mutex, late);
        order->now = now;
        return;
    }
    bool is_missing = wait->flags & IS_NAMED && !(wait->flags & ASKS) && awaited == NONE;
    if (is_missing && table_get(&order->owned_before, owner, mutex) == NONE)
        grant(order, owner, mutex, NULL);
}

static void wait_for(struct order *order, const struct fact *fact) {
    uint32_t thread = fact->thread, mutex = fact->mutex;
    catch_up(order, order->releases[thread]);
    bool is_told = order->is_kernels[thread] && order->awaits[thread] == mutex;
    order->is_kernels[thread] = false;
    if (is_told && !(fact->flags & IS_OWN)) return;
    give_up(order, thread, NULL);
    resume(order, thread);
    if (order->owner[mutex] == NONE && fact->flags & IS_FREE) mend(order, fact);
    if (order->owner[mutex] == thread && is_recursive(&order->log->mutexes[mutex])) return;
    begin_line(order, order->now, thread, " waits", mutex);
    end_line(order, fact);
    order->awaits[thread] = mutex;
    order->is_own[thread] = fact->flags & IS_OWN;
}

/* A wait ends, unless another one took its place. */
static void end_wait(struct order *order, const struct fact *fact) {
    uint32_t thread = fact->thread;
    catch_up(order, order->releases[thread]);
    bool is_own = fact->flags & IS_OWN;
    if (order->awaits[thread] == fact->mutex && order->is_own[thread] == is_own)
        give_up(order, thread, fact);
}

static void release(struct order *order, const struct fact *fact) {
    uint32_t thread = fact->thread, mutex = fact->mutex;
    catch_up(order, order->releases[thread]);
    if (order->owner[mutex] != thread) return;
    if (fact->flags & IS_EARLY) {
        order->releases[thread] = order->early[mutex] = (uint32_t)(fact - order->told->facts);
        return;
    }
    lose(order, thread, mutex, fact);
}

static void block(struct order *order, const struct fact *fact) {
    catch_up(order, order->releases[fact->thread]);
    give_up(order, fact->thread, NULL);
    resume(order, fact->thread);
    begin_line(order, order->now, fact->thread, " blocks", fact->mutex);
    end_line(order, fact);
    order->blocked[fact->thread] = fact->mutex;
    order->resumes[fact->thread] = fact->link;
}

/* ---- what the kernel does ---- */

/* Returns whether a level is one that was set unseen, as by another process: the thread ran at its
 * own one, it has no boost, and the C library sets no such ceiling. */
static bool is_set_unseen(struct order *order, const struct kernel_fact *fact) {
    uint32_t before = running_of(order, fact->thread)->level, level = fact->value;
    if (fact->thread >= order->kernel->first_other || fact->is_boost) return false;
    return before == own_level(order, fact->thread) && level != before &&
           !order->is_ceiling[level];
}

/* The kernel shows at which level it runs a thread. That of a thread that is being created is its
 * creator's. The C library raises a thread to a ceiling before it waits for the mutex. */
static void show_level(struct order *order, const struct kernel_fact *fact) {
    uint32_t first = order->log->threads[fact->thread].first, awaited = order->awaits[fact->thread];
    bool is_new = first != NONE && fact->time < record_at(order->log, first)->time;
    bool is_raised = awaited != NONE && order->ceiling[awaited] == fact->value;
    if (is_new || is_raised) return;
    if (is_set_unseen(order, fact)) {
        order->level[fact->thread] = fact->value;
        put_level(order, fact->thread, " priority", fact->value);
    }
    runs(order, fact->thread, fact->value);
}

/* A thread is on a CPU, unless it is on one already, or another is on it. */
static void put_on(struct order *order, uint32_t thread, uint32_t cpu) {
    struct running *running = running_of(order, thread);
    uint32_t there = order->on[cpu];
    if (running->cpu != NONE || (there != NONE && running_of(order, there)->cpu == cpu)) return;
    order->on[cpu] = thread;
    running->cpu = cpu;
    put_level(order, thread, " on", cpu);
}

static void put_off(struct order *order, uint32_t thread, const char *what) {
    running_of(order, thread)->cpu = NONE;
    put_line(order, thread, what, NONE);
}

static void put_loss(struct order *order, uint64_t count) {
    text_time(order->text, order->now);
    text_word(order->text, " lost");
    text_number(order->text, count < LAST_TIME ? count : LAST_TIME);
    text_end(order->text);
    order->losses++;
}

/* Writes how many records are missing, if there was no room for one: it, and all after it. */
static void put_missing(struct order *order) {
    const struct joined *joined = order->log->joined;
    uint64_t missing = joined ? joined->missing : log_missing(order->log);
    if (missing) put_loss(order, missing);
}

/* A thread waits for a futex, unless it waits for something by the log. */
static void wait_for_futex(struct order *order, uint32_t thread, uint32_t object) {
    catch_up(order, order->releases[thread]);
    if (order->awaits[thread] != NONE || order->blocked[thread] != NONE) return;
    put_line(order, thread, " blocks", object);
    order->blocked[thread] = object;
}

/* A wait for an object ends, by another thread at the place of a record, or NONE. */
static void unblock(struct order *order, uint32_t thread, uint32_t object, uint32_t by,
                    uint16_t flags, uint32_t said) {
    if (order->blocked[thread] != object) return;
    begin_line(order, order->now, thread, " resumes", object);
    if (by != NONE && number_of(order, by)) {
        text_word(order->text, " by");
        text_number(order->text, number_of(order, by));
    }
    if (flags & IS_TIMED_OUT) text_word(order->text, " timed-out");
    if (flags & HAS_FAILED) text_word(order->text, " failed");
    if (said != NONE) put_places(order, said);
    text_end(order->text);
    order->blocked[thread] = NONE;
}

/* A thread sleeps in a call for a mutex. If it waits for an object by the log, as at the end of a
 * wait at a condition variable, that wait has ended. */
static void wait_by_kernel(struct order *order, const struct kernel_fact *lock) {
    uint32_t thread = lock->thread, mutex = lock->value, end = order->resumes[thread];
    catch_up(order, order->releases[thread]);
    if (order->awaits[thread] != NONE || order->owner[mutex] == thread) return;
    const struct fact *resumes = end == NONE ? NULL : &order->told->facts[end];
    if (resumes)
        unblock(order, thread, resumes->mutex, resumes->other, resumes->flags, resumes->said);
    resume(order, thread);
    begin_line(order, order->now, thread, " waits", mutex);
    put_places(order, lock->by);
    text_end(order->text);
    order->awaits[thread] = mutex;
    order->is_own[thread] = false;
    order->is_kernels[thread] = true;
}

/* Such a call ends without the mutex. */
static void end_wait_by_kernel(struct order *order, const struct kernel_fact *lock) {
    bool is_its = order->is_kernels[lock->thread] && order->awaits[lock->thread] == lock->value;
    if (is_its) give_up(order, lock->thread, NULL);
}

static void put_kernel_fact(struct order *order, const struct kernel_fact *fact) {
    order->now = since_begin(order->log, fact->time);
    if (fact->what != LOST && number_of(order, fact->thread) == 0) return;
    switch (fact->what) {
    case RUNS: show_level(order, fact); break;
    case ON: put_on(order, fact->thread, fact->value); break;
    case READY: put_off(order, fact->thread, " off ready"); break;
    case ASLEEP: put_off(order, fact->thread, " off asleep"); break;
    case WAKE:
        if (running_of(order, fact->thread)->cpu == NONE)
            put_off(order, fact->thread, " off ready");
        break;
    case LOST: put_loss(order, fact->count); break;
    case FUTEX: wait_for_futex(order, fact->thread, fact->value); break;
    case FUTEX_ENDS:
        unblock(order, fact->thread, fact->value, fact->by, fact->flags, NONE);
        break;
    case LOCK: wait_by_kernel(order, fact); break;
    case LOCK_FAILS: end_wait_by_kernel(order, fact); break;
    }
}

/* Writes what the kernel did before a time. */
static void put_kernel(struct order *order, uint64_t time) {
    struct kernel *kernel = order->kernel;
    while (kernel->next < kernel->count && kernel->facts[kernel->next].time < time)
        put_kernel_fact(order, &kernel->facts[kernel->next++]);
}

/* ---- more facts ---- */

static void set_level(struct order *order, const struct fact *fact) {
    if (order->level[fact->thread] == fact->other) return;
    uint32_t before = own_level(order, fact->thread);
    order->level[fact->thread] = fact->other;
    put_level(order, fact->thread, " priority", fact->other);
    follow(order, fact->thread, before);
}

static void set_ceiling(struct order *order, const struct fact *fact) {
    begin_line(order, order->now, fact->thread, " ceiling", fact->mutex);
    text_number(order->text, fact->other);
    text_end(order->text);
    uint32_t owner = order->owner[fact->mutex];
    if (owner != NONE) has_ceiling(order, owner, fact->other, 1);
    if (owner != NONE) has_ceiling(order, owner, order->ceiling[fact->mutex], -1);
    order->ceiling[fact->mutex] = fact->other;
    order->is_ceiling[fact->other] = true;
}

static void put_fact(struct order *order, const struct fact *fact) {
    if (fact->flags & IS_DONE && fact->what == GRANTED) return;
    if (order->kernel->count) put_kernel(order, record_at(order->log, fact->record)->time);
    order->now = time_of(order, fact);
    switch (fact->what) {
    case WAITS: wait_for(order, fact); break;
    case GAVE_UP: end_wait(order, fact); break;
    case RELEASED: release(order, fact); break;
    case GRANTED: grant(order, fact->thread, fact->mutex, fact); break;
    case PRIORITY: set_level(order, fact); break;
    case CEILING: set_ceiling(order, fact); break;
    case BLOCKS: block(order, fact); break;
    case RESUMES:
        unblock(order, fact->thread, fact->mutex, fact->other, fact->flags, fact->said);
        break;
    }
}

/* ---- declarations ---- */

static const struct thread *sorted_threads;

static int by_number(const void *one, const void *other) {
    uint32_t a = sorted_threads[*(const uint32_t *)one].log_number;
    uint32_t b = sorted_threads[*(const uint32_t *)other].log_number;
    return a < b ? -1 : a > b;
}

/* Returns the first number from one on that no task has. */
static uint32_t free_number(const struct table *tasks, uint32_t number, int step) {
    while (table_get(tasks, number, 0) != NONE) number += (uint32_t)step;
    return number;
}

/* Numbers the threads that aren't in the log by their tasks. Those that have no room aren't
 * declared. */
static void number_others(struct order *order, struct table *tasks) {
    struct log *log = order->told->log;
    for (uint32_t i = order->kernel->first_other; order->kernel->is_there && i < log->thread_count;
         i++) {
        struct thread *thread = &log->threads[i];
        bool has_room = order->declared_count + 1 < MOST_THREADS && thread->task <= LAST_THREAD;
        uint32_t *taken = table_at(tasks, thread->task, 0);
        if (!has_room || *taken != NONE) continue;
        *taken = 1;
        thread->text_number = thread->task;
        order->declared[order->declared_count++] = i;
    }
}

/* Numbers the threads: by their tasks, unless an earlier one has that. */
static void number_threads(struct order *order) {
    struct log *log = order->told->log;
    struct table tasks = { 0 };
    uint32_t number = 0;
    order->declared = resized(NULL, (log->thread_count + 1) * sizeof *order->declared);
    for (uint32_t thread = 0; thread < log->thread_count; thread++) {
        if (log->threads[thread].first == NONE) continue;
        order->declared[order->declared_count++] = thread;
        *table_at(&tasks, log->threads[thread].task, 0) = 0;
    }
    sorted_threads = log->threads;
    qsort(order->declared, order->declared_count, sizeof *order->declared, by_number);
    for (uint32_t i = 0; i < order->declared_count; i++) {
        struct thread *thread = &log->threads[order->declared[i]];
        uint32_t *taken = table_at(&tasks, thread->task, 0);
        bool is_free = *taken == 0 && thread->task > 0 && thread->task <= LAST_THREAD;
        *taken = 1;
        if (!is_free) number = free_number(&tasks, number + 1, 1);
        thread->text_number = is_free ? thread->task : number;
        if (!is_free) *table_at(&tasks, number, 0) = 1;
    }
    number_others(order, &tasks);
    order->unknown_number = free_number(&tasks, LAST_THREAD, -1);
}

static void declare_threads(struct order *order) {
    for (uint32_t i = 0; i < order->declared_count; i++) {
        const struct thread *thread = &order->log->threads[order->declared[i]];
        struct name name = name_of_thread(order->log, thread);
        text_begin(order->text);
        text_word(order->text, "thread");
        text_number(order->text, thread->text_number);
        text_number(order->text, thread->first_level);
        text_name(order->text, &name);
        text_end(order->text);
    }
}

/* Returns the first known ceiling of a PROTECT mutex. */
static uint32_t ceiling_of(const struct mutex *mutex) {
    uint32_t ceiling = mutex->detail >> 8;
    return ceiling < LEVEL_MOST ? ceiling : LEVEL_MOST;
}

static void declare_mutexes(struct order *order) {
    for (uint32_t i = 0; i < order->log->mutex_count; i++) {
        const struct mutex *mutex = &order->log->mutexes[i];
        struct name name = name_of_mutex(order->names, mutex);
        bool is_inherit = (mutex->detail & (DETAIL_INHERIT | DETAIL_PROTECT)) == DETAIL_INHERIT;
        text_begin(order->text);
        text_word(order->text, "mutex");
        text_number(order->text, (uint64_t)i + 1);
        if (is_recursive(mutex)) text_word(order->text, " recursive");
        if (is_protect(mutex)) {
            text_word(order->text, " protect");
            text_number(order->text, ceiling_of(mutex));
        } else {
            text_word(order->text, is_inherit ? " inherit" : " none");
        }
        text_name(order->text, &name);
        text_end(order->text);
    }
}

static void declare_objects(struct order *order) {
    static const char *const kinds[] = { "",         " semaphore", " rwlock",    " rwlock",
                                         " barrier", " thread",    " condition", " futex" };
    for (uint32_t i = 0; i < order->told->object_count; i++) {
        const struct object *object = &order->told->objects[i];
        struct name name = name_of_address(order->names, object->process, object->address);
        text_begin(order->text);
        text_word(order->text, "object");
        text_number(order->text, (uint64_t)i + 1);
        text_word(order->text, kinds[object->kind]);
        text_name(order->text, &name);
        text_end(order->text);
    }
}

/* Writes a line of what the recorder couldn't see, if it is something. */
static void put_unseen(struct order *order, uint64_t count, const char *one, const char *several) {
    if (count == 0) return;
    text_begin(order->text);
    text_word(order->text, "unseen");
    text_number(order->text, count);
    text_word(order->text, count == 1 ? one : several);
    text_end(order->text);
}

/* Writes a line of what the recorder didn't know of mutexes, if it didn't. */
static void put_unknown(struct order *order, uint32_t known, const char *what) {
    if (order->log->header.known & known || order->log->length == 0) return;
    text_begin(order->text);
    text_word(order->text, what);
    text_end(order->text);
}

static bool is_loaded(const struct log *log, const char *file) {
    for (uint32_t i = 0; i < log->module_count; i++) {
        const struct name *name = &log->names[log->modules[i].name];
        if (name->length == strlen(file) && memcmp(name->bytes, file, name->length) == 0)
            return true;
    }
    return false;
}

/* Writes a line for each library whose waits are futexes of its own. */
static void declare_libraries(struct order *order) {
    static const char *const libraries[] = { "libgomp.so.1", "libiomp5.so", "libjack.so.0",
                                             "libomp.so", "libomp.so.5" };
    for (size_t i = 0; i < sizeof libraries / sizeof *libraries; i++) {
        if (!is_loaded(order->log, libraries[i])) continue;
        text_begin(order->text);
        text_word(order->text, "unseen waits by futexes of ");
        text_word(order->text, libraries[i]);
        text_end(order->text);
    }
}

static void declare_unseen(struct order *order) {
    const struct header *header = &order->log->header;
    put_unknown(order, KNOWN_KIND, "unseen kinds of mutexes");
    put_unknown(order, KNOWN_CEILING, "unseen ceilings of mutexes");
    put_unknown(order, KNOWN_OWNER, "unseen requests for mutexes, whose owners weren't known");
    put_unseen(order, header->left_out, " call that the recorder couldn't see whole",
               " calls that the recorder couldn't see whole");
    put_unseen(order, header->dropped, " early record that was dropped for later ones",
               " early records that were dropped for later ones");
    put_unseen(order, header->unplaced, " record for whose place the log had no room",
               " records for whose places the log had no room");
    declare_libraries(order);
    if (!order->kernel->is_there || order->kernel->is_whole) return;
    text_begin(order->text);
    text_word(order->text, "unseen the rest of the kernel's events, which aren't whole");
    text_end(order->text);
}

/* ---- all of it ---- */

static void make(struct order *order) {
    uint32_t mutexes = order->log->mutex_count, threads = order->log->thread_count;
    order->owner = nones(mutexes);
    order->early = nones(mutexes);
    order->awaits = nones(threads + 1);
    order->blocked = nones(threads + 1);
    order->resumes = nones(threads + 1);
    order->releases = nones(threads + 1);
    order->ceiling = nones(mutexes);
    order->level = nones(threads + 1);
    order->running = resized(NULL, (threads + 1) * sizeof *order->running);
    order->on = nones(order->kernel->is_there ? MOST_CPUS : 0);
    order->is_own = memset(resized(NULL, threads + 1), 0, threads + 1);
    order->is_kernels = memset(resized(NULL, threads + 1), 0, threads + 1);
    for (uint32_t thread = 0; thread < threads; thread++)
        order->level[thread] = order->log->threads[thread].first_level;
    for (uint32_t thread = 0; thread <= threads; thread++)
        order->running[thread] = (struct running){ NONE, NONE, 0 };
    for (uint32_t mutex = 0; mutex < mutexes; mutex++) {
        const struct mutex *its = &order->log->mutexes[mutex];
        if (!is_protect(its)) continue;
        order->ceiling[mutex] = ceiling_of(its);
        order->is_ceiling[order->ceiling[mutex]] = true;
    }
    size_t logged = order->kernel->count ? order->kernel->first_other : 0;
    size_t bytes = logged * sizeof *order->ceilings;
    order->ceilings = bytes ? memset(resized(NULL, bytes), 0, bytes) : NULL;
}

void write_facts(struct told *told, struct kernel *kernel, struct names *names,
                 struct text *text) {
    struct order order = {
        .told = told, .log = told->log, .kernel = kernel, .names = names, .text = text
    };
    make(&order);
    number_threads(&order);
    text_begin(text);
    text_word(text, "facts 1");
    text_end(text);
    declare_threads(&order);
    declare_mutexes(&order);
    declare_objects(&order);
    declare_unseen(&order);
    for (uint32_t i = 0; i < told->fact_count; i++) {
        log_fetch(told->log, told->facts[i + AHEAD < told->fact_count ? i + AHEAD : i].record);
        put_fact(&order, &told->facts[i]);
    }
    put_kernel(&order, UINT64_MAX);
    order.now = since_begin(told->log, told->log->ended);
    for (uint32_t i = 0; i < order.declared_count; i++)
        catch_up(&order, order.releases[order.declared[i]]);
    put_missing(&order);
    text_time(text, order.now);
    text_word(text, " end");
    text_end(text);
    text_flush(text);
}
