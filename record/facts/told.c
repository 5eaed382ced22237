/* Goes through the records, and says what happened at each: the table of FORMAT.md. */
#define _GNU_SOURCE
#include "told.h"

#include <errno.h>

/* Who owns and awaits what up to a record. */
struct world {
    struct told *told;
    const struct log *log;
    uint32_t *owner, *depth, *last_owner; /* by mutex */
    uint32_t *grants;                     /* how many GRANTEDs each had */
    uint32_t *ceiling;
    uint32_t *awaits, *own; /* by thread a mutex of another, one of its own; or NONE */
    uint32_t *level;
    uint32_t *last;             /* by thread its last record, or NONE */
    struct table selves, tasks; /* threads by process and pthread_t, by task */
    struct table creates;       /* by process and pthread_t the CREATE of a thread that is to begin */
    struct table begun;         /* the CREATEs whose threads began before them */
    uint32_t at;                /* the record */
};

bool is_refused(const struct log *log, uint32_t release) {
    uint32_t next = log->next[release];
    const struct record *record = record_at(log, release);
    if (next == NONE || record_at(log, next)->event != EVENT_RELEASE_FAILED) return false;
    return address_of(log, record_at(log, next)) == address_of(log, record);
}

bool had_begun(const struct log *log, uint32_t grant, uint32_t before, uint32_t request) {
    const struct record *record = record_at(log, grant);
    uint64_t asked = record_at(log, request)->time;
    if (call_of(record) == CALL_CONDITION || record->value == UINT32_MAX)
        return before == NONE || before < request;
    return record->time < record->value || record->time - record->value <= asked;
}

static struct fact *put(struct world *world, enum what what, uint32_t thread, uint32_t mutex) {
    struct told *told = world->told;
    told->facts = with_room(told->facts, told->fact_count, sizeof *told->facts);
    struct fact *fact = &told->facts[told->fact_count++];
    *fact = (struct fact){ world->at, NONE, thread, mutex, NONE, NONE, (uint16_t)what, 0 };
    return fact;
}

/* A record of the thread says a fact, which has its place. */
static struct fact *say(struct world *world, enum what what, uint32_t thread, uint32_t mutex) {
    struct fact *fact = put(world, what, thread, mutex);
    fact->said = world->at;
    return fact;
}

/* Returns the first of some threads that there is, and that isn't this one, or NONE. */
static uint32_t first_other(uint32_t thread, uint32_t one, uint32_t other, uint32_t last) {
    if (one != NONE && one != thread) return one;
    if (other != NONE && other != thread) return other;
    return last != thread ? last : NONE;
}

/* ---- threads ---- */

static void has_level(struct world *world, uint32_t thread, uint8_t level) {
    world->level[thread] = level;
    put(world, PRIORITY, thread, NONE)->other = level;
}

static void create_thread(struct world *world, const struct record *record) {
    uint32_t process = chunk_at(world->log, world->at)->process;
    if (table_get(&world->begun, world->at, 0) == NONE)
        *table_at(&world->creates, process, record->object) = world->at;
}

/* Returns the next CREATE of a thread that has begun, or NONE. */
static uint32_t next_create(const struct world *world, uint32_t process, uint64_t self) {
    const struct log *log = world->log;
    for (uint32_t at = world->at + 1; at < log->count; at++) {
        const struct record *record = record_at(log, at);
        bool is_wanted = record->event == EVENT_CREATE && record->object == self;
        if (is_wanted && chunk_at(log, at)->process == process) return at;
    }
    return NONE;
}

/* Returns the level with which a thread begins. If the recorder didn't ask for it, it is that of its
 * CREATE. */
static uint8_t first_level(struct world *world, uint32_t process, const struct record *record) {
    uint32_t *known = table_at(&world->creates, process, record->object), create = *known;
    *known = NONE;
    if ((record->detail & 15) != POLICY_KEPT) return level_of(record->detail, LEVEL_OTHER);
    if (create == NONE) {
        create = next_create(world, process, record->object);
        if (create == NONE) return LEVEL_OTHER;
        *table_at(&world->begun, create, 0) = 0;
    }
    uint16_t detail = record_at(world->log, create)->detail;
    bool is_creators = (detail & 15) == POLICY_KEPT;
    return is_creators ? (uint8_t)world->level[thread_at(world->log, create)]
                       : level_of(detail, LEVEL_OTHER);
}

static void begin_thread(struct world *world, uint32_t thread, const struct record *record) {
    const struct chunk_head *head = chunk_at(world->log, world->at);
    *table_at(&world->selves, head->process, record->object) = thread;
    *table_at(&world->tasks, head->task, 0) = thread;
    has_level(world, thread, first_level(world, head->process, record));
}

static void set_priority(struct world *world, const struct record *record) {
    uint32_t process = chunk_at(world->log, world->at)->process;
    uint32_t thread = record->object ? table_get(&world->selves, process, record->object)
                                     : table_get(&world->tasks, record->value, 0);
    if (thread == NONE) return;
    has_level(world, thread, level_of(record->detail, (uint8_t)world->level[thread]));
}

/* ---- requests ---- */

/* A record says another ceiling of a PROTECT mutex than was known. */
static void see_ceiling(struct world *world, uint32_t thread, uint32_t mutex) {
    uint16_t detail = detail_of(record_at(world->log, world->at));
    uint32_t ceiling = detail >> 8 < LEVEL_MOST ? detail >> 8 : LEVEL_MOST;
    bool is_protect_now = (detail & (DETAIL_INHERIT | DETAIL_PROTECT)) == DETAIL_PROTECT;
    if (!is_protect(&world->log->mutexes[mutex]) || !is_protect_now) return;
    if (world->ceiling[mutex] == ceiling) return;
    world->ceiling[mutex] = ceiling;
    put(world, CEILING, thread, mutex)->other = ceiling;
}

/* A thread that does something else doesn't wait any more. */
static void go_on(struct world *world, uint32_t thread, uint32_t but) {
    uint32_t mutex = world->awaits[thread];
    if (mutex == NONE || mutex == but) return;
    world->awaits[thread] = NONE;
    put(world, GAVE_UP, thread, mutex);
}

/* A thread has changed a ceiling. If it waited to do so, that is over. */
static void change_ceiling(struct world *world, uint32_t thread, uint32_t mutex) {
    if (world->awaits[thread] == mutex) go_on(world, thread, NONE);
    see_ceiling(world, thread, mutex);
}

/* A call of a thread has ended, so that it doesn't wait for itself. */
static void end_own(struct world *world, uint32_t thread) {
    if (world->own[thread] == NONE) return;
    struct fact *fact = put(world, GAVE_UP, thread, world->own[thread]);
    fact->flags = IS_OWN;
    if (record_at(world->log, world->at)->event == EVENT_FAILED) fact->said = world->at;
    world->own[thread] = NONE;
}

/* Returns the first GRANTED of a mutex behind the record, or NONE. */
static uint32_t next_grant(const struct world *world, uint32_t mutex) {
    const struct grants *grants = &world->told->grants;
    uint32_t at = grants->begin[mutex] + world->grants[mutex];
    return at < grants->begin[mutex + 1] ? grants->records[at] : NONE;
}

/* Returns the thread that a REQUEST names as the owner, or NONE. */
static uint32_t named(const struct world *world, uint32_t task, uint32_t mutex) {
    const struct log *log = world->log;
    uint32_t thread = table_get(&world->tasks, task, 0), grant = next_grant(world, mutex);
    const struct mutex *its = &log->mutexes[mutex];
    if (thread != NONE && (its->is_shared || its->process == log->threads[thread].process))
        return thread;
    return grant != NONE && chunk_at(log, grant)->task == task ? thread_at(log, grant) : NONE;
}

/* Returns the record of a thread before one that is behind this one, unless another is between. */
static uint32_t before(const struct world *world, uint32_t grant) {
    uint32_t thread = thread_at(world->log, grant), last = world->last[thread];
    uint32_t next = last == NONE ? world->log->threads[thread].first : world->log->next[last];
    return next == grant ? last : grant;
}

/* Returns who owned the mutex of the REQUEST as it was made, or NONE. */
static uint32_t owner_at(const struct world *world, uint32_t thread, uint32_t mutex) {
    const struct log *log = world->log;
    uint32_t task = record_at(log, world->at)->value, owner = world->owner[mutex];
    if (task) return first_other(thread, named(world, task, mutex), owner, NONE);
    uint32_t grant = next_grant(world, mutex), last = world->last_owner[mutex];
    if (grant == NONE) return first_other(thread, owner, last, NONE);
    uint32_t following = thread_at(log, grant);
    if (had_begun(log, grant, before(world, grant), world->at))
        return first_other(thread, owner, following, last);
    return first_other(thread, owner, last, following);
}

/* A thread asks for a mutex that it owns. It waits for itself from then on, or no more if that is
 * recursive. */
static void request_own(struct world *world, uint32_t thread, uint32_t mutex) {
    if (is_recursive(&world->log->mutexes[mutex])) {
        end_own(world, thread);
        return;
    }
    world->own[thread] = mutex;
    struct fact *fact = say(world, WAITS, thread, mutex);
    fact->other = thread;
    fact->flags = IS_OWN;
}

/* Returns whether the call of a REQUEST was refused, so that it didn't wait: the next record of its
 * thread, behind its FRAMEs, says so. */
static bool was_refused(const struct log *log, uint32_t request) {
    uint32_t next = log->next[request];
    while (next != NONE && record_at(log, next)->event == EVENT_FRAME) next = log->next[next];
    if (next == NONE || log->mutex_of[next] != log->mutex_of[request]) return false;
    const struct record *answer = record_at(log, next);
    bool may_have_waited = answer->how == ETIMEDOUT || answer->how == ENOTRECOVERABLE;
    return answer->event == EVENT_FAILED && !may_have_waited;
}

static void request(struct world *world, uint32_t thread, uint32_t mutex) {
    if (world->awaits[thread] == mutex) return;
    if (world->owner[mutex] == thread) {
        request_own(world, thread, mutex);
        return;
    }
    uint32_t owner = owner_at(world, thread, mutex);
    see_ceiling(world, thread, mutex);
    go_on(world, thread, NONE);
    if (was_refused(world->log, world->at)) return;
    world->awaits[thread] = mutex;
    struct fact *fact = say(world, WAITS, thread, mutex);
    fact->other = owner;
    fact->flags = record_at(world->log, world->at)->value ? IS_NAMED : 0;
    if (world->owner[mutex] == NONE) fact->flags |= IS_FREE;
}

/* A request that the log lacks. */
static void add_request(struct world *world, uint32_t call) {
    uint32_t thread = thread_at(world->log, call), mutex = world->log->mutex_of[call];
    uint32_t owner = world->owner[mutex];
    if (world->awaits[thread] != NONE || owner == thread) return;
    world->awaits[thread] = mutex;
    struct fact *fact = put(world, WAITS, thread, mutex);
    fact->other = first_other(thread, owner, world->last_owner[mutex], NONE);
    fact->said = call;
    if (owner == NONE) fact->flags |= IS_FREE;
}

/* ---- grants and releases ---- */

static void lose(struct world *world, uint32_t thread, uint32_t mutex) {
    bool is_its = thread_at(world->log, world->at) == thread;
    world->owner[mutex] = NONE;
    world->last_owner[mutex] = thread;
    if (is_its)
        say(world, RELEASED, thread, mutex);
    else
        put(world, RELEASED, thread, mutex);
}

static void grant(struct world *world, uint32_t thread, uint32_t mutex) {
    uint32_t owner = world->owner[mutex];
    world->grants[mutex]++;
    end_own(world, thread);
    if (owner == thread) {
        world->depth[mutex] += is_recursive(&world->log->mutexes[mutex]);
        return;
    }
    see_ceiling(world, thread, mutex);
    go_on(world, thread, mutex);
    world->awaits[thread] = NONE;
    if (owner != NONE) lose(world, owner, mutex);
    world->owner[mutex] = thread;
    world->depth[mutex] = 1;
    say(world, GRANTED, thread, mutex)->link = world->last[thread];
}

static void fail(struct world *world, uint32_t thread, uint32_t mutex) {
    end_own(world, thread);
    if (world->awaits[thread] != mutex) return;
    world->awaits[thread] = NONE;
    say(world, GAVE_UP, thread, mutex);
}

static void release(struct world *world, uint32_t thread, uint32_t mutex) {
    const struct record *record = record_at(world->log, world->at);
    if (world->owner[mutex] != thread) return;
    if (call_of(record) == CALL_CONDITION && is_refused(world->log, world->at)) return;
    if (--world->depth[mutex]) return;
    go_on(world, thread, NONE);
    lose(world, thread, mutex);
}

/* ---- all facts ---- */

static void tell(struct world *world) {
    const struct log *log = world->log;
    const struct record *record = record_at(log, world->at);
    uint32_t thread = thread_at(log, world->at), mutex = log->mutex_of[world->at];
    switch (record->event) {
    case EVENT_THREAD: begin_thread(world, thread, record); break;
    case EVENT_CREATE: create_thread(world, record); break;
    case EVENT_PRIORITY: set_priority(world, record); break;
    case EVENT_CEILING: change_ceiling(world, thread, mutex); break;
    case EVENT_REQUEST: request(world, thread, mutex); break;
    case EVENT_GRANTED: grant(world, thread, mutex); break;
    case EVENT_FAILED: fail(world, thread, mutex); break;
    case EVENT_RELEASE: release(world, thread, mutex); break;
    default: break;
    }
    world->last[thread] = world->at;
}

/* Tells of the waits for objects that end at the record, or that begin there. Returns the next
 * mark. */
static uint32_t tell_waits(struct world *world, uint32_t mark, bool is_begin) {
    struct told *told = world->told;
    for (; mark < told->mark_count; mark++) {
        const struct mark *next = &told->marks[mark];
        if (next->record != world->at || next->is_begin != is_begin) break;
        const struct wait *wait = &told->waits[next->wait];
        struct fact *fact = put(world, is_begin ? BLOCKS : RESUMES,
                                thread_at(world->log, wait->begin), wait->object);
        fact->other = wait->gift == NONE ? NONE : thread_at(world->log, wait->gift);
        fact->flags = is_begin ? 0 : wait->flags;
        fact->said = is_begin ? wait->begin : wait->gift;
    }
    return mark;
}

void list_facts(struct told *told) {
    const struct log *log = told->log;
    uint32_t mutexes = log->mutex_count, threads = log->thread_count, missing = 0, mark = 0;
    struct world world = { .told = told,
                           .log = log,
                           .owner = nones(mutexes),
                           .depth = nones(mutexes),
                           .last_owner = nones(mutexes),
                           .grants = nones(mutexes),
                           .ceiling = nones(mutexes),
                           .awaits = nones(threads),
                           .own = nones(threads),
                           .level = nones(threads),
                           .last = nones(threads) };
    for (uint32_t mutex = 0; mutex < mutexes; mutex++) {
        uint32_t ceiling = log->mutexes[mutex].detail >> 8;
        world.grants[mutex] = 0;
        world.ceiling[mutex] = ceiling < LEVEL_MOST ? ceiling : LEVEL_MOST;
    }
    for (uint32_t thread = 0; thread < threads; thread++)
        world.level[thread] = log->threads[thread].first_level;
    for (; world.at < log->count; world.at = next_record(log, world.at)) {
        mark = tell_waits(&world, mark, false);
        tell(&world);
        mark = tell_waits(&world, mark, true);
        while (missing < told->missing_count && told->missing[missing].behind == world.at)
            add_request(&world, told->missing[missing++].call);
    }
}
