/* What comes behind each fact says whether it is told late or early. So this goes backwards. */
#define _GNU_SOURCE
#include "order.h"

/* The next facts behind one, or NONE. */
struct behind {
    struct told *told;
    uint32_t *lock;     /* by thread: of a mutex */
    uint32_t *resumes;  /* by thread: its RESUMES */
    uint32_t *grant;    /* by mutex: its GRANTED */
    struct table waits; /* by thread and mutex: its WAITS */
    struct table names; /* by thread and mutex: a WAITS whose REQUEST names the thread */
};

/* Returns whether the next grant of the mutex of a wait is its owner's, which does nothing with a
 * mutex before, and whose call may have begun as the wait did. */
static bool is_late(const struct behind *behind, const struct fact *wait) {
    uint32_t grant = behind->grant[wait->mutex];
    if (grant == NONE || behind->lock[wait->other] != grant) return false;
    const struct fact *fact = &behind->told->facts[grant];
    return had_begun(behind->told->log, fact->record, fact->link, wait->record);
}

static void mark_wait(struct behind *behind, uint32_t at) {
    struct fact *wait = &behind->told->facts[at];
    uint32_t owner = wait->other, grant = behind->grant[wait->mutex];
    if (!(wait->flags & IS_FREE) || owner == NONE) return;
    if (is_late(behind, wait)) {
        wait->flags |= IS_LATE;
        wait->link = grant;
    }
    bool is_next = grant != NONE && behind->told->facts[grant].thread == owner;
    uint32_t asks = table_get(&behind->waits, owner, wait->mutex);
    if (is_next || (asks != NONE && asks < grant)) wait->flags |= ASKS;
    if (wait->flags & IS_NAMED) *table_at(&behind->names, owner, wait->mutex) = at;
    behind->told->has_missing |= !(wait->flags & (IS_LATE | ASKS));
}

/* A release is told early if a later request names its thread before that, or the next owner, does
 * anything with a mutex. */
static void mark_release(struct behind *behind, uint32_t at) {
    struct fact *release = &behind->told->facts[at];
    uint32_t wait = table_get(&behind->names, release->thread, release->mutex);
    if (wait == NONE || wait > behind->lock[release->thread] ||
        wait > behind->grant[release->mutex])
        return;
    if (!(behind->told->facts[wait].flags & IS_LATE)) release->flags |= IS_EARLY;
}

void mark_order(struct told *told) {
    const struct log *log = told->log;
    struct behind behind = { .told = told,
                             .lock = nones(log->thread_count),
                             .resumes = nones(log->thread_count),
                             .grant = nones(log->mutex_count) };
    for (uint32_t at = told->fact_count; at-- > 0;) {
        struct fact *fact = &told->facts[at];
        if (fact->what == BLOCKS) fact->link = behind.resumes[fact->thread];
        if (fact->what == RESUMES) behind.resumes[fact->thread] = at;
        if (fact->what > GRANTED) continue;
        if (fact->what == WAITS) mark_wait(&behind, at);
        if (fact->what == RELEASED) mark_release(&behind, at);
        if (fact->what == WAITS) *table_at(&behind.waits, fact->thread, fact->mutex) = at;
        if (fact->what == GRANTED) behind.grant[fact->mutex] = at;
        behind.lock[fact->thread] = at;
    }
}
