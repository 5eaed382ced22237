/* The waits for what isn't a mutex: FORMAT.md. */
#define _GNU_SOURCE
#include "told.h"

#include <errno.h>
#include <stdlib.h>

/* The last gift at an object, and the last one before it that is by another thread. */
struct gifts {
    uint32_t last, before; /* records, or NONE */
};

struct finding {
    struct told *told;
    uint32_t *open;     /* by thread its wait that hasn't ended */
    struct table known; /* which gifts are at a process, a kind and an address */
    struct gifts *gifts;
    uint32_t count;
};

/* Returns the kind of a record's object, of which a lock's are one, or 0. */
static uint32_t kind_of(const struct record *record) {
    if (record->event == EVENT_CONDITION) return KIND_CONDITION;
    if (record->event == EVENT_THREAD) return KIND_THREAD;
    if (record->detail == KIND_WRITE) return KIND_READ;
    return record->detail <= KIND_CONDITION ? record->detail : 0;
}

static uint32_t *gifts_at(struct finding *finding, uint32_t at) {
    const struct log *log = finding->told->log;
    const struct record *record = record_at(log, at);
    uint64_t process = chunk_at(log, at)->process;
    return table_at(&finding->known, process << 3 | kind_of(record), address_of(log, record));
}

static void give(struct finding *finding, uint32_t at) {
    const struct log *log = finding->told->log;
    uint32_t *known = gifts_at(finding, at);
    if (*known == NONE) {
        finding->gifts = with_room(finding->gifts, finding->count, sizeof *finding->gifts);
        finding->gifts[finding->count] = (struct gifts){ NONE, NONE };
        *known = finding->count++;
    }
    struct gifts *gifts = &finding->gifts[*known];
    if (gifts->last != NONE && thread_at(log, gifts->last) != thread_at(log, at))
        gifts->before = gifts->last;
    gifts->last = at;
}

/* Returns the gift that ended a wait which was given what it waited for, or NONE. */
static uint32_t gift_of(struct finding *finding, const struct wait *wait) {
    const struct log *log = finding->told->log;
    uint32_t known = *gifts_at(finding, wait->begin);
    if (known == NONE) return NONE;
    uint32_t gift = finding->gifts[known].last;
    if (thread_at(log, gift) == thread_at(log, wait->begin)) gift = finding->gifts[known].before;
    bool is_join = kind_of(record_at(log, wait->begin)) == KIND_THREAD;
    return gift == NONE || (gift < wait->begin && !is_join) ? NONE : gift;
}

static void put_mark(struct told *told, uint32_t record, uint32_t wait, bool is_begin) {
    told->marks = with_room(told->marks, told->mark_count, sizeof *told->marks);
    told->marks[told->mark_count++] = (struct mark){ record, wait, is_begin };
}

/* A wait counts. It is told behind the release that follows a CONDITION. */
static void keep(struct told *told, uint32_t number) {
    const struct log *log = told->log;
    struct wait *wait = &told->waits[number];
    uint32_t behind = wait->begin, next = log->next[behind];
    bool is_condition = record_at(log, behind)->event == EVENT_CONDITION;
    if (is_condition && next != NONE && record_at(log, next)->event == EVENT_RELEASE &&
        call_of(record_at(log, next)) == CALL_CONDITION)
        behind = next;
    wait->is_kept = true;
    put_mark(told, behind, number, true);
}

/* Returns whether a record ends a wait of its thread. */
static bool ends(const struct record *record, bool is_condition) {
    if (record->event == EVENT_WAITED || record->event == EVENT_EXIT) return true;
    bool is_relock = record->event == EVENT_GRANTED && call_of(record) == CALL_CONDITION;
    return is_condition && (is_relock || record->event == EVENT_FAILED);
}

/* Ends the wait of a thread, if a record does. */
static void end(struct finding *finding, uint32_t at) {
    struct told *told = finding->told;
    const struct record *record = record_at(told->log, at);
    uint32_t thread = thread_at(told->log, at), number = finding->open[thread];
    if (number == NONE) return;
    struct wait *wait = &told->waits[number];
    uint32_t kind = kind_of(record_at(told->log, wait->begin));
    if (record->event == EVENT_RELEASE_FAILED && kind == KIND_CONDITION)
        finding->open[thread] = NONE;
    if (!ends(record, kind == KIND_CONDITION)) return;
    finding->open[thread] = NONE;
    bool is_given = (record->event == EVENT_WAITED && record->how == 0) ||
                    record->event == EVENT_GRANTED;
    bool is_late = record->event == EVENT_WAITED && record->how == ETIMEDOUT;
    if (is_given) wait->gift = gift_of(finding, wait);
    if (is_given && wait->gift == NONE && kind == KIND_BARRIER)
        return; /* it was the last one there */
    wait->flags = is_given ? 0 : is_late ? IS_TIMED_OUT : HAS_FAILED;
    keep(told, number);
    put_mark(told, at, number, false);
}

static void begin(struct finding *finding, uint32_t at) {
    struct told *told = finding->told;
    uint32_t *open = &finding->open[thread_at(told->log, at)];
    *open = NONE;
    if (kind_of(record_at(told->log, at)) == 0) return;
    told->waits = with_room(told->waits, told->wait_count, sizeof *told->waits);
    told->waits[told->wait_count] = (struct wait){ .begin = at, .gift = NONE };
    *open = told->wait_count++;
}

static int by_record(const void *one, const void *other) {
    const struct mark *a = one, *b = other;
    if (a->record != b->record) return a->record < b->record ? -1 : 1;
    return (int)a->is_begin - (int)b->is_begin;
}

/* Numbers the objects in the order in which waits for them begin. */
static void number_objects(struct told *told) {
    struct table known = { 0 };
    for (uint32_t i = 0; i < told->wait_count; i++) {
        struct wait *wait = &told->waits[i];
        if (!wait->is_kept) continue;
        const struct record *record = record_at(told->log, wait->begin);
        struct object object = { address_of(told->log, record),
                                 chunk_at(told->log, wait->begin)->process, kind_of(record) };
        uint64_t process = object.process;
        uint32_t *number = table_at(&known, process << 3 | object.kind, object.address);
        if (*number == NONE) {
            told->objects = with_room(told->objects, told->object_count, sizeof *told->objects);
            told->objects[ *number = told->object_count++] = object;
        }
        wait->object = *number;
    }
}

void find_waits(struct told *told) {
    const struct log *log = told->log;
    struct finding finding = { .told = told, .open = nones(log->thread_count) };
    if (log->header.version < 3 || !log->has_waits) return; /* those before don't say who gives */
    for (uint32_t at = 0; at < log->count; at = next_record(log, at)) {
        const struct record *record = record_at(log, at);
        bool is_begin = record->event == EVENT_WAIT || record->event == EVENT_CONDITION;
        bool is_at_barrier = record->event == EVENT_WAIT && record->detail == KIND_BARRIER;
        end(&finding, at);
        if (is_begin) begin(&finding, at);
        if (record->event == EVENT_THREAD || is_at_barrier ||
            (record->event == EVENT_GIVE && kind_of(record)))
            give(&finding, at);
    }
    for (uint32_t thread = 0; thread < log->thread_count; thread++)
        if (finding.open[thread] != NONE) keep(told, finding.open[thread]);
    if (told->mark_count) qsort(told->marks, told->mark_count, sizeof *told->marks, by_record);
    number_objects(told);
}
