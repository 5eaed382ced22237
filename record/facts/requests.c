/* The requests that a log lacks: FORMAT.md. */
#define _GNU_SOURCE
#include "told.h"

#include <errno.h>
#include <stdlib.h>

/* Who owns each mutex, and since when others did. */
struct owners {
    uint32_t *owner, *depth;
    uint32_t *grants;     /* how many GRANTEDs each had */
    uint32_t *ownerships; /* how many ownerships */
    uint32_t *granted;    /* of each ownership its GRANTED */
    uint64_t *released;   /* and the latest time of a release up to it */
    uint32_t *asked;      /* by thread the mutex that it asked for last, until that is answered */
    uint32_t *last;       /* by thread its last record */
};

/* Returns how many of the first numbers, which ascend, are below one. */
static uint32_t count_below(const uint64_t *numbers, uint32_t count, uint64_t limit) {
    uint32_t least = 0;
    while (least < count) {
        uint32_t middle = least + (count - least) / 2;
        if (numbers[middle] < limit)
            least = middle + 1;
        else
            count = middle;
    }
    return least;
}

/* Returns whether the call that ends with a record may have waited. */
static bool may_have_waited(const struct record *record) {
    if (record->event == EVENT_FAILED) return record->value && record->how == ETIMEDOUT;
    uint8_t call = call_of(record);
    return record->value && call != CALL_TRYLOCK && call != CALL_CONDITION;
}

/* Returns the GRANTED of the first ownership that lasts until a time or longer, by the records so
 * far, or NONE. Where it begins later, a GRANTED before it does, too. */
static uint32_t lasting(const struct told *told, const struct owners *owners, uint32_t mutex,
                        uint64_t until) {
    uint32_t begin = told->grants.begin[mutex], count = owners->ownerships[mutex];
    uint32_t ended = count - (owners->owner[mutex] != NONE);
    uint32_t first = count_below(owners->released + begin, ended, until);
    return first < count ? owners->granted[begin + first] : NONE;
}

/* Returns the record behind which the call waited that ends with this one: a GRANTED by another
 * thread since the call began, or a later record of its own thread; or NONE. */
static uint32_t begin_of_wait(const struct told *told, const struct owners *owners, uint32_t at) {
    const struct log *log = told->log;
    const struct record *record = record_at(log, at);
    uint32_t mutex = log->mutex_of[at], thread = thread_at(log, at), first = NONE;
    if (!may_have_waited(record)) return NONE;
    uint64_t since = record->time < record->value ? 0 : record->time - record->value + 1;
    uint32_t begin = told->grants.begin[mutex], count = owners->grants[mutex];
    uint32_t later = count_below(told->grants.latest + begin, count, since);
    if (later < count) first = told->grants.records[begin + later];
    if (record->value == UINT32_MAX) {
        uint32_t owned = lasting(told, owners, mutex, since);
        if (owned < first && record_at(log, owned)->time < since) first = owned;
    }
    if (first == NONE || thread_at(log, first) == thread) return NONE;
    uint32_t own = owners->last[thread];
    return own != NONE && own > first ? own : first;
}

/* A thread loses a mutex. */
static void lose(const struct told *told, struct owners *owners, uint32_t mutex, uint64_t time) {
    uint32_t at = told->grants.begin[mutex] + owners->ownerships[mutex] - 1;
    uint64_t before = owners->ownerships[mutex] > 1 ? owners->released[at - 1] : 0;
    owners->released[at] = time > before ? time : before;
    owners->owner[mutex] = NONE;
}

static void grant(const struct told *told, struct owners *owners, uint32_t at) {
    const struct log *log = told->log;
    uint32_t mutex = log->mutex_of[at], thread = thread_at(log, at),
             begin = told->grants.begin[mutex];
    uint64_t time = record_at(log, at)->time;
    uint32_t last = begin + owners->grants[mutex]++;
    uint64_t before = last > begin ? told->grants.latest[last - 1] : 0;
    told->grants.records[last] = at;
    told->grants.latest[last] = time > before ? time : before;
    if (owners->owner[mutex] == thread) {
        owners->depth[mutex] += is_recursive(&log->mutexes[mutex]);
        return;
    }
    if (owners->owner[mutex] != NONE) lose(told, owners, mutex, time);
    owners->owner[mutex] = thread;
    owners->depth[mutex] = 1;
    owners->granted[begin + owners->ownerships[mutex]++] = at;
}

static void release(const struct told *told, struct owners *owners, uint32_t at) {
    const struct log *log = told->log;
    uint32_t mutex = log->mutex_of[at];
    const struct record *record = record_at(log, at);
    if (owners->owner[mutex] != thread_at(log, at)) return;
    if (call_of(record) == CALL_CONDITION && is_refused(log, at)) return;
    if (--owners->depth[mutex] == 0) lose(told, owners, mutex, record->time);
}

/* A call is answered, of which the log may lack the request. */
static void answer(struct told *told, struct owners *owners, uint32_t at) {
    uint32_t thread = thread_at(told->log, at);
    bool is_answer = owners->asked[thread] == told->log->mutex_of[at];
    owners->asked[thread] = NONE;
    uint32_t behind = is_answer ? NONE : begin_of_wait(told, owners, at);
    if (behind == NONE) return;
    told->missing = with_room(told->missing, told->missing_count, sizeof *told->missing);
    told->missing[told->missing_count++] = (struct missing){ behind, at };
}

static int by_record(const void *one, const void *other) {
    const struct missing *a = one, *b = other;
    if (a->behind != b->behind) return a->behind < b->behind ? -1 : 1;
    return a->call < b->call ? -1 : a->call > b->call;
}

static void make_lists(struct told *told, struct owners *owners) {
    const struct log *log = told->log;
    uint32_t mutexes = log->mutex_count, count = 0;
    told->grants.begin = resized(NULL, (mutexes + 1) * sizeof(uint32_t));
    for (uint32_t mutex = 0; mutex < mutexes; mutex++) {
        told->grants.begin[mutex] = count;
        count += log->mutexes[mutex].grants;
    }
    told->grants.begin[mutexes] = count;
    told->grants.records = resized(NULL, count * sizeof(uint32_t));
    told->grants.latest = resized(NULL, count * sizeof(uint64_t));
    *owners = (struct owners){ .owner = nones(mutexes),
                               .depth = nones(mutexes),
                               .grants = nones(mutexes),
                               .ownerships = nones(mutexes),
                               .granted = nones(count),
                               .released = resized(NULL, count * sizeof(uint64_t)),
                               .asked = nones(log->thread_count),
                               .last = nones(log->thread_count) };
    for (uint32_t mutex = 0; mutex < mutexes; mutex++)
        owners->grants[mutex] = owners->ownerships[mutex] = 0;
}

void find_requests(struct told *told) {
    const struct log *log = told->log;
    struct owners owners;
    make_lists(told, &owners);
    for (uint32_t at = 0; at < log->count; at = next_record(log, at)) {
        uint8_t event = record_at(log, at)->event;
        if (event == EVENT_REQUEST) owners.asked[thread_at(log, at)] = log->mutex_of[at];
        if (event == EVENT_GRANTED || event == EVENT_FAILED) answer(told, &owners, at);
        if (event == EVENT_GRANTED) grant(told, &owners, at);
        if (event == EVENT_RELEASE) release(told, &owners, at);
        owners.last[thread_at(log, at)] = at;
    }
    if (told->missing_count)
        qsort(told->missing, told->missing_count, sizeof *told->missing, by_record);
    resized(owners.granted, 0);
    resized(owners.released, 0);
}
