/* What happened to the threads of a log, by FORMAT.md. */
#ifndef PIM_FACTS_TOLD_H
#define PIM_FACTS_TOLD_H

#include "log_file.h"

enum what { WAITS, GAVE_UP, RELEASED, GRANTED, PRIORITY, CEILING, BLOCKS, RESUMES };

enum {
    IS_NAMED = 1,  /* WAITS: the REQUEST names a task as the owner */
    IS_OWN = 2,    /* WAITS, GAVE_UP: for a mutex of the thread's own */
    IS_LATE = 4,   /* WAITS: the owner's grant is told late */
    ASKS = 8,      /* WAITS: the owner asks for the mutex before its next grant */
    IS_EARLY = 16, /* RELEASED: a later request shows that the thread owns the mutex still */
    IS_DONE = 32,  /* GRANTED: it was told before */
    IS_TIMED_OUT = 64,
    HAS_FAILED = 128,
    IS_FREE = 256, /* WAITS: by the records before, nobody owns the mutex */
};

/* What happened at the time of a record. */
struct fact {
    uint32_t record;        /* that says it, or behind which it was added */
    uint32_t said;          /* whose place it has, or NONE; RESUMES: that of who ended it */
    uint32_t thread, mutex; /* of BLOCKS and RESUMES an object */
    uint32_t
        other; /* WAITS: the owner, or NONE; PRIORITY, CEILING: the level; RESUMES: who ended it */
    uint32_t
        link; /* GRANTED: its thread's record before, or NONE; WAITS that IS_LATE: the grant;
               * BLOCKS: its RESUMES, or NONE */
    uint16_t what, flags;
};

enum { KIND_FUTEX = KIND_CONDITION + 1 };

/* What a thread waits for and isn't a mutex. */
struct object {
    uint64_t address;
    uint32_t process;
    uint32_t kind; /* an enum kind, of which a lock's is KIND_READ; or KIND_FUTEX */
};

/* The GRANTEDs of each mutex: those of mutex m are from begin[m] on. */
struct grants {
    uint32_t *begin, *records;
    uint64_t *latest; /* the latest time up to each */
};

/* A request that the log lacks, behind a record. `call` is the record that ends its call. */
struct missing {
    uint32_t behind, call;
};

/* Where a wait for an object begins or ends: behind the facts of a record, or before them. */
struct mark {
    uint32_t record, wait;
    bool is_begin;
};

struct wait {
    uint32_t begin; /* its WAIT or CONDITION */
    uint32_t object;
    uint32_t gift;  /* the record that ended it, or NONE */
    uint16_t flags; /* how it ended */
    bool is_kept;
};

struct told {
    struct log *log;
    struct grants grants;
    struct missing *missing;
    struct wait *waits;
    struct mark *marks;
    struct object *objects;
    struct fact *facts;
    bool has_missing; /* some grants may be missing: it matters who owned which mutex before */
    uint32_t missing_count, wait_count, mark_count, object_count, fact_count;
};

/* Finds the grants of the mutexes, and the requests that the log lacks. */
void find_requests(struct told *told);

/* Finds the waits for what isn't a mutex. */
void find_waits(struct told *told);

/* Lists the facts in the order of the records. */
void list_facts(struct told *told);

/* Returns whether a RELEASE_FAILED of its mutex follows a record. */
bool is_refused(const struct log *log, uint32_t release);

/* Returns whether the call of a GRANTED may have begun as an earlier record was made. The begin of
 * some isn't known: then it is behind the record of the thread before, or NONE. */
bool had_begun(const struct log *log, uint32_t grant, uint32_t before, uint32_t request);

static inline uint8_t call_of(const struct record *record) {
    return record->how & ~OWNER_DIED;
}

#endif
