/* A log as FORMAT.md specifies it, in the order of its records. */
#ifndef PIM_FACTS_LOG_FILE_H
#define PIM_FACTS_LOG_FILE_H

#include "../library/inner.h"
#include "../library/log.h"
#include "../library/places.h"
#include "common.h"

enum {
    LEVEL_OTHER = 0, /* of the policies below SCHED_FIFO */
    LEVEL_MOST = 100,
    NAME_BYTES = 64,
    MODULE_BYTES = 1 << 24,
    MOST_THREADS = 65536, /* of a text of facts, of which one is the owner that isn't known */
};

/* The name of a thread, or the end of the name of a file. */
struct name {
    uint8_t length;
    char bytes[NAME_BYTES];
};

struct thread {
    uint32_t log_number;
    uint32_t process, task; /* by its last record; of no process if it has none */
    uint32_t name;          /* of the log's names, or NONE */
    uint32_t text_number;   /* in the facts */
    uint32_t first, last;   /* records */
    uint8_t first_level;    /* that of its first THREAD, which it has before that, too */
    bool has_level;
};

struct mutex {
    uint64_t address;
    uint32_t process, init; /* its INIT, or NONE */
    uint32_t grants;        /* how many GRANTED are of it */
    uint16_t detail;        /* the first one that is known, or 0 */
    bool is_shared;
};

/* A file that is loaded in a process. */
struct module {
    uint64_t begin, length; /* the length is MODULE_BYTES where the log doesn't say it */
    uint32_t process, name;
};

/* What a log that is made of several has: the first one is part 0. */
struct joined {
    uint32_t *part_of;     /* by process, which have numbers from 1 on here */
    uint32_t *first_place; /* by part, the number before those of its places */
    uint64_t *places;
    uint32_t place_count;
    uint64_t missing; /* records for which the logs had no room, and those behind them */
};

/* The head of a thread's records, which go on up to the next one or the chunk's end. */
struct head {
    uint32_t slot, thread;
};

/* Records have numbers from 0 on here, in the order of those of the log, without TEXTs. */
struct log {
    const char *path;
    const char *bytes;
    size_t length;
    struct header header;
    const struct joined *joined; /* or NULL */
    const uint64_t *places;      /* addresses in the code, or 0 */
    uint32_t place_count;
    uint32_t chunks, count;
    uint32_t *slots;      /* by record */
    struct head *heads;
    uint32_t *first_head; /* by chunk; one more has their count */
    uint32_t *next;     /* by record the next one of its thread, or NONE */
    uint32_t *mutex_of; /* by record, or NONE */
    struct thread *threads;
    struct mutex *mutexes;
    struct name *names;
    struct module *modules;
    uint32_t thread_count, mutex_count, name_count, module_count;
    bool has_waits;         /* for what isn't a mutex */
    bool has_failed;        /* it has a DESTROY_FAILED */
    uint64_t left_out;      /* records that it has, and that come after a lost one */
    struct table failed;    /* the slots of the DESTROYs that failed */
    struct table by_number; /* the threads */
    struct table parents;   /* by process the one that forked it */
    uint64_t ended;         /* the latest time of a record */
};

/* Reads the bytes of a log. Refuses what is none, or is damaged. `joined` is NULL unless it is made
 * of several. */
void log_read(struct log *log, const char *path, const char *bytes, size_t length,
              const struct joined *joined);

/* Finds the slots of the records in the order of their numbers, from 1 on, and nothing else.
 * Returns one more than how many count. Refuses what log_read does. */
uint64_t log_index(struct log *log, const char *path, const char *bytes, size_t length);

/* Returns how many records the log lacks for which there was no room, with those after them. */
uint64_t log_missing(const struct log *log);

/* Returns of which of several logs a process is. */
static inline uint32_t part_of(const struct log *log, uint32_t process) {
    return log->joined && process != NONE ? log->joined->part_of[process] : 0;
}

static inline const char *slot_at(const struct log *log, uint32_t slot) {
    return log->bytes + log->header.header_bytes + sizeof(struct record) * slot;
}

static inline const struct record *record_at(const struct log *log, uint32_t record) {
    return (const struct record *)slot_at(log, log->slots[record]);
}

/* The records of a thread are near each other, and those of several in turn aren't: they are
 * fetched before they are looked at. */
enum { AHEAD = 24 };

static inline void log_fetch(const struct log *log, uint32_t record) {
    __builtin_prefetch(slot_at(log, log->slots[record]));
}

static inline uint32_t next_record(const struct log *log, uint32_t record) {
    if (record + AHEAD < log->count) log_fetch(log, record + AHEAD);
    return record + 1;
}

/* Returns the head of the records of a slot. */
static inline uint32_t head_of(const struct log *log, uint32_t slot) {
    const uint32_t *first = &log->first_head[slot / CHUNK_RECORDS];
    uint32_t head = first[0];
    while (head + 1 < first[1] && log->heads[head + 1].slot < slot) head++;
    return head;
}

static inline uint32_t thread_at(const struct log *log, uint32_t record) {
    return log->heads[head_of(log, log->slots[record])].thread;
}

static inline const struct chunk_head *chunk_at(const struct log *log, uint32_t record) {
    uint32_t head = head_of(log, log->slots[record]);
    return (const struct chunk_head *)slot_at(log, log->heads[head].slot);
}

/* Returns the address that a record is of, without its place. */
static inline uint64_t address_of(const struct log *log, const struct record *record) {
    bool has_place = log->header.version > 1 && record->event >= EVENT_REQUEST;
    return has_place ? record->object & ((UINT64_C(1) << PLACE_SHIFT) - 1) : record->object;
}

/* Returns the number of a record's place, from 1 on, or 0. */
static inline uint32_t place_of(const struct log *log, const struct record *record) {
    bool has_place = log->header.version > 1 && record->event >= EVENT_REQUEST;
    uint32_t place = has_place ? (uint32_t)(record->object >> PLACE_SHIFT) : 0;
    return place <= log->place_count && place && log->places[place - 1] ? place : 0;
}

/* Returns the detail of a record's mutex, or 0 where it isn't known. */
static inline uint16_t detail_of(const struct record *record) {
    switch (record->event) {
    case EVENT_INIT:
    case EVENT_CEILING:
    case EVENT_REQUEST:
    case EVENT_GRANTED:
    case EVENT_RELEASE: return record->detail & DETAIL_KNOWN ? record->detail : 0;
    default: return 0;
    }
}

static inline bool is_protect(const struct mutex *mutex) {
    return (mutex->detail & (DETAIL_INHERIT | DETAIL_PROTECT)) == DETAIL_PROTECT;
}

static inline bool is_recursive(const struct mutex *mutex) {
    return (mutex->detail & 3) == 1;
}

/* Returns the level that a priority's detail gives to a thread that had this level. */
uint8_t level_of(uint16_t detail, uint8_t before);

#endif
