/* The log: chunks that are filled by thread, in memory that the collector of shared.h writes to
 * the file. FORMAT.md specifies the file.
 *
 * A record takes its number after its call has been granted a mutex, and before its call releases
 * one. So the numbers are a true order of the grants, and no mutex has two owners in the log. They
 * are times, so that threads share no counter; where the clock is too coarse, they are counted. */
#ifndef PIM_LOG_H
#define PIM_LOG_H

#include "clock.h"
#include "visibility.h"

#include <stdatomic.h>
#include <stdbool.h>
#include <stddef.h>
#include <stdint.h>
#include <time.h>

enum {
    LOG_VERSION = 4,
    LOG_BYTE_ORDER = 0x01020304,
    FIELDS_BYTES = 4096, /* of the header, without the table of places */
    PLACE_SLOTS = 8192,
    HEADER_BYTES = FIELDS_BYTES + PLACE_SLOTS * 8,
    CHUNK_BYTES = 16384,
    COMMAND_BYTES = 2048,
    CHUNK_RECORDS = 512,
    TEXT_BYTES = 22,
    LONGEST_TEXT = 4095,
    RECORDS_AHEAD = 4, /* of a lock and its unlock, at most */
    MODULE_PAGE = 4096, /* whatever the machine's page is */
};

enum event {
    EVENT_THREAD = 1,
    EVENT_NAME = 2,
    EVENT_CREATE = 3,
    EVENT_EXIT = 4,
    EVENT_PRIORITY = 5,
    EVENT_FORK = 6,
    EVENT_CHILD = 7,
    EVENT_EXEC = 8,
    EVENT_EXEC_FAILED = 9,
    EVENT_END = 10,
    EVENT_MODULE = 11,
    EVENT_PLACE = 12,
    EVENT_TEXT = 13,
    EVENT_INIT = 16,
    EVENT_DESTROY = 17,
    EVENT_DESTROY_FAILED = 18,
    EVENT_CEILING = 19,
    EVENT_REQUEST = 20,
    EVENT_GRANTED = 21,
    EVENT_FAILED = 22,
    EVENT_RELEASE = 23,
    EVENT_RELEASE_FAILED = 24,
    EVENT_CONDITION = 25,
    EVENT_WAIT = 26,
    EVENT_WAITED = 27,
    EVENT_GIVE = 28,
    EVENT_FRAME = 29,
};

/* The call of a REQUEST, GRANTED or RELEASE; OWNER_DIED is added to it. */
enum call {
    CALL_LOCK = 0,
    CALL_TRYLOCK = 1,
    CALL_TIMEDLOCK = 2,
    CALL_CLOCKLOCK = 3,
    CALL_CONDITION = 4,
    CALL_CEILING = 5, /* of a REQUEST alone */
    OWNER_DIED = 0x80,
};

/* What a WAIT, WAITED or GIVE is of. */
enum kind {
    KIND_SEMAPHORE = 1,
    KIND_READ = 2, /* a read-write lock; an unlock is of this kind, too */
    KIND_WRITE = 3,
    KIND_BARRIER = 4,
    KIND_THREAD = 5,
    KIND_CONDITION = 6,
};

enum { TO_ALL = 1 }; /* how a broadcast gives */

/* Of the header's `contents`: records of calls have places; numbers are times. */
enum { HAS_PLACES = 1, HAS_TIMES = 2 };

enum { POLICY_KEPT = 15 }; /* the policy is as it was before, or as that of the creator */

struct record {
    _Atomic uint64_t number; /* 0: the record isn't there; written last */
    uint64_t time;
    uint64_t object;
    uint32_t value;
    uint16_t detail;
    uint8_t event;
    uint8_t how;
};

/* A part of a text, which stands in the records behind the one that it belongs to. */
struct text_record {
    _Atomic uint64_t number;
    char text[TEXT_BYTES];
    uint8_t event;
    uint8_t length;
};

/* In place of a record it is the head of another thread, whose records follow: the one before has
 * ended. */
struct chunk_head {
    _Atomic uint64_t mark; /* CHUNK_MARK; written last */
    uint32_t process;
    uint32_t task;   /* the kernel's number of the thread */
    uint32_t thread; /* the log's own number of the thread, which no other has */
    uint32_t index;  /* of this chunk among the thread's, from 0 */
    _Atomic uint64_t place; /* of a first head in memory: the place in the file, from 1 on; else 0 */
};

/* Added to the place once the thread puts no more records there: it has no other chunk, or it
 * has. */
#define CHUNK_IS_CLOSED (UINT64_C(1) << 63)
#define CHUNK_HAS_NEXT (UINT64_C(1) << 62)
#define CHUNK_PLACE (CHUNK_HAS_NEXT - 1)

#define CHUNK_MARK UINT64_C(0x6b6e7568436d6970) /* "pimChunk" in a log of this byte order */

struct header {
    char magic[8];
    uint32_t version;
    uint32_t byte_order;
    uint32_t header_bytes;
    uint32_t record_bytes;
    uint32_t chunk_records;
    uint32_t known; /* what of the C library's inner fields is known: inner.h */
    _Atomic uint64_t chunks; /* for how many there is room; in memory 0 if the file takes no more */
    uint32_t process;
    uint32_t parent;
    uint64_t began_monotonic;
    uint64_t began_realtime;
    uint32_t command_bytes;
    uint32_t contents;
    uint64_t ended; /* in the file: when the collector saw that no process has the memory, or 0 */
    uint64_t records; /* in the file: how many there are */
    _Alignas(64) _Atomic uint64_t next_number; /* in memory no more than 1, if numbers are times */
    _Alignas(64) _Atomic uint64_t next_chunk;
    _Atomic uint64_t next_thread;
    _Atomic uint64_t lost;       /* records for which there was no room */
    _Atomic uint64_t first_lost; /* the lowest number of those, or 0 */
    _Atomic uint64_t left_out;   /* calls of which something couldn't be known */
    uint64_t dropped;            /* records that were dropped for later ones */
    uint64_t dropped_until;      /* the latest time of those */
    _Atomic uint64_t unplaced;   /* records for whose place there was no room */
    _Alignas(256) char command[COMMAND_BYTES]; /* the arguments, each with a zero byte behind it */
    _Alignas(FIELDS_BYTES) _Atomic uint64_t places[PLACE_SLOTS]; /* places.h */
};

_Static_assert(sizeof(struct record) == 32, "FORMAT.md: a record has 32 bytes");
_Static_assert(sizeof(struct text_record) == 32, "FORMAT.md: a part of a text has 32 bytes");
_Static_assert(CHUNK_RECORDS * sizeof(struct record) == CHUNK_BYTES, "FORMAT.md: a chunk");
_Static_assert(sizeof(struct chunk_head) == 32, "FORMAT.md: the head of a chunk has 32 bytes");
_Static_assert(offsetof(struct header, chunks) == 32, "FORMAT.md: the header");
_Static_assert(offsetof(struct header, records) == 80, "FORMAT.md: the header");
_Static_assert(offsetof(struct header, next_number) == 128, "FORMAT.md: the header");
_Static_assert(offsetof(struct header, next_chunk) == 192, "FORMAT.md: the header");
_Static_assert(offsetof(struct header, dropped) == 232, "FORMAT.md: the header");
_Static_assert(offsetof(struct header, unplaced) == 248, "FORMAT.md: the header");
_Static_assert(offsetof(struct header, command) == 256, "FORMAT.md: the header");
_Static_assert(offsetof(struct header, places) == FIELDS_BYTES, "FORMAT.md: the places");
_Static_assert(sizeof(struct header) == HEADER_BYTES, "FORMAT.md: the header");

/* What a thread keeps between its calls. */
struct cursor {
    struct record *next;
    struct record *end;
    uint32_t task;       /* the kernel's number of the thread */
    uint32_t thread;     /* the log's number of it, or 0 before its first chunk */
    uint32_t chunks;
    uint32_t exits;      /* how often the destructor of its key has run */
    uint32_t depth;      /* above 0: the calls are the recorder's own */
    uint32_t held;       /* grants that aren't put: held.h */
    uint32_t uncounted;  /* calls that aren't put, and that the header doesn't count yet */
    uint32_t lost;       /* records for which there was no room, and that it doesn't count yet */
    uint64_t number;     /* of the last record, if numbers are times */
    uint64_t slot;       /* of the chunk */
    uint16_t priority;  /* as the detail of a PRIORITY, by its own calls and looks */
    bool is_real_time;
    bool has_ceiling;   /* it was granted a PROTECT mutex: its priority may be a ceiling */
    bool is_introduced; /* its THREAD record is written, or is being written */
    bool is_behind;      /* there are such grants or such calls */
    volatile bool is_writing;
};

/* A page of its own, which the kernel clears in a forked process: one that doesn't run in_child of
 * processes.c, or hasn't yet, would put its records over those of its parent. */
union own_page {
    struct header *header; /* NULL: nothing is recorded */
    char bytes[65536];     /* the largest page of ARM64 */
};
extern HIDDEN union own_page log_own;
#define log_header log_own.header

extern HIDDEN __thread struct cursor log_cursor;
extern HIDDEN uint64_t log_step; /* from one number to the next, or 0 if numbers are times */
extern HIDDEN _Atomic bool log_is_quiet; /* the recorder makes no system call any more */

/* Gets the log's memory from the collector that the environment names. If it can't be reached, or
 * refuses, the program runs unrecorded. */
void log_make(void);

/* Remembers which number comes next once all is told of how the program began. */
void log_has_begun(void);

/* Has the log of a later program removed if it says no more than how the program began. Returns
 * whether it is. */
bool log_remove_unused(void);

/* Says that a thread has a real-time priority, or that the calling one has or hasn't. From then on
 * some slots are such threads' alone, so that they find one that is touched. */
void log_has_real_time(void);
void log_is_real_time(bool is_real_time);

/* Touches the slots of many chunks, before the threads of a program with threads or of a real-time
 * priority come to use them. */
void log_prepare(void);

/* Says that the process is a forked one of this number, which has touched nothing yet. */
void log_is_forked(uint32_t process);

/* Says that the process may get a seccomp filter, which ends it at a call that the program itself
 * doesn't make. What takes such a call is done now, and the recorder makes none from here on. */
void log_be_quiet(void);

/* Gives the thread its next chunk. Returns false where there is no room. */
bool log_open_chunk(void);

/* Goes on in another chunk, where the thread's one has room for few records. */
void log_renew_chunk(void);

/* Gives the thread's chunk to the collector. A further record begins another chunk. */
void log_close_chunk(void);

/* Leaves what is free of an ending thread's chunk to another thread, or gives it to the
 * collector. */
void log_leave_chunk(void);

/* Counts a record of a time, or 0, for which there is no room. */
void log_lose(uint64_t time);

/* Puts the grants that aren't put, and counts the calls. */
void log_catch_up(void);

/* Counts the calls that aren't put. */
void log_count_left_out(void);

/* Puts a record of now with a text behind it, of which at most `most` bytes are taken. */
void log_put_text(struct record first, const char *text, size_t most);

static inline uint32_t log_saturated(uint64_t nanoseconds) {
    return nanoseconds > UINT32_MAX ? UINT32_MAX : (uint32_t)nanoseconds;
}

static inline void log_leave_out(void) {
    atomic_fetch_add_explicit(&log_header->left_out, 1, memory_order_relaxed);
}

/* Begins what no signal's handler may see half done: until log_end, one that interrupts it changes
 * nothing of the cursor, or of the grants that aren't put. Returns false in such a handler. What
 * the thread keeps is read and changed in between alone: before, a handler may still put the
 * grants. */
static inline bool log_enter(void) {
    if (__builtin_expect(log_cursor.is_writing, 0)) return false;
    log_cursor.is_writing = true;
    atomic_signal_fence(memory_order_seq_cst);
    return true;
}

static inline void log_end(void) {
    atomic_signal_fence(memory_order_seq_cst);
    log_cursor.is_writing = false;
}

/* Begins the writing of one or more records that belong together. A signal's handler that
 * interrupts it isn't recorded, but counted: then this returns false. */
static inline bool log_begin(void) {
    if (!log_enter()) {
        log_leave_out();
        return false;
    }
    if (__builtin_expect(log_cursor.is_behind, 0)) log_catch_up();
    return true;
}

/* Has the records of a lock and its unlock in one chunk, as the lock begins: a thread that takes
 * another one while it owns a mutex holds up who waits for that. */
static inline void log_look_ahead(void) {
    if (__builtin_expect(log_cursor.end - log_cursor.next < RECORDS_AHEAD, 0)) log_renew_chunk();
}

/* Returns the place of the thread's next record, of a time or 0, or NULL where there is no room. */
static inline struct record *log_room(uint64_t time) {
    if (__builtin_expect(log_cursor.next == log_cursor.end, 0) && !log_open_chunk()) {
        log_lose(time);
        return NULL;
    }
    return log_cursor.next++;
}

/* Returns the number of the thread's next record, of a time or 0. */
static inline uint64_t log_next_number(uint64_t time) {
    if (__builtin_expect(log_step != 0, 0))
        return atomic_fetch_add_explicit(&log_header->next_number, log_step, memory_order_relaxed);
    uint64_t least = log_cursor.number + 1;
    return log_cursor.number = time > least ? time : least;
}

/* Gives a record, which is filled by then, its number. */
static inline uint64_t log_number(struct record *record, uint64_t time) {
    uint64_t number = log_next_number(time);
    atomic_store_explicit(&record->number, number, memory_order_release);
    return number;
}

/* Fills a record but for its number. Returns NULL where there is no room. */
static inline struct record *log_fill(struct record filled) {
    struct record *record = log_room(filled.time);
    if (!record) return NULL;
    record->time = filled.time;
    record->object = filled.object;
    record->value = filled.value;
    record->detail = filled.detail;
    record->event = filled.event;
    record->how = filled.how;
    return record;
}

/* Writes a record between log_begin and log_end. Returns its number, or 0 where it is lost. */
static inline uint64_t log_write(struct record filled) {
    struct record *record = log_fill(filled);
    return record ? log_number(record, filled.time) : 0;
}

/* Puts a record of now. The time is read once no handler can come before the record, so that the
 * times of a thread don't descend. */
static inline void log_put(struct record filled) {
    if (!log_begin()) return;
    filled.time = clock_time();
    log_write(filled);
    log_end();
}

/* Puts two records of now, of which the second follows the first. */
static inline void log_put_both(struct record first, struct record second) {
    if (!log_begin()) return;
    first.time = second.time = clock_time();
    log_write(first);
    log_write(second);
    log_end();
}

#endif
