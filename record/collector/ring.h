/* The latest chunks of a log, which --last keeps in memory. Each thread has a ring of its own, so
 * that a busy one takes no chunk of a quiet one: where there is no room, the thread with the most
 * chunks loses its oldest. Threads that have ended count as one thread. */
#ifndef RING_H
#define RING_H

#include "../library/log.h"

enum { NAME_ROOM = 16, THREAD_BUCKETS = 1024, NO_CHUNK = -1 };

/* Which list a thread is in: of those that may go on, of those that have ended and have chunks,
 * or of those of which only mutexes are kept. */
enum lists { LIVE, ENDED, GONE, LISTS };

/* A dropped record that said something of a thread. */
struct said {
    uint64_t number, time;
    struct ring_thread *by; /* another thread, or NULL */
};

struct ring_thread {
    struct ring_thread *same_bucket, *before, *after;
    enum lists list;
    uint32_t number, process, task; /* as in the heads of its chunks */
    uint64_t self;                  /* its pthread_t */
    bool is_cut;                    /* its first records were dropped */
    bool has_exit;
    uint32_t next_index;            /* chunks with a lower index were dropped */
    int32_t first, last;            /* its chunks, the oldest first */
    uint32_t count, remarks;        /* of its chunks, and of what is kept of its dropped records */
    uint16_t priority;              /* behind the dropped records: the detail of a PRIORITY */
    char name[NAME_ROOM];
    struct said priority_said, name_said;
    struct module *module;          /* the dropped MODULE that its next TEXT belongs to */
    uint32_t named;                 /* the number of the thread of such a NAME, or 0 */
    uint16_t priority_now;          /* behind the records that were looked at */
    uint64_t asked;                 /* when it asked for a mutex that it hasn't got, or 0 */
};

/* A mutex whose INIT was dropped. */
struct mutex {
    uint32_t process; /* 0: there is none here */
    uint16_t detail;
    bool is_destroyed;
    uint64_t address, number, time, place;
    struct ring_thread *by;
};

/* A loaded file whose MODULE was dropped. */
struct module {
    struct module *next;
    uint32_t process;
    uint64_t address, number, time;
    uint16_t detail; /* with `how`: the pages that it takes */
    uint8_t how;
    size_t length, room;
    char path[];
};

/* A wait of a thread of a real-time priority. */
struct long_wait {
    uint64_t nanoseconds; /* 0: there was none */
    uint32_t task;
    uint16_t priority;
};

struct ring {
    struct record (*chunks)[CHUNK_RECORDS];
    int32_t *next;          /* of each chunk: the next one of its thread, or of the free ones */
    uint16_t *used;         /* records of each chunk, with the head */
    uint32_t room, taken;   /* of chunks: taken were in use at least once */
    int32_t free;           /* the first free one below those, or NO_CHUNK */
    uint32_t ended_chunks;  /* of threads that have ended */
    struct ring_thread *buckets[THREAD_BUCKETS];
    struct ring_thread *first[LISTS], *last[LISTS];
    struct mutex *mutexes;  /* a table with open addresses */
    uint32_t mutex_count, destroyed_count; /* of all in the table, and of those that are gone */
    struct module *modules, *last_module;
    uint64_t dropped, dropped_calls; /* records, and those that answer a call */
    uint64_t dropped_until;          /* the time of the last of those */
    uint64_t limit;                  /* --trigger, in nanoseconds, or UINT64_MAX */
    uint32_t process;                /* that the log begins with: the log ends as it does */
    struct long_wait wait;           /* the last one that was longer */
};

/* Makes a ring with room for so many chunks. Returns NULL with errno set where it can't. */
struct ring *ring_make(uint32_t chunks, uint64_t limit);

void ring_free(struct ring *freed);

/* Learns what the records of a chunk from one on say of the present. */
void ring_look(struct ring *of, const struct record *chunk, unsigned from, unsigned to);

/* Looks for a thread that still waits for longer than the limit. */
void ring_look_at_time(struct ring *of, uint64_t now);

/* Adds a chunk that is done. It was looked at before. */
void ring_add(struct ring *of, const struct record *chunk, unsigned used, bool is_closed);

/* Returns the thread of a chunk's head, which is made if it isn't there, or NULL without memory. */
struct ring_thread *ring_thread_of(struct ring *of, const struct record *chunk);

/* Returns the thread with this number, or NULL. */
struct ring_thread *ring_find(struct ring *of, uint32_t number);

/* Returns the thread that a NAME or a PRIORITY of a thread is about, or NULL. */
struct ring_thread *ring_target(struct ring *of, struct ring_thread *by,
                                const struct record *record);

/* Forgets a thread of which nothing is kept. */
void ring_forget_empty(struct ring *of, struct ring_thread *thread);

#endif
