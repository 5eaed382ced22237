/* A log that is being written: the program's memory, and the file that the chunks go to. */
#ifndef STORE_H
#define STORE_H

#include "../library/shared.h"
#include "extract.h"

#include <limits.h>

/* A chunk that is to be written. */
struct found {
    uint64_t place, slot;
    bool is_done;
};

/* How much of a program's records is kept. */
struct room {
    uint64_t bytes;   /* of the log's file; with --last, of the chunks in memory */
    bool is_last;     /* --last: the latest are kept, and written at the end */
    uint64_t trigger; /* nanoseconds, or UINT64_MAX */
    bool is_contended; /* --contended: only what is waited for is recorded */
    bool has_stacks;   /* --stacks: with the stacks of requests */
};

/* Why records are lost. */
enum loss {
    NO_LOSS,
    LOSS_SIZE,   /* the log is as long as it may be */
    LOSS_DISK,   /* its file takes no more */
    LOSS_MEMORY, /* too many wait to be written */
};

struct store {
    struct store *next;
    int file, memory;          /* descriptors; the memory's is -1 before it is made */
    const struct shared *view; /* of the memory, for reading */
    uint64_t bytes;            /* that the chunks in the file may take, with the header */
    uint64_t chunks, slots;    /* for how many the file and the memory have room */
    uint64_t length;           /* of the file, with the chunks that were taken */
    uint64_t records;          /* in the file */
    uint64_t next_number;      /* above those of the records */
    uint64_t saved;            /* bytes of the chunks that are done, and that weren't written */
    uint64_t locked;           /* how many slots are locked in memory */
    uint16_t *written;         /* of each slot: how many records are in the file, with the head */
    struct found *found;       /* room for one of each slot */
    uint64_t lost, first_lost; /* records that the file couldn't take; their lowest number, or 0 */
    struct ring *ring;         /* with --last, else NULL */
    bool sees_threads;         /* the program's numbers of threads are the collector's, too */
    struct begun *begun;       /* copies of the chunks that were begun, for a snapshot */
    size_t begun_count;
    uint64_t end;              /* of a snapshot: it has the records with lower numbers */
    uint64_t ended;            /* when that was, or when no process had the memory any more */
    unsigned char header[HEADER_BYTES]; /* as the file has it */
    char path[PATH_MAX];
};

/* Makes the file NAME of a recording's first program, where `process` is 0. A later one has
 * NAME.PID, and NAME.PID.2 and so on where a process becomes another program. Returns NULL, or
 * why it can't. */
const char *store_make_file(struct store *made, const char *name, uint32_t process,
                            const struct room *room);

/* Makes the memory. Returns false with errno set. */
bool store_make_memory(struct store *made);

/* Writes the chunks that are done, and gives their slots back; and, if it is wanted, the
 * records of those that aren't done. Returns whether it wrote a chunk. */
bool store_collect(struct store *of, bool is_with_begun);

/* With --last, copies what a snapshot of now needs and the memory may not have later. Returns
 * false with errno set where it can't. */
bool store_prepare_snapshot(struct store *of);

/* Writes a prepared snapshot to a file NAME.snapshot.NUMBER, in a forked process. */
bool store_write_snapshot(const struct store *of, unsigned number);

void store_leave_snapshot(struct store *of);

/* Returns why records are lost by now. */
enum loss store_loss(const struct store *of);

/* Returns how many are. */
uint64_t store_lost(const struct store *of);

/* Returns whether no process has the memory any more. */
bool store_is_over(const struct store *of);

/* Writes what is left. The file is removed if the program says that it is unused. */
void store_end(struct store *ended);

/* Closes all. */
void store_leave(struct store *of);

/* Closes all, and removes the file. */
void store_remove(struct store *removed);

#endif
