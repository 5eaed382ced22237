/* The kernel's events: how this kernel lays them out, and how they are read from the pages of its
 * buffers. */
#ifndef EVENTS_H
#define EVENTS_H

#include <stdbool.h>
#include <stddef.h>
#include <stdint.h>

#include "instance.h"

/* The comment at each kind says what the values of its events are. */
enum kind {
    SET_PRIORITY, /* task, its priority before, and from now on */
    SWITCH,       /* priority and state of the task that stops; the next task, its priority */
    CALL,         /* operation of futex, address */
    RETURN,       /* result of futex */
    WAKING,       /* task that is made ready */
    KINDS,
    LOST = KINDS, /* how many; from when on */
};

enum { MOST_FIELDS = 6, NAME_BYTES = 16 };

struct event {
    uint64_t time;
    int cpu, task;
    enum kind kind;
    int64_t values[4];
    char names[2][NAME_BYTES]; /* of a SWITCH: the two tasks' */
};

struct field {
    unsigned at, bytes;
};

struct layout {
    unsigned number, least_bytes;
    struct field fields[MOST_FIELDS];
};

struct layouts {
    unsigned page_bytes, data_at;
    struct field number, task; /* of each event */
    struct layout of[KINDS];
};

/* The events of one CPU that were read, and aren't written yet. */
struct queue {
    int cpu;
    struct event *events;
    size_t next, count, room;
    uint64_t last_time; /* of an event that was read */
    uint64_t lost;      /* how many events of this CPU are known to be lost */
    uint64_t unheld;    /* for which there was no memory */
};

/* Learns how the kernel lays out what is recorded, and turns it on. Returns the name of what is
 * missing, or NULL. */
const char *turn_on_events(const struct instance *of, struct layouts *layouts);

enum { MISSED_UNKNOWN = -1 };

/* Returns how many events the kernel overwrote before those of a page, or MISSED_UNKNOWN. */
int64_t missed_before(const struct layouts *layouts, const unsigned char *page);

/* Returns how many events of a CPU were overwritten or dropped, by its file `stats`. */
uint64_t lost_by_stats(const char *stats);

uint64_t time_of_page(const unsigned char *page);

/* Puts a LOST. */
void queue_lost(struct queue *queue, uint64_t count, uint64_t from, uint64_t to);

/* Puts the events of a page. */
void queue_page(const struct layouts *layouts, const unsigned char *page, struct queue *queue);

#endif
