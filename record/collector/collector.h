/* The collector: a process of a recording that gives programs the memory for their logs, and
 * writes what they put there to the files. It goes on until no process writes to a log any
 * more, whatever becomes of pim-record, and at no real-time priority. */
#ifndef COLLECTOR_H
#define COLLECTOR_H

#include <stdbool.h>
#include <stdint.h>
#include <sys/types.h>

#include "sockets.h"
#include "store.h"

struct collector {
    pid_t process;
    int channel;
    struct sockets sockets;
    char name[SOCKET_NAME_BYTES]; /* by which programs reach it */
};

/* What is to be kept of each log, and how many snapshots waits may cause. */
struct amount {
    struct room room;
    uint32_t snapshots;
};

/* What the collector reports once the recorded program has ended. */
struct report {
    uint32_t logs;    /* that were begun */
    uint32_t others;  /* programs of other users, which weren't recorded */
    uint32_t failed;  /* programs for which there was no log */
    uint32_t goes_on; /* 1: processes go on writing to logs */
    char why[96];     /* there was none for the last of those */
    uint32_t snapshots, unwritten; /* that were taken, and of those that couldn't be written */
    char wait[96];    /* the first one that caused a snapshot, or nothing */
    uint64_t lost;    /* records, of all logs */
    enum loss loss;   /* of the first of them */
};

/* Makes the file of the first log, and starts the collector. Returns NULL, or why it can't. */
const char *start_collector(struct collector *started, const char *log,
                            const struct amount *amount);

/* With --last, has the collector write a snapshot, and doesn't wait for it. */
void ask_for_snapshot(const struct collector *of);

/* Returns why records are lost, or NO_LOSS if the collector hasn't said so since it was asked last.
 * It sends SIGURG as it says it, once in a recording. */
enum loss hear_loss(const struct collector *from);

/* Has all written that is there, and waits for it. Returns false where the collector is gone. */
bool end_collector(const struct collector *ended, struct report *report);

#endif
