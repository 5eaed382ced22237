/* The lines of LOG.kernel. */
#ifndef PIM_FACTS_EVENTS_H
#define PIM_FACTS_EVENTS_H

#include "common.h"

enum event_what { SWITCH, SETPRIO, CALL, LOCK_CALL, WAIT_CALL, RETURN, WOKEN, NAMED, LOSS };

struct kernel_event {
    uint64_t time;
    uint64_t value; /* of a call: the address; LOSS: how many; NAMED: the offset of the name */
    uint64_t since; /* LOSS: the time of the first */
    int64_t result; /* RETURN */
    uint32_t cpu, task, other;  /* SWITCH, SETPRIO, WOKEN, NAMED: the other task */
    uint8_t level, other_level; /* SWITCH: of both */
    char state[2];              /* SWITCH: a letter, and + or 0 */
    uint8_t what;
};

struct events {
    const char *path, *bytes;
    struct kernel_event *list;
    uint32_t count;
    uint64_t began, ended;
    bool is_whole; /* the last line says that they end */
};

void events_read(struct events *events, const char *path, const char *bytes, size_t length);

#endif
