/* pim_names.h - the names of answers and refusals, as a trace and its report spell them: for logs
 * and messages. It needs no C library. */
#ifndef PIM_NAMES_H
#define PIM_NAMES_H

#include "pim.h"

/* Returns the name of an answer's kind, "?" for one of a later version. */
static inline const char *pim_answer_name(unsigned kind) {
    switch (kind) {
    case PIM_NO_MANAGER: return "no-manager";
    case PIM_GRANTED: return "granted";
    case PIM_QUEUED: return "queued";
    case PIM_FREED: return "freed";
    case PIM_HANDED: return "handed";
    case PIM_RELEASED: return "released";
    case PIM_WITHDRAWN: return "withdrawn";
    case PIM_SET: return "set";
    case PIM_REFUSED: return "refused";
    case PIM_KEPT: return "kept";
    default: return "?";
    }
}

/* Returns the name of a refusal, "?" for one of a later version and for 0. */
static inline const char *pim_refusal_name(unsigned refusal) {
    switch (refusal) {
    case PIM_REFUSED_NO_TASK: return "no-task";
    case PIM_REFUSED_WAITING: return "waiting";
    case PIM_REFUSED_NO_MUTEX: return "no-mutex";
    case PIM_REFUSED_DEADLOCK: return "deadlock";
    case PIM_REFUSED_CEILING: return "ceiling";
    case PIM_REFUSED_BUSY: return "busy";
    case PIM_REFUSED_NOT_OWNER: return "not-owner";
    case PIM_REFUSED_NOT_WAITING: return "not-waiting";
    case PIM_REFUSED_PRIORITY: return "priority";
    case PIM_REFUSED_TICKETS: return "tickets";
    case PIM_REFUSED_NOT_PROTECT: return "not-protect";
    case PIM_REFUSED_AGAIN: return "again";
    case PIM_REFUSED_NO_PROTOCOL: return "no-protocol";
    case PIM_REFUSED_PROTECT: return "protect";
    default: return "?";
    }
}

#endif
