/* Traces (docs/TEXT.md) in memory. They are valid: pim has judged them. */
#ifndef TEXT_H
#define TEXT_H

#include "mutexes.h"

enum { MAX_STEPS = 4096 };

enum request { LOCK, TRY, UNLOCK, RELEASE, CANCEL, BASE, CEIL };

struct step {
    enum request request;
    uint16_t actor;
    uint16_t first;  /* the mutex or the task, 0 if the request has none */
    uint16_t second; /* the priority, 0 if the request has none */
};

struct text {
    uint16_t tasks, mutexes;
    uint32_t steps;
    uint16_t bases[MAX_THREADS];
    struct pim_protocol protocols[MAX_MUTEXES];
    struct step step[MAX_STEPS];
};

/* Reads a text. It ends where the memory does, or at the first line of the next text, to which
 * `at` is then moved. Returns NULL, or why the text can't be performed. */
const char *text_read(struct text *text, const char **at, const char *end);

#endif
