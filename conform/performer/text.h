/* The text of a trace (docs/TEXT.md), as far as it can be performed. */
#ifndef TEXT_H
#define TEXT_H

#include <stdbool.h>
#include <stdio.h>

/* The controller runs at 99, so no task does. */
enum { MAX_TASKS = 256, MAX_MUTEXES = 256, MAX_STEPS = 65536, TOP_PRIORITY = 98 };
enum { STEP_BYTES = 64 };

enum protocol { NONE, INHERIT, PROTECT };
enum request { LOCK, TRY, UNLOCK, CANCEL, RELEASE, BASE, CEIL };

struct step {
    enum request request;
    int actor, first, second; /* first: the mutex or the task; second: the priority */
    char words[STEP_BYTES];   /* the line without its recorded reply */
};

struct declared {
    enum protocol protocol;
    bool is_recursive;
    bool has_ceil; /* some step sets its ceiling */
    int ceiling;
};

struct text {
    int version, tasks, mutexes, steps;
    int base[MAX_TASKS + 1];
    struct declared mutex[MAX_MUTEXES + 1];
    int last_cancel[MAX_TASKS + 1]; /* the last step that cancels this task, or -1 */
    struct step *step;
};

/* Reads a text. Returns NULL, or what is wrong, which stays valid. */
const char *text_read(struct text *text, FILE *input);

#endif
