/* Runs a program as a child that is recorded: pim-record waits for it, passes signals on, stops
 * and goes on with it, and ends as it ends. */
#ifndef PARENT_H
#define PARENT_H

#include "../collector/collector.h"
#include "scripts.h"

struct wanted {
    const char *log;       /* the log's file, or NULL where no log is made */
    struct amount amount;  /* of the log */
    const char *kernel;    /* the file of the kernel's events, or NULL where none are recorded */
    const char *kilobytes; /* for events of each CPU */
    const char *reader;    /* the path of pim-log, which names places, or NULL */
    const char *program;   /* the path of its binary */
    struct showing showing;
};

/* Forks. Returns in the child, in which the program is to be executed, with the name of the
 * socket where programs get their logs, or NULL without a log. The parent never returns. Where
 * it can't be recorded, ends the process with a line that says so. */
const char *run_recorded(const struct wanted *wanted);

/* Says, in the child, that it couldn't execute the program: what was made is removed. */
void withdraw_recording(void);

#endif
