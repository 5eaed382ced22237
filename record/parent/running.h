/* Records the kernel's events of a program that runs already, and leaves it as it is. */
#ifndef RUNNING_H
#define RUNNING_H

#include "scripts.h"

#include <stdbool.h>
#include <stdint.h>
#include <sys/types.h>

struct running {
    pid_t process;
    bool is_limited;       /* to a time; otherwise it ends with the program */
    uint64_t nanoseconds;  /* how long, if it is */
    const char *kernel;    /* the file of the kernel's events */
    const char *kilobytes; /* for events of each CPU */
    struct showing showing;
};

/* Records until the time is over, the program ends, or SIGINT, SIGTERM or SIGHUP comes; and ends
 * the process, with a line if that can't be. */
_Noreturn void record_running(const struct running *wanted);

#endif
