/* Scripts of the recorder that run at the end of a recording. */
#ifndef SCRIPTS_H
#define SCRIPTS_H

#include <stdbool.h>

/* What says at the end who was held up. `path` is NULL where nothing does. */
struct showing {
    const char *path; /* of record/show */
    const char *how;  /* its first argument */
    const char *name; /* of the log, as the user named it */
};

/* Runs a script with two arguments, and waits for its end. What it prints goes to standard error,
 * or nowhere. A key of the terminal ends it, and doesn't stop it. */
void run_script(const char *path, const char *first, const char *second, bool is_quiet);

void show_recording(const struct showing *showing);

#endif
