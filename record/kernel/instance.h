/* An instance of tracefs: a buffer of the kernel's events, and settings, that are one recording's
 * own. Its name has the process that made it, and when that process was started. */
#ifndef INSTANCE_H
#define INSTANCE_H

#include <stdbool.h>
#include <stddef.h>

/* The kernel's PID_MAX_LIMIT, above every task's number. */
enum { TASKS = 4 << 20 };

struct instance {
    int tracefs, instances, folder; /* descriptors */
    char name[64];
};

/* Makes an instance, and removes those whose processes are gone. Returns false with errno set. */
bool make_instance(struct instance *made);

/* Removes the instance. Returns true where it is gone; a file of it that is open keeps it. */
bool remove_instance(const struct instance *made);

/* Writes a text into a file of the instance. Returns false with errno set. */
bool put_setting(const struct instance *of, const char *file, const char *text);

/* Reads a file of the instance, up to `room` with a zero byte at the end. Returns false with errno
 * set. */
bool read_setting(const struct instance *of, const char *file, char *text, size_t room);

#endif
