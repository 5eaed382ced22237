/* The logs of a program and of those that it started, as one log. */
#ifndef PIM_FACTS_JOIN_H
#define PIM_FACTS_JOIN_H

#include "log_file.h"

/* A log as it is in memory. */
struct part {
    const char *path, *bytes;
    size_t length;
};

/* Reads several logs of one version as one, the first of which is the program's own, and the others
 * of those that it started, by when they began. Refuses what is none, or is damaged. */
void log_join(struct log *log, const struct part *parts, uint32_t count);

#endif
