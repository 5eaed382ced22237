/* What a log says of before its first records, where these were dropped: the priority and the
 * name of each thread, the loaded files, and the mutexes. */
#ifndef KNOWN_H
#define KNOWN_H

#include "ring.h"

enum { MUTEX_PLACES = 131072, MOST_MUTEXES = MUTEX_PLACES / 2 };

/* Returns an empty table, or NULL with errno set. */
struct mutex *known_make_mutexes(void);

/* Keeps what is needed of a chunk that is dropped. */
void known_keep(struct ring *of, struct ring_thread *thread, const struct record *chunk,
                unsigned used);

/* Returns a priority, as the detail of a PRIORITY, after another one was set. */
uint16_t known_priority(uint16_t before, uint16_t set);

/* Forgets who said something of a thread that is forgotten. */
void known_forget_thread(struct ring *of, struct ring_thread *thread);

#endif
