/* Writes the log of a ring: its records in the order of their numbers, with new numbers, and in
 * front of each thread whose first records were dropped what is known of it. */
#ifndef EXTRACT_H
#define EXTRACT_H

#include "ring.h"

/* A chunk that is still being filled: a copy, with how many records it has, the head included. */
struct begun {
    struct record records[CHUNK_RECORDS];
    unsigned used;
};

/* Writes a log to a file: of the ring, and of the chunks that were begun, in the order of their
 * places, what has a number below `end`. Returns false with errno set where not all is written.
 * The log then ends before that. */
bool extract(const struct ring *of, const struct begun *begun, size_t count, uint64_t end,
             const struct header *header, int file);

#endif
