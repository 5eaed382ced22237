/* The file of a recording of the kernel's events: lines of text. ../FORMAT.md specifies it. */
#ifndef TEXT_H
#define TEXT_H

#include <stdbool.h>
#include <stdint.h>
#include <stdio.h>
#include <sys/types.h>

#include "events.h"

struct task {
    char name[NAME_BYTES];
    bool is_waiting;  /* whether the call is a wait */
    uint32_t calling; /* the text's `losses` + 1 at its call that hasn't returned, or 0 */
};

struct text {
    FILE *file;
    struct task *tasks; /* by the kernel's number */
    uint64_t began;
    uint64_t events, lost;       /* how many */
    uint32_t losses;             /* stretches in which events were lost */
    uint64_t lost_from, lost_to; /* the first and the last time of those */
    int error; /* the errno of the first write that failed, or 0; nothing is put after it */
};

/* Makes the file. Returns false with errno set; a file that is there stays as it is. */
bool open_text(struct text *text, const char *path);

void put_head(struct text *text, pid_t process, int cpus);
void put_event(struct text *text, const struct event *event);
void put_end(struct text *text, uint64_t time);

/* Writes what was put to the file. */
void flush_text(struct text *text);

/* Closes the file. Returns false with errno set if a part couldn't be written. */
bool close_text(struct text *text);

#endif
