/* How places in the code, mutexes and objects are named: by LOG.places, or the files that are
 * loaded. */
#ifndef PIM_FACTS_NAMES_H
#define PIM_FACTS_NAMES_H

#include "log_file.h"

/* 1 + the number of the word of a place in a process, or 0. */
struct word {
    uint32_t number, process;
};

struct names {
    struct log *log;
    struct module *modules; /* of the log, by process and begin, the first of equal ones last */
    struct module *shared;  /* the same, as if all were of one process */
    struct name numbered[UINT16_MAX + 1]; /* by place its text; empty where there is none */
    struct name *texts;     /* of addresses in a log: */
    struct table by_address;
    struct name *words; /* of other places in a process: */
    struct table by_process;
    struct word last[UINT16_MAX + 1]; /* by place what was asked for last */
    uint32_t text_count, word_count;
    bool has_numbered;
};

/* Finds the files that are loaded. */
void names_begin(struct names *names, struct log *log);

/* Reads what LOG.places of one of several logs says, which may be empty. */
void names_read(struct names *names, uint32_t part, const char *places, size_t length);

/* Returns what a record's place is called, which is empty if it has none. The next call may move
 * it. */
const struct name *name_of_place(struct names *names, uint32_t record);

/* Returns what is at an address of a process: a variable, a file and an offset, or the address. */
struct name name_of_address(struct names *names, uint32_t process, uint64_t address);

/* Returns the name of a mutex: where it is, and behind @ where it was initialised, if that is
 * known. */
struct name name_of_mutex(struct names *names, const struct mutex *mutex);

/* Returns the name of a thread: what the log says, or `-`. */
struct name name_of_thread(const struct log *log, const struct thread *thread);

#endif
