/* The text that is written. */
#ifndef PIM_FACTS_TEXT_H
#define PIM_FACTS_TEXT_H

#include "log_file.h"

enum { LINE_BYTES = 2048 }; /* above the longest line's */

struct text {
    int file;
    const char *path; /* NULL: standard output */
    size_t used;
    char bytes[1 << 16];
};

/* Writes what hasn't been written yet. Refuses where that fails. */
void text_flush(struct text *text);

/* Each begins a line or goes on with one. The words have a space before them. */
void text_begin(struct text *text);
void text_word(struct text *text, const char *word);
void text_number(struct text *text, uint64_t number);
void text_name(struct text *text, const struct name *name);
void text_end(struct text *text);

/* Begins a line with a number. */
void text_time(struct text *text, uint64_t time);

#endif
