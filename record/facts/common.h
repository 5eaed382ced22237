/* What the files of pim-facts share: memory, tables, and how it ends. */
#ifndef PIM_FACTS_COMMON_H
#define PIM_FACTS_COMMON_H

#include <stdbool.h>
#include <stddef.h>
#include <stdint.h>

#define NONE UINT32_MAX

/* Prints what is wrong with a file in one line, and ends the program with status 2. */
_Noreturn void refuse(const char *path, const char *format, ...)
    __attribute__((format(printf, 2, 3)));

/* Makes memory longer, or allocates it. Refuses where there is none. What is new isn't cleared. */
void *resized(void *memory, size_t bytes);

/* Allocates an array, each word of which is NONE. */
uint32_t *nones(size_t count);

/* Returns a list that has room for one more item than these. */
void *with_room(void *list, size_t count, size_t item_bytes);

/* Frees what is allocated. */
void free_all(void);

/* A table from two numbers to a third one. */
struct table {
    struct table_entry *entries;
    size_t room, count;
};

/* Returns where the number of a key is, which is NONE if the key is new. The next call may move
 * it. */
uint32_t *table_at(struct table *table, uint64_t first, uint64_t second);

/* Returns the number of a key, or NONE. */
uint32_t table_get(const struct table *table, uint64_t first, uint64_t second);

#endif
