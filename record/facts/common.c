#define _GNU_SOURCE
#include "common.h"

#include <setjmp.h>
#include <stdarg.h>
#include <stdio.h>
#include <stdlib.h>
#include <string.h>
#include <sys/random.h>

/* What is allocated is in a ring, so that a fuzzer can free it after each log. */
struct block {
    struct block *before, *after;
};

static struct block all = { &all, &all };

#ifdef FUZZED
extern jmp_buf refused;
#endif

_Noreturn void refuse(const char *path, const char *format, ...) {
#ifdef FUZZED
    (void)path, (void)format;
    longjmp(refused, 1);
#else
    va_list values;
    va_start(values, format);
    fprintf(stderr, "pim-facts: %s: ", path);
    vfprintf(stderr, format, values);
    fputc('\n', stderr);
    va_end(values);
    exit(2);
#endif
}

void *resized(void *memory, size_t bytes) {
    struct block *old = memory ? (struct block *)memory - 1 : NULL;
    if (old) {
        old->before->after = old->after;
        old->after->before = old->before;
    }
    struct block *block = realloc(old, sizeof *block + bytes);
    if (!block) {
        free(old);
        refuse("memory", "there is none left");
    }
    *block = (struct block){ &all, all.after };
    block->before->after = block->after->before = block;
    return block + 1;
}

void free_all(void) {
    while (all.after != &all) {
        struct block *block = all.after;
        all.after = block->after;
        free(block);
    }
    all.before = &all;
}

uint32_t *nones(size_t count) {
    return memset(resized(NULL, (count + 1) * sizeof(uint32_t)), 0xff,
                  (count + 1) * sizeof(uint32_t));
}

void *with_room(void *list, size_t count, size_t item_bytes) {
    if (count & (count - 1)) return list;
    return resized(list, (count ? 2 * count : 1) * item_bytes);
}

/* ---- tables ---- */

struct table_entry {
    uint64_t first, second;
    uint32_t value;
    bool is_used;
};

/* Chosen anew by each process, so that no log can be made of which many keys share a place. */
static uint64_t seeds[2];

static void choose_seeds(void) {
    if (getrandom(seeds, sizeof seeds, GRND_NONBLOCK) != sizeof seeds) seeds[0] = 1;
    seeds[0] |= 1;
}

static size_t hash(uint64_t first, uint64_t second) {
    unsigned __int128 product = (unsigned __int128)(first ^ seeds[0]) *
                                (second ^ seeds[1] ^ 0x9e3779b97f4a7c15u);
    return (size_t)product ^ (size_t)(product >> 64);
}

/* Returns the entry of a key, or the free one where it belongs. */
static struct table_entry *entry_of(const struct table *table, uint64_t first, uint64_t second) {
    for (size_t at = hash(first, second);; at++) {
        struct table_entry *entry = &table->entries[at & (table->room - 1)];
        if (!entry->is_used || (entry->first == first && entry->second == second)) return entry;
    }
}

static void double_table(struct table *table) {
    struct table old = *table;
    if (seeds[0] == 0) choose_seeds();
    table->room = old.room ? 2 * old.room : 64;
    size_t bytes = table->room * sizeof *table->entries;
    table->entries = memset(resized(NULL, bytes), 0, bytes);
    for (size_t i = 0; i < old.room; i++) {
        const struct table_entry *entry = &old.entries[i];
        if (entry->is_used) *entry_of(table, entry->first, entry->second) = *entry;
    }
    if (old.entries) resized(old.entries, 0);
}

uint32_t *table_at(struct table *table, uint64_t first, uint64_t second) {
    if (2 * (table->count + 1) > table->room) double_table(table);
    struct table_entry *entry = entry_of(table, first, second);
    if (!entry->is_used) {
        *entry = (struct table_entry){ first, second, NONE, true };
        table->count++;
    }
    return &entry->value;
}

uint32_t table_get(const struct table *table, uint64_t first, uint64_t second) {
    if (table->room == 0) return NONE;
    const struct table_entry *entry = entry_of(table, first, second);
    return entry->is_used ? entry->value : NONE;
}
