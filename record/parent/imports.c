#define _GNU_SOURCE
#include "imports.h"

#include "../library/symbols.h"

#include <elf.h>
#include <stdio.h>
#include <string.h>

/* By kind, each list ended by NULL. The locks of OpenMP are futexes of its library, and what dlmopen
 * loads has a C library of its own. `syscall` may be a futex call, as of Rust's own mutexes, in a
 * program that has threads. */
enum { KINDS = 5, MOST = 6 };
static const char *const kinds[KINDS][MOST] = {
    { "pthread_spin_lock" },
    { "mtx_lock", "mtx_timedlock", "cnd_wait", "cnd_timedwait", "thrd_join" },
    { "GOMP_critical_start", "GOMP_barrier", "omp_set_lock", "GOMP_parallel" },
    { "dlmopen" },
    { "syscall" },
};

/* Returns the first of the functions that the file imports, or NULL. */
static const char *first_of(const struct symbols *file, const char *const *names) {
    if (strcmp(names[0], "syscall") == 0 && !symbols_import(file, "pthread_create")) return NULL;
    for (int i = 0; i < MOST && names[i]; i++)
        if (symbols_import(file, names[i])) return names[i];
    return NULL;
}

static void list_unseen(const struct symbols *file, char *names, size_t bytes) {
    const char *found[KINDS];
    int count = 0;
    for (int kind = 0; kind < KINDS; kind++)
        if ((found[count] = first_of(file, kinds[kind]))) count++;
    for (int i = 0; i < count; i++) {
        size_t length = strlen(names);
        const char *sign = i == 0 ? "" : i + 1 < count ? ", " : " and ";
        snprintf(names + length, bytes - length, "%s%s", sign, found[i]);
    }
}

void read_unseen(const char *path, char *names, size_t bytes) {
    struct symbols file;
    names[0] = '\0';
    if (!symbols_read(&file, path, SHT_DYNSYM)) return;
    list_unseen(&file, names, bytes);
    symbols_forget(&file);
}
