/* What a program may wait for that its log doesn't say. */
#ifndef IMPORTS_H
#define IMPORTS_H

#include <stddef.h>

/* Puts the names of functions that the program at this path imports, by which it may wait
 * without a record: the first of each kind, as "mtx_lock and syscall". Puts an empty text where
 * there are none, or the file can't be read. */
void read_unseen(const char *path, char *names, size_t bytes);

#endif
