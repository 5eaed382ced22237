/* Where programs reach the collector: an abstract socket, which is found in each folder that a
 * process may have as its root, and one with a path, which is found in each network namespace. */
#ifndef SOCKETS_H
#define SOCKETS_H

#include <stdbool.h>
#include <stddef.h>

enum { SOCKET_NAME_BYTES = 256 };

struct sockets {
    int abstract, named; /* the second is -1 where no folder takes it */
    char folder[128];    /* that has nothing but the second, or empty */
};

/* Opens both. Puts the name by which the library finds them, NAME:PATH or NAME. Returns false
 * with errno set where there is none. */
bool open_sockets(struct sockets *opened, char name[SOCKET_NAME_BYTES]);

/* Closes both, in a process that leaves them to another one. */
void leave_sockets(const struct sockets *left);

/* Removes the path. */
void remove_sockets(const struct sockets *removed);

#endif
