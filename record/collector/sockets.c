#define _GNU_SOURCE
#include "sockets.h"

#include <errno.h>
#include <stddef.h>
#include <stdint.h>
#include <stdio.h>
#include <stdlib.h>
#include <string.h>
#include <sys/random.h>
#include <sys/socket.h>
#include <sys/un.h>
#include <unistd.h>

enum { MOST_WAITING = 4096 };

static const char TEMPLATE[] = "/pim-record-XXXXXX", FILE_NAME[] = "/socket";

/* Returns a listener at an address of so many bytes, or -1 with errno set. */
static int listen_at(const struct sockaddr_un *address, size_t bytes) {
    int listener = socket(AF_UNIX, SOCK_SEQPACKET | SOCK_CLOEXEC | SOCK_NONBLOCK, 0);
    if (listener < 0) return -1;
    if (bind(listener, (const struct sockaddr *)address, (socklen_t)bytes) == 0 &&
        listen(listener, MOST_WAITING) == 0)
        return listener;
    int error = errno;
    close(listener);
    errno = error;
    return -1;
}

/* Opens the one whose name nobody guesses, and which needs no file. Puts the name. */
static int open_abstract(char name[SOCKET_NAME_BYTES]) {
    struct sockaddr_un address = { .sun_family = AF_UNIX };
    uint64_t random[2];
    if (getrandom(random, sizeof random, 0) != sizeof random) return -1;
    int length = snprintf(name, SOCKET_NAME_BYTES, "pim-record-%d-%016llx%016llx", (int)getpid(),
                          (unsigned long long)random[0], (unsigned long long)random[1]);
    memcpy(address.sun_path + 1, name, (size_t)length);
    return listen_at(&address, offsetof(struct sockaddr_un, sun_path) + 1 + (size_t)length);
}

/* Opens one in a new folder of a folder. Returns -1 where that is no folder for it, or where
 * the path is longer than that of a socket may be. */
static int open_in(const char *outer, struct sockets *opened) {
    struct sockaddr_un address = { .sun_family = AF_UNIX };
    if (!outer || *outer != '/') return -1;
    if (strlen(outer) + sizeof TEMPLATE + sizeof FILE_NAME > sizeof address.sun_path) return -1;
    snprintf(opened->folder, sizeof opened->folder, "%s%s", outer, TEMPLATE);
    if (mkdtemp(opened->folder)) {
        strcat(strcpy(address.sun_path, opened->folder), FILE_NAME);
        int listener = listen_at(&address, sizeof address);
        if (listener >= 0) return listener;
        rmdir(opened->folder);
    }
    opened->folder[0] = '\0';
    return -1;
}

bool open_sockets(struct sockets *opened, char name[SOCKET_NAME_BYTES]) {
    const char *const folders[] = { getenv("XDG_RUNTIME_DIR"), getenv("TMPDIR"), "/tmp" };
    *opened = (struct sockets){ .abstract = open_abstract(name), .named = -1 };
    if (opened->abstract < 0) return false;
    for (size_t i = 0; opened->named < 0 && i < sizeof folders / sizeof *folders; i++)
        opened->named = open_in(folders[i], opened);
    if (opened->named < 0) return true;
    size_t length = strlen(name);
    snprintf(name + length, SOCKET_NAME_BYTES - length, ":%s%s", opened->folder, FILE_NAME);
    return true;
}

void leave_sockets(const struct sockets *left) {
    close(left->abstract);
    if (left->named >= 0) close(left->named);
}

void remove_sockets(const struct sockets *removed) {
    char path[sizeof removed->folder + sizeof FILE_NAME];
    if (!removed->folder[0]) return;
    snprintf(path, sizeof path, "%s%s", removed->folder, FILE_NAME);
    unlink(path);
    rmdir(removed->folder);
}
