/* Writing to a file until all is written. */
#ifndef FILES_H
#define FILES_H

#include <errno.h>
#include <stdbool.h>
#include <stddef.h>
#include <stdint.h>
#include <unistd.h>

/* Writes at an offset of the file. Returns false with errno set where not all is written. */
static inline bool write_all(int file, const void *bytes, size_t length, uint64_t offset) {
    while (length > 0) {
        ssize_t done = pwrite(file, bytes, length, (off_t)offset);
        if (done == 0) errno = ENOSPC;
        if (done <= 0 && errno != EINTR) return false;
        if (done <= 0) continue;
        bytes = (const char *)bytes + done;
        length -= (size_t)done;
        offset += (uint64_t)done;
    }
    return true;
}

#endif
