/* What is read of a mutex without a call: glibc's inner fields, if a test at start finds them where
 * they are expected. What isn't known is left out of the log, and counted. */
#ifndef PIM_INNER_H
#define PIM_INNER_H

#include "visibility.h"

#include <limits.h>
#include <pthread.h>
#include <stdbool.h>
#include <stdint.h>

/* Bits of the header's `known`. */
enum {
    KNOWN_KIND = 1,    /* type, protocol, robust, shared */
    KNOWN_CEILING = 2, /* of a PROTECT mutex */
    KNOWN_OWNER = 4,   /* whether it is owned, and by whom */
};

/* Bits of a record's detail, where it is a mutex's. The ceiling stands in its upper byte. */
enum {
    DETAIL_TYPE = 0x03, /* 0 normal, 1 recursive, 2 errorcheck, 3 adaptive */
    DETAIL_RECURSIVE = 0x01,
    DETAIL_KNOWN = 0x04, /* without it, all other bits are 0 and mean nothing */
    DETAIL_ROBUST = 0x10,
    DETAIL_INHERIT = 0x20,
    DETAIL_PROTECT = 0x40,
    DETAIL_SHARED = 0x80, /* between processes; of a robust mutex only its INIT tells it */
};

extern HIDDEN uint32_t inner_known;

/* Tests which fields are where they are expected, on mutexes of its own. */
void inner_test(void);

/* Returns the kernel's number of the calling thread, without a system call where the C library
 * shows who owns a mutex. */
uint32_t inner_task(void);

/* Tests whether inner_has_waiters can tell. */
bool inner_shows_waiters(void);

/* Returns the detail of a mutex by the attributes that it is made with. */
uint16_t inner_detail_of_attributes(const pthread_mutexattr_t *attributes);

static inline int inner_read(const int *field) {
    return __atomic_load_n(field, __ATOMIC_RELAXED);
}

/* The word of a PROTECT mutex has the ceiling in its upper bits. */
static inline unsigned inner_ceiling(const pthread_mutex_t *mutex) {
    return (unsigned)inner_read(&mutex->__data.__lock) >> 19 & 127;
}

/* Returns the detail of a mutex by its fields. glibc marks each robust mutex as shared. */
static inline uint16_t inner_detail(const pthread_mutex_t *mutex) {
    const unsigned bits =
        DETAIL_TYPE | DETAIL_ROBUST | DETAIL_INHERIT | DETAIL_PROTECT | DETAIL_SHARED;
    if (!(inner_known & KNOWN_KIND)) return 0;
    unsigned detail = ((unsigned)inner_read(&mutex->__data.__kind) & bits) | DETAIL_KNOWN;
    if (detail & DETAIL_ROBUST) detail &= ~(unsigned)DETAIL_SHARED;
    if (detail & DETAIL_PROTECT && inner_known & KNOWN_CEILING)
        detail |= inner_ceiling(mutex) << 8;
    return (uint16_t)detail;
}

/* Returns whether a mutex is owned: its word, but for the ceiling of a PROTECT mutex, and for the
 * bits that say that somebody waits or that an owner died. */
static inline bool inner_is_owned(const pthread_mutex_t *mutex) {
    unsigned word = (unsigned)inner_read(&mutex->__data.__lock);
    bool is_protect = inner_read(&mutex->__data.__kind) & DETAIL_PROTECT;
    return (word & (is_protect ? 0x7ffffu : 0x3fffffffu)) != 0;
}

/* Returns whether a thread waits for an owned mutex, has waited for it in vain, or waited until it
 * was granted to the owner. */
static inline bool inner_has_waiters(const pthread_mutex_t *mutex) {
    unsigned word = (unsigned)inner_read(&mutex->__data.__lock);
    int kind = inner_read(&mutex->__data.__kind);
    if (kind & (DETAIL_ROBUST | DETAIL_INHERIT)) return word >> 31;
    return (word & (kind & DETAIL_PROTECT ? 0x7ffffu : UINT_MAX)) > 1;
}

/* Returns the kernel's number of the owner, or 0 where the owner isn't told yet. */
static inline uint32_t inner_owner(const pthread_mutex_t *mutex) {
    return (uint32_t)inner_read(&mutex->__data.__owner);
}

#endif
