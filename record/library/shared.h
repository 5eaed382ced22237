/* The memory in which a program writes its log. The collector makes it, gives it to the program
 * by a socket, writes the chunks to the log's file, and gives their slots back, with zeros. A
 * chunk is in a slot from its first record until it is written. So no call of the program waits
 * for a disk, and none but those that say so touch a page for the first time. */
#ifndef PIM_SHARED_H
#define PIM_SHARED_H

#include "log.h"

#include <assert.h>

enum {
    SHARED_VERSION = 5,
    MOST_SLOTS = 65536, /* 1 GB of chunks that aren't written yet */
    FEW_SLOTS = 32,     /* 0.5 MB, which are touched as a program begins */
    MANY_SLOTS = 256,   /* 4 MB, once it has threads or a real-time priority */
    OWN_SLOTS = 64,     /* 1 MB, for threads of a real-time priority, once there are some */
    FREE_SLOTS = 64,    /* at least so many are free when a thread is created */
    PART_SLOTS = 256,   /* so many are mapped at a time */
    PART_BYTES = PART_SLOTS * CHUNK_BYTES,
    MOST_LEFT = 64,     /* chunks that an ended thread left */
    LEAST_LEFT = 32,    /* records that are free in one */
    MOST_LOST = 64,     /* records that a thread counts by itself */
    QUIET_PARTS = 16,   /* 64 MB, which are mapped before a seccomp filter forbids that */
    PAGE = 4096,
    REQUEST_COUNTS = 2048,
};

#define LOG_MAGIC { 'p', 'i', 'm', 'l', 'o', 'g', '\r', '\n' }

struct shared {
    _Alignas(PAGE) struct header header; /* with the table of places */
    _Alignas(PAGE) _Atomic uint64_t next_slot; /* this one and those behind it had no chunk yet */
    _Atomic uint32_t is_unused;                /* 1: the log is to be removed */
    /* Of each chunk that an ended thread left: how many records it has, and 1 + its slot in the bits
     * from 16 on; or 0. */
    _Alignas(64) _Atomic uint64_t left[MOST_LEFT];
    _Alignas(PAGE) _Atomic uint64_t free[MOST_SLOTS / 64]; /* a bit for each slot */
    _Alignas(PAGE) _Atomic uint64_t requests[REQUEST_COUNTS]; /* of mutexes, by address: held.h */
    _Alignas(PAGE) struct record slots[][CHUNK_RECORDS];
};

static_assert(offsetof(struct shared, slots) == sizeof(struct shared), "the slots are at its end");

/* The bytes of a memory with room for so many slots. */
static inline size_t shared_bytes(uint64_t slots) {
    return sizeof(struct shared) + slots * CHUNK_BYTES;
}

/* A program's first message to the collector. Its second one is a byte, once the memory is
 * mapped. */
struct request {
    uint32_t version;
    uint32_t process;
};

/* The answer, with the descriptor of the memory where there is one. */
struct answer {
    uint32_t version;
    uint32_t is_first; /* 1: of the first program of the recording */
    uint32_t is_contended; /* 1: only what is waited for is recorded */
    uint32_t has_stacks;   /* 1: with the stacks of requests */
    uint32_t is_shared;    /* 1: a chunk may have several threads, one after another */
    uint32_t unused;
    uint64_t slots;
};

#endif
