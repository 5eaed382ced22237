/* The places in the code at which the program calls what is recorded: where each call returns to.
 * The log's header has a table of them, so that the number of a place has room in a record. It is
 * read and filled without a lock, by all threads and processes of the log.
 *
 * A call that a function of the C++ library makes for its caller has the place of the caller:
 * wrappers.h. The table has no place in such a function. So what is in the first slot of its hash
 * needs no further look. */
#ifndef PIM_PLACES_H
#define PIM_PLACES_H

#include "log.h"

enum {
    PLACE_SHIFT = 48,  /* bits of an object that are an address */
    PLACE_PROBES = 16, /* slots in which a place may be */
    PLACE_HASH_SHIFT = 19,
};

/* Where it is on the stack to which place in the code a function of the recorder returns. */
#ifdef __x86_64__
#define CALLER ((const uintptr_t *)__builtin_dwarf_cfa() - 1)
#else
#define CALLER ((const uintptr_t[]){ (uintptr_t)__builtin_return_address(0) })
#endif

_Static_assert(PLACE_SLOTS == 1 << (32 - PLACE_HASH_SHIFT), "the upper bits of a hash are a slot");

/* Returns the place of a call, by the slot of the stack where it is said. It is 0 in a function of
 * the C++ library whose caller isn't found. */
uint64_t places_caller(const uintptr_t *caller);

/* Returns the object of a record: an address, with the number of a place in the bits above. Where
 * the table has no room for the place, the record has none, and is counted. Bits of the address
 * that have no room are cut, and the call is counted. */
uint64_t places_numbered(uint64_t address, uint64_t place);

/* Does what places_object does, also where the place isn't in the first slot of its hash. */
uint64_t places_search(uint64_t address, const uintptr_t *caller);

/* Returns the first slot in which a place may be, by its hash. */
static inline uint64_t places_slot(uint64_t place) {
    return ((uint32_t)place * UINT32_C(0x9e3779b1)) >> PLACE_HASH_SHIFT;
}

/* Returns the object of a record with the place of a call. */
static inline uint64_t places_object(uint64_t address, const uintptr_t *caller) {
    uint64_t place = *caller, slot = places_slot(place);
    uint64_t there = atomic_load_explicit(&log_header->places[slot], memory_order_relaxed);
    bool is_found = ((there ^ place) | address >> PLACE_SHIFT) == 0;
    if (__builtin_expect(!is_found, 0)) return places_search(address, caller);
    return address | (slot + 1) << PLACE_SHIFT;
}

/* Returns a record with the place at which its call was made. */
static inline struct record places_at(const uintptr_t *caller, struct record record) {
    record.object = places_object(record.object, caller);
    return record;
}

/* Puts such a record of now. */
static inline void places_put(const uintptr_t *caller, struct record record) {
    if (!log_begin()) return;
    record.time = clock_time();
    log_write(places_at(caller, record));
    log_end();
}

#endif
