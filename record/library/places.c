#define _GNU_SOURCE
#include "places.h"

#include "wrappers.h"

/* Returns the number of a place that the table has, or 0. */
static uint64_t known_number(uint64_t place) {
    uint64_t slot = places_slot(place);
    for (int i = 0; i < PLACE_PROBES; i++, slot = (slot + 1) % PLACE_SLOTS) {
        uint64_t there = atomic_load_explicit(&log_header->places[slot], memory_order_relaxed);
        if (there == 0) break;
        if (there == place) return slot + 1;
    }
    return 0;
}

/* Returns the number of a place, which is added where it is new; or 0 where there is no room, or
 * the place is 0. */
static uint64_t number_of(uint64_t place) {
    uint64_t slot = places_slot(place);
    for (int i = 0; place && i < PLACE_PROBES; i++, slot = (slot + 1) % PLACE_SLOTS) {
        _Atomic uint64_t *at = &log_header->places[slot];
        uint64_t there = atomic_load_explicit(at, memory_order_relaxed);
        if (there == 0 && atomic_compare_exchange_strong(at, &there, place)) there = place;
        if (there == place) return slot + 1;
    }
    atomic_fetch_add_explicit(&log_header->unplaced, 1, memory_order_relaxed);
    return 0;
}

uint64_t places_caller(const uintptr_t *caller) {
    if (!wrappers_are_known || known_number(*caller)) return *caller;
    uint64_t place = wrappers_pass(caller);
    if (known_number(place)) return place;
    return wrappers_have(*caller) ? wrappers_unwind(caller) : *caller;
}

uint64_t places_numbered(uint64_t address, uint64_t place) {
    uint64_t kept = address & ((UINT64_C(1) << PLACE_SHIFT) - 1);
    if (kept != address) log_leave_out();
    return kept | number_of(place) << PLACE_SHIFT;
}

uint64_t places_search(uint64_t address, const uintptr_t *caller) {
    return places_numbered(address, places_caller(caller));
}
