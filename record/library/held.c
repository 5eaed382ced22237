#define _GNU_SOURCE
#include "held.h"

#define ONE_REQUEST (UINT64_C(1) << 32)
#define ONE_WAITER UINT64_C(1)

_Atomic uint64_t *held_counts;
__thread struct held held[MOST_HELD];

void held_start(struct shared *in) {
    if (!inner_shows_waiters()) return;
    held_counts = in->requests;
    log_step *= 2;
}

bool held_announce(const pthread_mutex_t *mutex) {
    atomic_fetch_add(held_count_of(mutex), ONE_REQUEST | ONE_WAITER);
    held_order();
    if (inner_is_owned(mutex)) return true;
    held_withdraw(mutex);
    return false;
}

void held_withdraw(const pthread_mutex_t *mutex) {
    atomic_fetch_sub(held_count_of(mutex), ONE_WAITER);
}

void log_count_left_out(void) {
    atomic_fetch_add_explicit(&log_header->left_out, log_cursor.uncounted, memory_order_relaxed);
    log_cursor.uncounted = 0;
}

void log_catch_up(void) {
    for (unsigned i = 0; i < log_cursor.held; i++) {
        uint64_t object = places_numbered((uintptr_t)held[i].mutex, held[i].place);
        struct record *record = log_fill((struct record){ .event = EVENT_GRANTED,
                                                          .how = held[i].call,
                                                          .object = object,
                                                          .detail = held[i].detail,
                                                          .time = held[i].time,
                                                          .value = held[i].took });
        uint64_t number = log_step ? held[i].number : log_next_number(held[i].time);
        if (record) atomic_store_explicit(&record->number, number, memory_order_release);
    }
    log_cursor.held = 0;
    log_count_left_out();
    log_cursor.is_behind = false;
}
