/* Locks and unlocks without libpim, for mutexes.c alone.
 *
 * Owning a NONE or INHERIT mutex for which nobody waits changes no priority. So the kernel keeps
 * the owner of such a mutex in a table, and registers it by pim_adopt when another thread asks for
 * the mutex, also if the owner waits for another one. The mutex is libpim's until it is free again.
 *
 * All functions are called within the kernel's lock. A mutex of an unknown number has no owner. */
#ifndef FAST_PATH_H
#define FAST_PATH_H

#include "mutexes.h"

#if FAST_PATH
static bool may_be_fast[MAX_MUTEXES + 1];        /* by its protocol */
static bool is_registered[MAX_MUTEXES + 1];      /* libpim has an owner of it */
static uint16_t fast_owner[MAX_MUTEXES + 1];     /* who owns it without libpim, or 0 */
static uint16_t next_of_owner[MAX_MUTEXES + 1];  /* the next such mutex of its owner, or 0 */
static uint16_t first_of_owner[MAX_THREADS + 1]; /* the first such mutex of a thread, or 0 */

static void fast_start(const struct pim_protocol *protocols, uint16_t mutex_count) {
    for (uint16_t m = 0; m <= MAX_MUTEXES; m++) {
        may_be_fast[m] = m >= 1 && m <= mutex_count && protocols[m - 1].kind <= PIM_INHERIT;
        is_registered[m] = false;
        fast_owner[m] = next_of_owner[m] = 0;
    }
    for (uint16_t t = 0; t <= MAX_THREADS; t++) first_of_owner[t] = 0;
}

/* Gives the mutex to the thread, if it is free and may be fast. Returns whether it did. */
static bool fast_lock(uint16_t thread, uint16_t mutex) {
    if (mutex > MAX_MUTEXES || !may_be_fast[mutex]) return false;
    if (is_registered[mutex] || fast_owner[mutex]) return false;
    fast_owner[mutex] = thread;
    next_of_owner[mutex] = first_of_owner[thread];
    first_of_owner[thread] = mutex;
    return true;
}

/* Frees the mutex, if the thread owns it without libpim. Returns whether it did. */
static bool fast_unlock(uint16_t thread, uint16_t mutex) {
    if (mutex > MAX_MUTEXES || !fast_owner[mutex] || fast_owner[mutex] != thread) return false;
    uint16_t *at = &first_of_owner[thread];
    while (*at != mutex) at = &next_of_owner[*at];
    *at = next_of_owner[mutex];
    fast_owner[mutex] = 0;
    return true;
}

/* Frees all mutexes that the thread owns without libpim. Returns how many. */
static int fast_unlock_all(uint16_t thread) {
    int count = 0;
    for (; first_of_owner[thread]; count++) fast_unlock(thread, first_of_owner[thread]);
    return count;
}

/* Registers the owner of the mutex, if it has one that libpim doesn't know. */
static void fast_register(struct pim_handle *locks, uint16_t mutex) {
    uint16_t owner = mutex <= MAX_MUTEXES ? fast_owner[mutex] : 0;
    if (!owner) return;
    fast_unlock(owner, mutex);
    is_registered[mutex] = true;
    if (pim_adopt(locks, owner, mutex).kind != PIM_GRANTED) panic("a free mutex has an owner");
}

/* Notes whether libpim still has an owner of the mutex, after an unlock with this answer. */
static void fast_note(uint16_t mutex, struct pim_answer answer) {
    if (answer.kind == PIM_FREED) is_registered[mutex] = false;
}

/* Notes the same of all mutexes, after a release. */
static void fast_note_all(const struct pim_handle *locks) {
    for (uint16_t m = 1; m <= MAX_MUTEXES; m++)
        if (is_registered[m]) is_registered[m] = pim_owner(locks, m) != 0;
}
#else
static void fast_start(const struct pim_protocol *protocols, uint16_t mutex_count) {
    (void)protocols, (void)mutex_count;
}
static bool fast_lock(uint16_t thread, uint16_t mutex) {
    return (void)thread, (void)mutex, false;
}
static bool fast_unlock(uint16_t thread, uint16_t mutex) {
    return (void)thread, (void)mutex, false;
}
static int fast_unlock_all(uint16_t thread) {
    return (void)thread, 0;
}
static void fast_register(struct pim_handle *locks, uint16_t mutex) {
    (void)locks, (void)mutex;
}
static void fast_note(uint16_t mutex, struct pim_answer answer) {
    (void)mutex, (void)answer;
}
static void fast_note_all(const struct pim_handle *locks) {
    (void)locks;
}
#endif

#endif
