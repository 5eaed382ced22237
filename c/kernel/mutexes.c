#include "mutexes.h"

#include "fast_path.h"
#include "pim_heap_given.h"

/* The kernel's lock is held from a step of libpim until its answer is carried out. */
static struct pim_handle locks = PIM_HANDLE_INIT;
static struct pim_changed_prio changed[MAX_THREADS];
static struct pim_handed handed[MAX_MUTEXES];
static _Alignas(16) unsigned char memory[PIM_MEMORY(MAX_THREADS, MAX_MUTEXES)];

/* ---- carrying out an answer ---- */

/* Schedules the threads whose priority the step changed, so many, at their new ones, the caller
 * last. */
static void apply_changes(struct thread *caller, uint16_t count) {
    pim_changed_prios(&locks, changed, count);
    uint16_t own = 0;
    for (uint16_t i = 0; i < count; i++) {
        if (changed[i].task == caller->number) own = changed[i].prio;
        else sched_set_prio(&threads[changed[i].task], (uint8_t)changed[i].prio);
    }
    if (own) sched_set_prio(caller, (uint8_t)own);
}

/* Wakes the threads that a release gave a mutex, in the order of the mutexes. */
static void wake_new_owners(void) {
    uint64_t count = pim_handed(&locks, handed, MAX_MUTEXES);
    for (uint64_t i = 0; i < count; i++) sched_wake(&threads[handed[i].task], 0);
}

/* Wakes the new owners of mutexes, then sets priorities. Returns what the caller's call
 * returns. */
static int carry_out(struct thread *caller, struct pim_answer answer) {
    int returned = 0;
    switch (answer.kind) {
    case PIM_REFUSED: return -answer.refusal;
    case PIM_KEPT: return MUTEX_KEPT;
    case PIM_GRANTED: case PIM_QUEUED: case PIM_FREED: case PIM_SET: case PIM_WITHDRAWN: break;
    case PIM_HANDED: sched_wake(&threads[answer.number], 0); break;
    case PIM_RELEASED: wake_new_owners(); returned = answer.number; break;
    default: panic("libpim: an answer of another version");
    }
    if (answer.changed) apply_changes(caller, answer.changed);
    return returned;
}

/* Leaves the kernel after a step that blocks nobody. */
static int finish(struct pim_answer answer) {
    int returned = carry_out(current, answer);
    kernel_leave();
    return returned;
}

/* Leaves the kernel after a lock or an unlock that libpim needn't know. */
static int finish_fast(void) {
    kernel_leave();
    return 0;
}

/* ---- the functions ---- */

uint32_t mutexes_start(const uint16_t *bases, uint16_t thread_count,
                       const struct pim_protocol *protocols, uint16_t mutex_count) {
    kernel_enter();
    fast_start(protocols, mutex_count);
    pim_drop(&locks);
    uint32_t fault = pim_make_in(&locks, memory, sizeof memory, bases, thread_count, protocols,
                                 mutex_count);
    kernel_leave();
    return fault;
}

int mutex_timedlock(uint16_t mutex, uint64_t deadline) {
    kernel_enter();
    if (fast_lock(current->number, mutex)) return finish_fast();
    fast_register(&locks, mutex);
    struct pim_answer answer = pim_lock(&locks, current->number, mutex);
    if (answer.kind != PIM_QUEUED) return finish(answer);
    current->mutex = mutex;
    carry_out(current, answer);
    return kernel_leave_blocked(LOCKING, deadline);
}

int mutex_lock(uint16_t mutex) {
    return mutex_timedlock(mutex, NEVER);
}

int mutex_trylock(uint16_t mutex) {
    kernel_enter();
    if (fast_lock(current->number, mutex)) return finish_fast();
    fast_register(&locks, mutex);
    return finish(pim_try(&locks, current->number, mutex));
}

int mutex_unlock(uint16_t mutex) {
    kernel_enter();
    if (fast_unlock(current->number, mutex)) return finish_fast();
    fast_register(&locks, mutex);
    struct pim_answer answer = pim_unlock(&locks, current->number, mutex);
    fast_note(mutex, answer);
    return finish(answer);
}

int mutex_unlock_all(void) {
    kernel_enter();
    int fast = fast_unlock_all(current->number);
    struct pim_answer answer = pim_release_all(&locks, current->number);
    fast_note_all(&locks);
    int returned = finish(answer);
    return returned < 0 ? returned : fast + returned;
}

int mutex_withdraw(uint16_t thread) {
    kernel_enter();
    struct pim_answer answer = pim_cancel(&locks, current->number, thread);
    if (answer.kind == PIM_WITHDRAWN) sched_wake(&threads[thread], MUTEX_WITHDRAWN);
    return finish(answer);
}

int thread_set_priority(uint16_t thread, uint16_t prio) {
    kernel_enter();
    return finish(pim_set_base(&locks, current->number, thread, prio));
}

int mutex_set_ceiling(uint16_t mutex, uint16_t ceiling) {
    kernel_enter();
    return finish(pim_set_ceiling(&locks, current->number, mutex, ceiling));
}

void mutex_time_is_out(struct thread *thread) {
    struct pim_answer answer = pim_cancel(&locks, PIM_KERNEL, thread->number);
    if (answer.kind != PIM_WITHDRAWN) panic("a blocked thread doesn't wait");
    sched_wake(thread, MUTEX_TIMED_OUT);
    if (answer.changed) apply_changes(thread, answer.changed);
}

struct pim_handle *mutexes_manager(void) {
    return &locks;
}
