/* What the functions of pim.h return and write, under AddressSanitizer: lists that get less room
 * than they need, numbers that name nothing, a handle without a manager, faults of pim_make, new
 * protocols, and the unused parts of an answer. No trace has a line for these. c/replay.c replays
 * the others.
 *
 * Each case is a table of calls and what they return. Prints a line for each case. */
#include "pim.h"

#include <stdio.h>
#include <string.h>

enum call {
    LOCK, TRY, UNLOCK, RELEASE_ALL, CANCEL, SET_BASE, SET_CEILING, SET_PROTOCOL, ADOPT, CHANGED, PRIOS, HANDED,
    WAITERS, TASK_COUNT, MUTEX_COUNT, NEXT_TICKET, EFFECTIVE_PRIO, BASE_PRIO, REASON, WAITS_FOR, OWNER, LOCK_COUNT, PROTOCOL, DROP
};

/* A call with its numbers, and what it returns. A struct is one number: its parts are 16 bits each. */
struct row {
    int line;
    uint64_t wanted;
    uint16_t call[4];
};

#define ROW(wanted, ...) { __LINE__, wanted, { __VA_ARGS__ } }
#define PARTS(first, second, third) ((uint64_t)(first) << 32 | (uint64_t)(second) << 16 | (third))
#define ANSWER(kind) PARTS(kind, 0, 0)
#define ABOUT(kind, number) PARTS(kind, 0, number)
#define REFUSED(refusal) PARTS(PIM_REFUSED, PIM_REFUSED_##refusal, 0)
#define KIND(kind, ceiling) PARTS(0, kind, ceiling)

enum { TASKS = 3, MUTEXES = 4, ROOM = 4 };
static const uint16_t BASES[] = { 10, 50, 90 };
static const struct pim_protocol PROTOCOLS[] = {
    { PIM_INHERIT, 0 }, { PIM_PROTECT, 60 }, { PIM_INHERIT_RECURSIVE, 8 }, { PIM_NONE, 7 }
};

static const char *case_name;
static int wrongs;

static void expect(int line, uint64_t got, uint64_t wanted) {
    if (got == wanted) return;
    printf("FAIL calls.c: %s: line %d: %#llx in place of %#llx\n", case_name, line, (unsigned long long)got,
           (unsigned long long)wanted);
    wrongs++;
}

#define IS(what, wanted) expect(__LINE__, (uint64_t)(what), wanted)

static uint64_t of_answer(struct pim_answer a) {
    return PARTS(a.kind, a.refusal, a.number);
}

static uint64_t of_reason(struct pim_reason why) {
    return PARTS(why.kind, why.task, why.mutex);
}

static uint64_t of_protocol(struct pim_protocol p) {
    return KIND(p.kind, p.ceiling);
}

static uint64_t step(struct pim_handle *h, const uint16_t *n) {
    switch (n[0]) {
    case LOCK: return of_answer(pim_lock(h, n[1], n[2]));
    case TRY: return of_answer(pim_try(h, n[1], n[2]));
    case UNLOCK: return of_answer(pim_unlock(h, n[1], n[2]));
    case RELEASE_ALL: return of_answer(pim_release_all(h, n[1]));
    case CANCEL: return of_answer(pim_cancel(h, n[1], n[2]));
    case SET_BASE: return of_answer(pim_set_base(h, n[1], n[2], n[3]));
    case SET_CEILING: return of_answer(pim_set_ceiling(h, n[1], n[2], n[3]));
    case SET_PROTOCOL: return of_answer(pim_set_protocol(h, n[1], n[2], n[3]));
    default: return of_answer(pim_adopt(h, n[1], n[2]));
    }
}

static uint64_t getter(const struct pim_handle *h, const uint16_t *n) {
    static struct pim_changed_task changed[ROOM];
    static struct pim_changed_prio prios[ROOM];
    static struct pim_handed handed[ROOM];
    static struct pim_waiter waiters[ROOM];
    switch (n[0]) {
    case CHANGED: return pim_changed(h, changed, ROOM);
    case PRIOS: return pim_changed_prios(h, prios, ROOM);
    case HANDED: return pim_handed(h, handed, ROOM);
    case WAITERS: return pim_waiters(h, n[1], waiters, ROOM);
    case TASK_COUNT: return pim_task_count(h);
    case MUTEX_COUNT: return pim_mutex_count(h);
    case NEXT_TICKET: return pim_next_ticket(h);
    case EFFECTIVE_PRIO: return pim_effective_prio(h, n[1]);
    case BASE_PRIO: return pim_base_prio(h, n[1]);
    case REASON: return of_reason(pim_task_reason(h, n[1]));
    case WAITS_FOR: return pim_waits_for(h, n[1]);
    case OWNER: return pim_owner(h, n[1]);
    case LOCK_COUNT: return pim_lock_count(h, n[1]);
    default: return of_protocol(pim_mutex_protocol(h, n[1]));
    }
}

static void play(struct pim_handle *h, const struct row *rows, size_t count) {
    for (size_t i = 0; i < count; i++) {
        const uint16_t *call = rows[i].call;
        if (call[0] == DROP) pim_drop(h);
        else expect(rows[i].line, call[0] <= ADOPT ? step(h, call) : getter(h, call), rows[i].wanted);
    }
}

#define PLAY(h, rows) play(h, rows, sizeof(rows) / sizeof *(rows))

static struct pim_handle made(const char *name) {
    struct pim_handle h = PIM_HANDLE_INIT;
    case_name = name;
    IS(pim_make(&h, BASES, TASKS, PROTOCOLS, MUTEXES), PIM_MADE);
    return h;
}

static void dropped(struct pim_handle *h) {
    pim_drop(h);
    IS(h->at == NULL, 1);
}

/* ---- steps ----------------------------------------------------------------------------------- */

static void each_answer(void) {
    static const struct row rows[] = {
        ROW(1, NEXT_TICKET), ROW(0, CHANGED),
        ROW(ANSWER(PIM_GRANTED), LOCK, 1, 1), ROW(0, CHANGED),
        ROW(ANSWER(PIM_QUEUED), LOCK, 3, 1), ROW(1, CHANGED), ROW(1, PRIOS),
        ROW(2, NEXT_TICKET), ROW(90, EFFECTIVE_PRIO, 1), ROW(10, BASE_PRIO, 1),
        ROW(REFUSED(WAITING), LOCK, 3, 4), ROW(0, CHANGED),
        ROW(ABOUT(PIM_HANDED, 3), UNLOCK, 1, 1), ROW(10, EFFECTIVE_PRIO, 1), ROW(1, HANDED),
        ROW(ANSWER(PIM_FREED), UNLOCK, 3, 1), ROW(0, HANDED),
        ROW(ANSWER(PIM_GRANTED), TRY, 1, 3), ROW(ANSWER(PIM_GRANTED), TRY, 1, 3),
        ROW(ANSWER(PIM_KEPT), UNLOCK, 1, 3), ROW(1, LOCK_COUNT, 3),
        ROW(ANSWER(PIM_QUEUED), LOCK, 2, 3), ROW(3, NEXT_TICKET), ROW(3, WAITS_FOR, 2),
        ROW(ANSWER(PIM_WITHDRAWN), CANCEL, 1, 2), ROW(0, WAITS_FOR, 2), ROW(3, NEXT_TICKET),
        ROW(ANSWER(PIM_SET), SET_BASE, 3, 1, 20), ROW(20, BASE_PRIO, 1),
        ROW(ANSWER(PIM_SET), SET_CEILING, 1, 2, 40), ROW(KIND(PIM_PROTECT, 40), PROTOCOL, 2),
        ROW(ANSWER(PIM_GRANTED), LOCK, 1, 2), ROW(PARTS(PIM_OF_CEILING, 0, 2), REASON, 1),
        ROW(ABOUT(PIM_RELEASED, 2), RELEASE_ALL, 1), ROW(PARTS(PIM_OF_BASE, 0, 0), REASON, 1),
        ROW(0, LOCK_COUNT, 3), ROW(0, OWNER, 2)
    };
    struct pim_handle h = made("each answer, with 0 for what it doesn't name");
    PLAY(&h, rows);
    dropped(&h);
}

static void each_refusal(void) {
    static const struct row rows[] = {
        ROW(ANSWER(PIM_GRANTED), LOCK, 1, 1), ROW(ANSWER(PIM_GRANTED), LOCK, 1, 2), ROW(ANSWER(PIM_QUEUED), LOCK, 2, 1),
        ROW(REFUSED(NO_TASK), LOCK, 4, 1), ROW(REFUSED(NO_TASK), CANCEL, 1, 0), ROW(REFUSED(NO_TASK), SET_BASE, 1, 4, 5),
        ROW(REFUSED(WAITING), RELEASE_ALL, 2), ROW(REFUSED(WAITING), CANCEL, 2, 1),
        ROW(REFUSED(NO_MUTEX), TRY, 1, 5), ROW(REFUSED(NO_MUTEX), UNLOCK, 1, 0),
        ROW(REFUSED(DEADLOCK), LOCK, 1, 1), ROW(REFUSED(CEILING), LOCK, 3, 2),
        ROW(REFUSED(BUSY), TRY, 3, 1), ROW(REFUSED(BUSY), SET_CEILING, 3, 2, 70),
        ROW(REFUSED(NOT_OWNER), UNLOCK, 3, 1), ROW(REFUSED(NOT_WAITING), CANCEL, 1, 3),
        ROW(REFUSED(PRIORITY), SET_BASE, 1, 1, 0), ROW(REFUSED(PRIORITY), SET_BASE, 1, 1, 100),
        ROW(REFUSED(PRIORITY), SET_CEILING, 1, 2, 100), ROW(REFUSED(NOT_PROTECT), SET_CEILING, 1, 1, 70),
        ROW(60, EFFECTIVE_PRIO, 1), ROW(2, NEXT_TICKET), ROW(0, CHANGED)
    };
    struct pim_handle h = made("each refusal that a few steps reach");
    PLAY(&h, rows);
    dropped(&h);
}

/* Task 2 waits for mutex 1 of task 1. */
static void kernel_asks(void) {
    static const struct row rows[] = {
        ROW(ANSWER(PIM_GRANTED), LOCK, 1, 1), ROW(ANSWER(PIM_QUEUED), LOCK, 2, 1),
        ROW(ANSWER(PIM_SET), SET_BASE, PIM_KERNEL, 2, 70), ROW(2, CHANGED), ROW(70, EFFECTIVE_PRIO, 1),
        ROW(REFUSED(NO_TASK), SET_BASE, PIM_KERNEL, 4, 5), ROW(0, CHANGED),
        ROW(REFUSED(PRIORITY), SET_BASE, PIM_KERNEL, 1, 100), ROW(REFUSED(NO_TASK), CANCEL, PIM_KERNEL, PIM_KERNEL),
        ROW(ANSWER(PIM_WITHDRAWN), CANCEL, PIM_KERNEL, 2), ROW(1, CHANGED), ROW(10, EFFECTIVE_PRIO, 1),
        ROW(REFUSED(NOT_WAITING), CANCEL, PIM_KERNEL, 2), ROW(0, WAITS_FOR, 2),
        ROW(ANSWER(PIM_SET), SET_CEILING, PIM_KERNEL, 2, 80), ROW(KIND(PIM_PROTECT, 80), PROTOCOL, 2),
        ROW(ANSWER(PIM_GRANTED), LOCK, 1, 2), ROW(80, EFFECTIVE_PRIO, 1),
        ROW(REFUSED(BUSY), SET_CEILING, PIM_KERNEL, 2, 70), ROW(KIND(PIM_PROTECT, 80), PROTOCOL, 2),
        ROW(REFUSED(NOT_PROTECT), SET_CEILING, PIM_KERNEL, 1, 70), ROW(REFUSED(NO_MUTEX), SET_CEILING, PIM_KERNEL, 5, 70),
        ROW(REFUSED(NO_TASK), LOCK, PIM_KERNEL, 4), ROW(REFUSED(NO_TASK), TRY, PIM_KERNEL, 4),
        ROW(REFUSED(NO_TASK), UNLOCK, PIM_KERNEL, 1), ROW(REFUSED(NO_TASK), RELEASE_ALL, PIM_KERNEL)
    };
    struct pim_handle h = made("the kernel asks where no task does");
    PLAY(&h, rows);
    dropped(&h);
}

static void new_protocols(void) {
    static const struct row rows[] = {
        ROW(ANSWER(PIM_GRANTED), LOCK, 1, 2), ROW(1, CHANGED),
        ROW(REFUSED(BUSY), SET_PROTOCOL, 2, PIM_INHERIT, 0), ROW(KIND(PIM_PROTECT, 60), PROTOCOL, 2),
        ROW(REFUSED(NO_MUTEX), SET_PROTOCOL, 5, PIM_INHERIT, 0), ROW(REFUSED(NO_MUTEX), SET_PROTOCOL, 0, PIM_NONE, 0),
        ROW(REFUSED(NO_PROTOCOL), SET_PROTOCOL, 1, 4, 10), ROW(REFUSED(NO_PROTOCOL), SET_PROTOCOL, 1, PIM_PROTECT, 0),
        ROW(REFUSED(NO_PROTOCOL), SET_PROTOCOL, 1, PIM_PROTECT, 100), ROW(KIND(PIM_INHERIT, 0), PROTOCOL, 1),
        ROW(1, CHANGED),
        ROW(ANSWER(PIM_SET), SET_PROTOCOL, 1, PIM_INHERIT_RECURSIVE, 7), ROW(0, CHANGED), ROW(0, PRIOS),
        ROW(KIND(PIM_INHERIT_RECURSIVE, 0), PROTOCOL, 1), ROW(60, EFFECTIVE_PRIO, 1),
        ROW(ANSWER(PIM_SET), SET_PROTOCOL, 4, PIM_PROTECT, 99), ROW(KIND(PIM_PROTECT, 99), PROTOCOL, 4),
        ROW(ANSWER(PIM_GRANTED), LOCK, 2, 1), ROW(ANSWER(PIM_GRANTED), LOCK, 2, 1), ROW(2, LOCK_COUNT, 1)
    };
    struct pim_handle h = made("a free mutex gets another protocol");
    PLAY(&h, rows);
    dropped(&h);
}

/* Task 1 waits for mutex 4 of task 2, and owns mutex 1 all the while. Then task 3 comes to wait. */
static void adopted(void) {
    static const struct row rows[] = {
        ROW(ANSWER(PIM_SET), SET_PROTOCOL, 4, PIM_INHERIT, 0),
        ROW(ANSWER(PIM_GRANTED), LOCK, 2, 4), ROW(ANSWER(PIM_QUEUED), LOCK, 1, 4), ROW(0, CHANGED),
        ROW(ANSWER(PIM_GRANTED), ADOPT, 1, 1), ROW(1, OWNER, 1), ROW(1, LOCK_COUNT, 1), ROW(10, EFFECTIVE_PRIO, 1),
        ROW(ANSWER(PIM_GRANTED), ADOPT, 1, 3), ROW(1, LOCK_COUNT, 3), ROW(4, WAITS_FOR, 1),
        ROW(ANSWER(PIM_QUEUED), LOCK, 3, 1), ROW(2, CHANGED), ROW(90, EFFECTIVE_PRIO, 1), ROW(90, EFFECTIVE_PRIO, 2),
        ROW(REFUSED(NO_TASK), ADOPT, 0, 5), ROW(REFUSED(NO_TASK), ADOPT, 4, 1), ROW(REFUSED(NO_MUTEX), ADOPT, 1, 0),
        ROW(REFUSED(NO_MUTEX), ADOPT, 1, 5), ROW(REFUSED(PROTECT), ADOPT, 1, 2), ROW(REFUSED(BUSY), ADOPT, 1, 1),
        ROW(2, CHANGED), ROW(REFUSED(DEADLOCK), LOCK, 2, 1),
        ROW(ABOUT(PIM_HANDED, 1), UNLOCK, 2, 4), ROW(ABOUT(PIM_HANDED, 3), UNLOCK, 1, 1), ROW(10, EFFECTIVE_PRIO, 1),
        ROW(ANSWER(PIM_FREED), UNLOCK, 1, 3), ROW(ANSWER(PIM_GRANTED), ADOPT, 2, 3), ROW(0, CHANGED)
    };
    struct pim_handle h = made("a task adopts a free mutex, also while it waits");
    PLAY(&h, rows);
    dropped(&h);
}

/* ---- getters --------------------------------------------------------------------------------- */

static void read_protocols(void) {
    static const struct row rows[] = {
        ROW(KIND(PIM_INHERIT, 0), PROTOCOL, 1), ROW(KIND(PIM_PROTECT, 60), PROTOCOL, 2),
        ROW(KIND(PIM_INHERIT_RECURSIVE, 0), PROTOCOL, 3), ROW(KIND(PIM_NONE, 0), PROTOCOL, 4)
    };
    struct pim_handle h = made("only a PROTECT mutex has a ceiling");
    PLAY(&h, rows);
    dropped(&h);
}

static void unknown_numbers(void) {
    struct pim_handle h = made("numbers that name nothing");
    IS(pim_lock(&h, 1, 1).kind, PIM_GRANTED);
    static const uint16_t tasks[] = { 0, 4, 65535 }, mutexes[] = { 0, 5, 65535 };
    for (int i = 0; i < 3; i++) {
        uint16_t t = tasks[i], m = mutexes[i];
        const struct row rows[] = {
            ROW(0, EFFECTIVE_PRIO, t), ROW(0, BASE_PRIO, t), ROW(PARTS(PIM_OF_NOTHING, 0, 0), REASON, t),
            ROW(65535, WAITS_FOR, t), ROW(65535, OWNER, m), ROW(65535, LOCK_COUNT, m),
            ROW(KIND(65535, 0), PROTOCOL, m), ROW(0, WAITERS, m)
        };
        PLAY(&h, rows);
    }
    IS(pim_owner(&h, 1), 1);
    dropped(&h);
}

static void no_manager(void) {
    static const struct row rows[] = {
        ROW(0, LOCK, 1, 1), ROW(0, TRY, 1, 1), ROW(0, UNLOCK, 1, 1), ROW(0, RELEASE_ALL, 1), ROW(0, CANCEL, 1, 1),
        ROW(0, CANCEL, PIM_KERNEL, 1), ROW(0, SET_BASE, 1, 1, 20), ROW(0, SET_CEILING, 1, 2, 20), ROW(0, SET_PROTOCOL, 1, PIM_PROTECT, 60),
        ROW(0, ADOPT, 1, 1), ROW(0, CHANGED), ROW(0, PRIOS), ROW(0, HANDED), ROW(0, WAITERS, 1), ROW(0, TASK_COUNT), ROW(0, MUTEX_COUNT),
        ROW(0, NEXT_TICKET),
        ROW(0, EFFECTIVE_PRIO, 1), ROW(0, BASE_PRIO, 1), ROW(0, REASON, 1), ROW(65535, WAITS_FOR, 1),
        ROW(65535, OWNER, 1), ROW(65535, LOCK_COUNT, 1), ROW(KIND(65535, 0), PROTOCOL, 1), ROW(0, DROP)
    };
    struct pim_handle h = PIM_HANDLE_INIT;
    case_name = "a handle without a manager, before pim_make and after pim_drop";
    PLAY(&h, rows);
    IS(pim_make(&h, BASES, TASKS, PROTOCOLS, MUTEXES), PIM_MADE);
    IS(pim_lock(&h, 1, 1).kind, PIM_GRANTED);
    dropped(&h);
    PLAY(&h, rows);
}

/* ---- lists ----------------------------------------------------------------------------------- */

/* Sees that the bytes from this item on are as they were before the call. */
static void see_untouched(int line, const void *items, size_t size, size_t from) {
    const unsigned char *bytes = items;
    for (size_t i = from * size; i < ROOM * size; i++) expect(line, bytes[i], 0xAA);
}

/* Task 1 owns mutex 1, for which task 2 and then task 3 wait. */
static void copied_waiters(void) {
    static const struct pim_waiter wanted[] = { { 3, 90, 2 }, { 2, 50, 1 } };
    struct pim_handle h = made("waiters are copied as far as there is room");
    for (uint16_t t = 1; t <= TASKS; t++) pim_lock(&h, t, 1);
    for (size_t room = 0; room <= ROOM; room++) {
        struct pim_waiter got[ROOM];
        memset(got, 0xAA, sizeof got);
        IS(pim_waiters(&h, 1, got, room), 2);
        size_t copied = room < 2 ? room : 2;
        for (size_t i = 0; i < copied; i++) {
            IS(got[i].task, wanted[i].task);
            IS(got[i].prio, wanted[i].prio);
            IS(got[i].ticket, wanted[i].ticket);
        }
        see_untouched(__LINE__, got, sizeof *got, copied);
    }
    dropped(&h);
}

/* Task 3 waits for mutex 3 of task 2, which waits for mutex 1 of task 1: the last step raises both. */
static void copied_changes(void) {
    static const struct row rows[] = {
        ROW(ANSWER(PIM_GRANTED), LOCK, 1, 1), ROW(ANSWER(PIM_GRANTED), LOCK, 2, 3),
        ROW(ANSWER(PIM_QUEUED), LOCK, 2, 1), ROW(ANSWER(PIM_QUEUED), LOCK, 3, 3)
    };
    static const uint64_t wanted[] = { PARTS(PIM_OF_WAITER, 2, 1), PARTS(PIM_OF_WAITER, 3, 3) };
    struct pim_handle h = made("changed tasks are copied as far as there is room");
    PLAY(&h, rows);
    for (size_t room = 0; room <= ROOM; room++) {
        struct pim_changed_task got[ROOM];
        memset(got, 0xAA, sizeof got);
        IS(pim_changed(&h, got, room), 2);
        size_t copied = room < 2 ? room : 2;
        for (size_t i = 0; i < copied; i++) {
            IS(got[i].task, i + 1);
            IS(got[i].prio, 90);
            IS(of_reason(got[i].reason), wanted[i]);
        }
        see_untouched(__LINE__, got, sizeof *got, copied);
    }
    dropped(&h);
}

/* The same tasks without their reasons; and each answer has their number. */
static void copied_prios(void) {
    struct pim_handle h = made("changed priorities are copied as far as there is room");
    IS(pim_lock(&h, 1, 1).changed, 0);
    IS(pim_lock(&h, 2, 3).changed, 0);
    IS(pim_lock(&h, 2, 1).changed, 1);
    IS(pim_lock(&h, 3, 3).changed, 2);
    for (size_t room = 0; room <= ROOM; room++) {
        struct pim_changed_prio got[ROOM];
        memset(got, 0xAA, sizeof got);
        IS(pim_changed_prios(&h, got, room), 2);
        size_t copied = room < 2 ? room : 2;
        for (size_t i = 0; i < copied; i++) {
            IS(got[i].task, i + 1);
            IS(got[i].prio, 90);
        }
        see_untouched(__LINE__, got, sizeof *got, copied);
    }
    dropped(&h);
}

/* Task 1 owns mutexes 1, 2 and 3; tasks 2 and 3 wait for 1 and 3, and get them when it releases all. */
static void copied_owners(void) {
    static const struct row rows[] = {
        ROW(ANSWER(PIM_GRANTED), LOCK, 1, 1), ROW(ANSWER(PIM_GRANTED), LOCK, 1, 2),
        ROW(ANSWER(PIM_GRANTED), LOCK, 1, 3), ROW(ANSWER(PIM_QUEUED), LOCK, 2, 1),
        ROW(ANSWER(PIM_QUEUED), LOCK, 3, 3), ROW(0, HANDED), ROW(ABOUT(PIM_RELEASED, 3), RELEASE_ALL, 1)
    };
    static const struct pim_handed wanted[] = { { 1, 2 }, { 3, 3 } };
    struct pim_handle h = made("handed mutexes are copied as far as there is room");
    PLAY(&h, rows);
    for (size_t room = 0; room <= ROOM; room++) {
        struct pim_handed got[ROOM];
        memset(got, 0xAA, sizeof got);
        IS(pim_handed(&h, got, room), 2);
        size_t copied = room < 2 ? room : 2;
        for (size_t i = 0; i < copied; i++) {
            IS(got[i].mutex, wanted[i].mutex);
            IS(got[i].task, wanted[i].task);
        }
        see_untouched(__LINE__, got, sizeof *got, copied);
    }
    dropped(&h);
}

/* ---- pim_make -------------------------------------------------------------------------------- */

struct making {
    const uint16_t *bases;
    size_t tasks;
    const struct pim_protocol *protocols;
    size_t mutexes;
    uint64_t wanted;
};

static void faults(void) {
    static const uint16_t too_low[] = { 1, 0 }, too_high[] = { 1, 100 }, good[] = { 1, 99 };
    static const struct pim_protocol unknown = { 4, 1 }, none[257] = { { PIM_NONE, 0 } };
    static const struct pim_protocol ceiling_0 = { PIM_PROTECT, 0 }, ceiling_100 = { PIM_PROTECT, 100 };
    static uint16_t ones[257];
    for (int t = 0; t < 257; t++) ones[t] = 1;
    const struct making rows[] = {
        { ones, 257, none, 257, PIM_FAULT_TOO_MANY_TASKS },
        { too_low, 2, none, 257, PIM_FAULT_TOO_MANY_MUTEXES },
        { too_low, 2, &unknown, 1, PIM_FAULT_BAD_BASE },
        { too_high, 2, none, 0, PIM_FAULT_BAD_BASE },
        { good, 2, &unknown, 1, PIM_FAULT_BAD_PROTOCOL },
        { good, 2, &ceiling_0, 1, PIM_FAULT_BAD_PROTOCOL },
        { good, 2, &ceiling_100, 1, PIM_FAULT_BAD_PROTOCOL },
        { ones, 256, none, 256, PIM_MADE },
        { too_low, 2, none, 0, PIM_FAULT_OCCUPIED }
    };
    struct pim_handle h = PIM_HANDLE_INIT;
    case_name = "faults of pim_make, in their order";
    for (size_t i = 0; i < sizeof rows / sizeof *rows; i++) {
        IS(pim_make(&h, rows[i].bases, rows[i].tasks, rows[i].protocols, rows[i].mutexes), rows[i].wanted);
        IS(h.at != NULL, rows[i].wanted == PIM_MADE || rows[i].wanted == PIM_FAULT_OCCUPIED);
    }
    IS(pim_task_count(&h), 256);
    IS(pim_mutex_count(&h), 256);
    dropped(&h);
}

int main(void) {
    static void (*const cases[])(void) = {
        each_answer, each_refusal, kernel_asks, new_protocols, adopted, read_protocols, unknown_numbers, no_manager,
        copied_waiters, copied_changes, copied_prios, copied_owners, faults
    };
    for (size_t i = 0; i < sizeof cases / sizeof *cases; i++) {
        int before = wrongs;
        cases[i]();
        if (wrongs == before) printf("ok calls.c: %s\n", case_name);
    }
    return wrongs != 0;
}
