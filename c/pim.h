/* pim.h - a proved manager of mutexes with the three protocols of POSIX.1-2017: NONE, INHERIT and
 * PROTECT. An INHERIT mutex may be recursive.
 *
 * The manager decides and keeps books; it blocks nobody and switches nothing. The caller, a kernel
 * or a run-time library, asks it about each lock and unlock, does what the answer says, and gives
 * the tasks that it lists to its scheduler:
 *
 *     struct pim_handle locks = PIM_HANDLE_INIT;
 *     const uint16_t bases[] = { 10, 50, 90 };
 *     const struct pim_protocol protocols[] = { { PIM_INHERIT, 0 } };
 *     pim_make(&locks, bases, 3, protocols, 1); // PIM_MADE
 *     pim_lock(&locks, 1, 1);                   // PIM_GRANTED
 *     pim_lock(&locks, 3, 1);                   // PIM_QUEUED: task 3 blocks
 *     pim_effective_prio(&locks, 1);            // 90, the priority of task 3
 *     pim_unlock(&locks, 1, 1);                 // PIM_HANDED to task 3, which runs on
 *     pim_drop(&locks);
 *
 *
 * What is promised
 *
 * What each function returns, and what state it leaves, is proved of its code, for all numbers that
 * it may be passed. Tasks and mutexes have the numbers from 1 to their count, at most 256 each.
 * Priorities are 1 to 99, the larger the higher. A number that names nothing is answered so, and an
 * unknown kind of protocol is refused. Between two calls no cycle of waits stands, each queue is in
 * order, and each task has exactly the priority that the protocols give it: the greatest of its
 * base, the ceilings of the PROTECT mutexes that it owns, and the effective priorities of those who
 * wait for the INHERIT mutexes that it owns, recursive ones included.
 *
 *
 * Recursive mutexes
 *
 * A mutex of the kind PIM_INHERIT_RECURSIVE is an INHERIT mutex of the type
 * PTHREAD_MUTEX_RECURSIVE: its owner may lock it again, by pim_lock or pim_try, up to PIM_MAX_COUNT
 * times in all, and has it until it has unlocked it as often. pim_lock_count tells how often that
 * is. Each further lock is PIM_GRANTED at once, whoever waits. Each unlock but the last is
 * PIM_KEPT: the task goes on and owns the mutex still, nobody is to run on, and no priority
 * changed, so a scheduler has nothing to queue anew. The last one is PIM_HANDED or PIM_FREED, as of
 * any mutex. A mutex that is handed over counts 1, and pim_release_all unlocks one wholly, whatever
 * its count.
 *
 *
 * In which order an answer is done
 *
 * A step changes what the manager knows. The caller then does four things, in this order, and no
 * other step is made until it has done them:
 *
 *   1. It wakes each task that was handed a mutex or was withdrawn: PIM_HANDED, PIM_RELEASED (the
 *      tasks of pim_handed), PIM_WITHDRAWN.
 *   2. It gives each task of pim_changed_prios its new priority,
 *      except the task that made the step.
 *   3. It gives the task that made the step its own new priority.
 *   4. It blocks the task that made the step, if the answer is PIM_QUEUED.
 *
 * The reason: in a thread library a new priority takes effect immediately, and a task that lowers
 * itself may be preempted at that moment. If it has not woken the new owner yet, a task of medium
 * priority runs as long as it likes, and the new owner, of high priority, stays blocked. That is
 * the inversion that the mutex was to prevent.
 *
 * The order alone is not enough, since the new owner needs the lock that orders the calls. That
 * lock has to inherit priorities (PTHREAD_PRIO_INHERIT) or have the highest ceiling: then a task
 * that is preempted while it holds the lock goes on. A kernel that can't be preempted between the
 * step and the end of 4 is safe in any order.
 *
 *
 * What the caller must keep
 *
 *   - h points to a struct pim_handle that was PIM_HANDLE_INIT, and that since then was passed to
 *     functions of this file alone. It is not copied, and what it points to is neither read nor
 *     written.
 *   - One call at a time on one handle, also where the handle is const, and none from a signal or
 *     interrupt handler that may come in the middle of another. What orders the calls, a lock or
 *     disabled interrupts, is the caller's, and lasts until the answer is done. Two handles share
 *     nothing.
 *   - The CPU is the one that libpim.a was built for: an x86-64 of level v2 at least, which has
 *     SSE4.2, since pim_make uses its instructions; or a 64-bit ARM, little-endian, of ARMv8.0-A
 *     or later, which has AArch64 with its floating-point and vector registers. c/narrow builds
 *     libpim for CPUs of 32 bits, as an experiment.
 *   - A pointer that comes with a count points to that many items, is aligned, isn't null even
 *     where the count is 0, and overlaps no other memory of the call.
 *   - The memory allows unaligned accesses, also where what a call is passed is aligned: on 64-bit
 *     ARM, SCTLR_ELx.A is 0, and the memory is normal memory, so the MMU is on. c/narrow builds
 *     for CPUs without unaligned accesses.
 *   - There are PIM_STACK bytes of stack.
 *   - rattle_alloc, rattle_realloc and rattle_dealloc keep what pim_heap.h says. memmove and memset
 *     are the C library's, or do the same.
 *   - A manager that isn't dropped keeps its memory. pim_make refuses a handle that has one. GCC
 *     and Clang drop it at the end of a scope by __attribute__((cleanup(pim_drop))).
 *   - The floating-point and vector registers may be used: a kernel that keeps them from its own
 *     code saves them around the calls. `make general` builds a library for 64-bit ARM that uses
 *     none of them.
 *
 *
 * What a call costs
 *
 * n tasks and m mutexes stand. Only pim_make and pim_drop call the heap. Nothing else is called but
 * memmove and memset, and nothing waits. The second column is the most bytes of stack that a call
 * takes on either CPU, as libpim is built for x86-64-v2 and for ARMv8.0-A, without what those
 * functions take.
 *
 *   pim_make             640   allocates some m blocks, and fills them
 *   pim_drop             192   gives them back
 *   pim_lock             512   n hops at most for the test of deadlock, a queue, and the walk. If
 *                              the queue has no room: looks at each queue, twice at most, and the
 *                              waiters of two are copied
 *   pim_try              512   the walk
 *   pim_unlock           512   a queue, and at most 2 priorities
 *   pim_release_all      576   a queue and a priority for each mutex that the task owns, and 1 more
 *   pim_cancel           512   a queue, and the walk
 *   pim_set_base         512   the walk
 *   pim_set_ceiling      512   the walk
 *   pim_set_protocol      64   a few stores
 *   pim_adopt             64   a few stores
 *   pim_changed          384   the mutexes of each task that is listed
 *   pim_changed_prios    256   what it copies
 *   pim_handed           256   the owner of each mutex that the step released
 *   pim_waiters          256   what it copies
 *   pim_task_reason      256   the mutexes that the task owns
 *   pim_effective_prio    64   a few loads
 *   pim_base_prio         64   a few loads
 *   pim_waits_for         64   a few loads
 *   pim_owner             64   a few loads
 *   pim_lock_count        64   a few loads
 *   pim_mutex_protocol    64   a few loads
 *   pim_task_count        64   a few loads
 *   pim_mutex_count       64   a few loads
 *   pim_next_ticket       64   a few loads
 *   pim_version           64   a constant
 *
 * The walk goes from the task whose priority the call may change along the chain of tasks that wait
 * for one another, as far as priorities change. The answer's `visits` says how many priorities the
 * call computed: at least one for each task whose priority changed; at most that, 1 more, and 2 for
 * each mutex whose owner changed. That is proved. To compute a priority, a call looks at the
 * mutexes that the task owns. Where a look at one mutex, or at the task that leaves its queue,
 * shows that the priority stays, none is computed. To find a place in a queue is a binary search,
 * and moves the waiters behind it.
 *
 *
 * What grows
 *
 * A later version adds functions, and numbers at the end of a table: no number changes its meaning.
 * So a caller treats a kind or a reason that it doesn't know as an error of its own, and not as
 * another one. */
#ifndef PIM_H
#define PIM_H

#include <stddef.h>
#include <stdint.h>

/* ARM and RISC-V of 32 bits: an experiment, and no promise. docs/PORTING.md describes it. */
#if (defined(__arm__) && !defined(__ARMEB__)) || (defined(__riscv) && __riscv_xlen == 32)
#define PIM_32_BITS
#elif defined(UINTPTR_MAX) && UINTPTR_MAX != 0xFFFFFFFFFFFFFFFFu
#error "libpim is built for 64 bits: x86-64 and 64-bit ARM"
#endif

#ifdef __cplusplus
extern "C" {
#endif

/* The version, as semantic versioning counts. */
#define PIM_VERSION_MAJOR 0
#define PIM_VERSION_MINOR 2
#define PIM_VERSION_PATCH 0
#define PIM_VERSION "0.2.0"

/* The version as one number, to compare. */
#define PIM_VERSION_NUMBER (PIM_VERSION_MAJOR * 10000 + PIM_VERSION_MINOR * 100 + PIM_VERSION_PATCH)

#define PIM_MAX_TASKS 256u
#define PIM_MAX_MUTEXES 256u

/* How often a recursive mutex may be locked at the same time. */
#define PIM_MAX_COUNT 255u

/* Stands for the task that asks, in pim_cancel, pim_set_base and pim_set_ceiling alone, where no
 * task does: in an interrupt, a shell or the idle thread. */
#define PIM_KERNEL 0u

/* What stands for the owner, the count and the protocol of an unknown mutex, and for what an
 * unknown task waits for. */
#define PIM_UNKNOWN 65535u

/* The most bytes of stack that any call takes, without what memmove, memset and the heap's
 * functions take. */
#define PIM_STACK 640u

/* The most bytes that a manager takes from heap/static.c or heap/given.c, where the memory is
 * aligned to 16. */
#define PIM_MEMORY(tasks, mutexes) PIM_MEMORY_((tasks), (mutexes))
#define PIM_MEMORY_(n, m)                                                                          \
    (912u + 16u * (2u * PIM_UNITS_(2u * (n)) + PIM_UNITS_(2u * PIM_GROWN_(n)) +                    \
                   PIM_UNITS_(72u * ((n) < 4u ? 4u : (n))) + 2u * PIM_UNITS_(4u * (m)) +           \
                   PIM_UNITS_(4u * PIM_GROWN_(m)) + PIM_UNITS_(1u * (m)) + 2u * (m) +              \
                   PIM_WAITERS_(n, m)))
/* The room of a list that grew to n items: pim_make reads the bases and the protocols into such. */
#define PIM_GROWN_(n)                                                                              \
    ((n) < 5u ? 4u : (n) < 9u ? 8u : (n) < 17u ? 16u : (n) < 33u ? 32u : (n) < 65u ? 64u :         \
     (n) < 129u ? 128u : 256u)
#define PIM_UNITS_(bytes) (((bytes) + 15u) / 16u)

/* For how many waiters there is room: in the queue of the mutex k for tasks / k of them, but for
 * tasks / 32 at least, and in those behind the queue number `tasks` for none. */
#define PIM_WAITERS_(n, m) (1u * (n) * (m) < PIM_MOST_(n) ? 1u * (n) * (m) : PIM_MOST_(n))
#define PIM_MOST_(n)                                                                               \
    (PIM_SUM_(n) + PIM_MORE_(n, 2u) + PIM_MORE_(n, 3u) + PIM_MORE_(n, 4u) + PIM_MORE_(n, 5u) +     \
     PIM_MORE_(n, 6u) + PIM_MORE_(n, 7u) + PIM_MORE_(n, 8u))
/* How many queues have room for j only because that is tasks / 32. */
#define PIM_MORE_(n, j) ((n) < 32u * (j) ? 0u : (n) - (n) / (j))
/* The sum of n / k for all k up to n: each point under the hyperbola is counted at one of its
 * coordinates up to the root of n, which is 16 at most. */
#define PIM_SUM_(n)                                                                                \
    (PIM_AT_(n, 1u) + PIM_AT_(n, 2u) + PIM_AT_(n, 3u) + PIM_AT_(n, 4u) + PIM_AT_(n, 5u) +          \
     PIM_AT_(n, 6u) + PIM_AT_(n, 7u) + PIM_AT_(n, 8u) + PIM_AT_(n, 9u) + PIM_AT_(n, 10u) +         \
     PIM_AT_(n, 11u) + PIM_AT_(n, 12u) + PIM_AT_(n, 13u) + PIM_AT_(n, 14u) + PIM_AT_(n, 15u) +     \
     PIM_AT_(n, 16u))
#define PIM_AT_(n, k) ((n) < (k) * (k) ? 0u : 2u * ((n) / (k)) + 1u - 2u * (k))

/* ---- the handle ------------------------------------------------------------------------------ */

/* A manager, if one was made. */
#ifndef PIM_32_BITS
struct pim_handle {
    void *at;
};

#define PIM_HANDLE_INIT { NULL }
#else
/* A pointer has 8 bytes in libpim's memory. */
struct pim_handle {
    void *at __attribute__((aligned(8)));
    uint32_t above;
};

#define PIM_HANDLE_INIT { NULL, 0 }
#endif

/* ---- numbers --------------------------------------------------------------------------------- */

/* Each set is an enumeration of its own, so that compilers warn if names of two sets are compared.
 * Faults begin with PIM_FAULT_, refusals with PIM_REFUSED_, reasons with PIM_OF_. */

/* How owning a mutex affects its owner's priority. */
enum pim_protocol_kind {
    PIM_NONE = 0,             /* not at all */
    PIM_INHERIT = 1,          /* the owner executes at least at the priority of each waiter */
    PIM_PROTECT = 2,          /* the owner executes at least at the mutex's ceiling */
    PIM_INHERIT_RECURSIVE = 3 /* as PIM_INHERIT; and the owner may lock the mutex again */
};

/* What pim_make returns: the first of these that holds. */
enum pim_fault {
    PIM_MADE = 0,
    PIM_FAULT_OCCUPIED = 1,         /* the handle has a manager already */
    PIM_FAULT_TOO_MANY_TASKS = 2,   /* more than PIM_MAX_TASKS */
    PIM_FAULT_TOO_MANY_MUTEXES = 3, /* more than PIM_MAX_MUTEXES */
    PIM_FAULT_BAD_BASE = 4,         /* a base priority isn't 1 to 99 */
    PIM_FAULT_BAD_PROTOCOL = 5,     /* a kind is unknown,
                                     * or the ceiling of a PROTECT mutex isn't 1 to 99 */
    PIM_FAULT_NO_MEMORY = 6         /* out of memory: nothing was made, and nothing is kept */
};

/* What a step is answered. */
enum pim_reply {
    PIM_NO_MANAGER = 0, /* the handle has none */
    PIM_GRANTED = 1,    /* the task owns the mutex */
    PIM_QUEUED = 2,     /* the task waits for the mutex: it is to block */
    PIM_FREED = 3,      /* the mutex had no waiter, and is free */
    PIM_HANDED = 4,     /* task `number` was the first waiter, and owns the mutex:
                         * it is to run on */
    PIM_RELEASED = 5,   /* `number` mutexes were unlocked; the tasks of pim_handed are to run on */
    PIM_WITHDRAWN = 6,  /* the target waits no more: it is to run on, without the mutex */
    PIM_SET = 7,        /* the target has the new base priority,
                         * or the mutex the new ceiling or protocol */
    PIM_REFUSED = 8,    /* tasks and mutexes are as they were; `refusal` says why */
    PIM_KEPT = 9        /* the task locked the mutex more often, and owns it still */
};

/* Why a step is refused: the first of its tests that fails. In brackets the error that POSIX has
 * for the call: pim_errno of pim_errno.h returns it, and pim_names.h has names as text. */
enum pim_refusal {
    PIM_REFUSED_NO_TASK = 1,      /* the task or the target is unknown (ESRCH) */
    PIM_REFUSED_WAITING = 2,      /* the task waits, and the step isn't the withdrawal of itself */
    PIM_REFUSED_NO_MUTEX = 3,     /* the mutex is unknown (EINVAL) */
    PIM_REFUSED_DEADLOCK = 4,     /* the request would close a cycle of waits, its own mutex
                                   * included, unless that is recursive (EDEADLK) */
    PIM_REFUSED_CEILING = 5,      /* the task's base priority is above the ceiling of a PROTECT
                                   * mutex (EINVAL) */
    PIM_REFUSED_BUSY = 6,         /* a try on an owned mutex, its own recursive one excepted
                                   * (EBUSY); a new ceiling of one that another owns; a new protocol
                                   * of an owned one, or its adoption */
    PIM_REFUSED_NOT_OWNER = 7,    /* the task doesn't own the mutex (EPERM) */
    PIM_REFUSED_NOT_WAITING = 8,  /* the target of a cancel doesn't wait */
    PIM_REFUSED_PRIORITY = 9,     /* the new base priority or the new ceiling isn't 1 to 99
                                   * (EINVAL) */
    PIM_REFUSED_TICKETS = 10,     /* 2^64 - 2 waits were queued (EAGAIN) */
    PIM_REFUSED_NOT_PROTECT = 11, /* a new ceiling of a mutex that isn't a PROTECT one (EINVAL) */
    PIM_REFUSED_AGAIN = 12,       /* the task has locked the recursive mutex PIM_MAX_COUNT times
                                   * (EAGAIN) */
    PIM_REFUSED_NO_PROTOCOL = 13, /* the kind of a new protocol is unknown,
                                   * or its ceiling isn't 1 to 99 (EINVAL) */
    PIM_REFUSED_PROTECT = 14      /* a PROTECT mutex is to be adopted */
};

/* Why a task has its effective priority: the first of these that gives it. */
enum pim_reason_kind {
    PIM_OF_NOTHING = 0, /* the task is unknown */
    PIM_OF_BASE = 1,    /* it is its base priority */
    PIM_OF_CEILING = 2, /* it is the ceiling of `mutex`,
                         * the least such PROTECT mutex that it owns */
    PIM_OF_WAITER = 3   /* `task` waits at it, first in the queue of `mutex`,
                         * the least such INHERIT mutex */
};

/* ---- what is passed -------------------------------------------------------------------------- */

struct pim_protocol {
    uint16_t kind;    /* PIM_NONE .. PIM_INHERIT_RECURSIVE */
    uint16_t ceiling; /* of a PROTECT mutex, 1 to 99; of the others pim_make doesn't read it, and
                       * pim_mutex_protocol returns 0 */
};

struct pim_answer {
    uint8_t kind;    /* PIM_NO_MANAGER .. PIM_KEPT */
    uint8_t refusal; /* PIM_REFUSED_NO_TASK .. PIM_REFUSED_PROTECT, or 0 */
    uint16_t number; /* the task that was handed the mutex, or how many mutexes were released,
                      * or 0 */
    uint16_t visits; /* how many priorities the step computed */
    uint16_t changed; /* how many tasks have another effective priority then:
                       * 0 where `visits` is 0 */
};

struct pim_reason {
    uint16_t kind;  /* PIM_OF_NOTHING .. PIM_OF_WAITER */
    uint16_t task;  /* the task that waits, or 0 */
    uint16_t mutex; /* the mutex, or 0 */
};

/* A task in the queue of a mutex. */
struct pim_waiter {
    uint16_t task;
    uint16_t prio;   /* its effective priority */
    uint64_t ticket; /* of two with the same priority the smaller is first */
};

/* A task whose effective priority a step changed. */
struct pim_changed_task {
    uint16_t task;
    uint16_t prio; /* its effective priority after the step */
    struct pim_reason reason;
};

/* The same without the reason. */
struct pim_changed_prio {
    uint16_t task;
    uint16_t prio; /* its effective priority after the step */
};

/* A mutex that a step handed to a waiter. */
struct pim_handed {
    uint16_t mutex;
    uint16_t task; /* its new owner */
};

/* Returns the PIM_VERSION_NUMBER of the library:
 * libpim.so may be another version than this file. */
uint32_t pim_version(void);

/* ---- making and dropping --------------------------------------------------------------------- */

/* Makes a manager of tasks with these base priorities, which are known as 1, 2, .., and of mutexes
 * with these protocols, likewise. All mutexes are free, nobody waits, and the next ticket is 1.
 * Returns PIM_MADE, or why it made none, and then the handle is as it was. */
uint32_t pim_make(struct pim_handle *h, const uint16_t *bases, uint64_t tasks,
                  const struct pim_protocol *protocols, uint64_t mutexes);

/* Drops the manager, if there is one, and gives its memory back. The handle is then PIM_HANDLE_INIT
 * again. */
void pim_drop(struct pim_handle *h);

/* ---- steps ----------------------------------------------------------------------------------- */

#ifndef PIM_32_BITS
/* What refuses a step is listed in the order of its tests, without PIM_REFUSED_. */

/* pthread_mutex_lock: the task owns the mutex if it is free, or recursive and its own already
 * (PIM_GRANTED), else waits for it (PIM_QUEUED). Refused: NO_TASK, WAITING, NO_MUTEX, AGAIN,
 * DEADLOCK, CEILING, TICKETS. */
struct pim_answer pim_lock(struct pim_handle *h, uint16_t task, uint16_t mutex);

/* pthread_mutex_trylock: the task owns the mutex if it is free, or recursive and its own already
 * (PIM_GRANTED). Refused: NO_TASK, WAITING, NO_MUTEX, AGAIN, CEILING, BUSY. */
struct pim_answer pim_try(struct pim_handle *h, uint16_t task, uint16_t mutex);

/* pthread_mutex_unlock: the mutex goes to the first of its queue (PIM_HANDED), or is free
 * (PIM_FREED); or it was locked more often, and is the task's still (PIM_KEPT). Refused: NO_TASK,
 * WAITING, NO_MUTEX, NOT_OWNER. */
struct pim_answer pim_unlock(struct pim_handle *h, uint16_t task, uint16_t mutex);

/* Unlocks all mutexes of the task in ascending order (PIM_RELEASED), as where a thread ends, each
 * wholly, however often it was locked. Refused: NO_TASK, WAITING. */
struct pim_answer pim_release_all(struct pim_handle *h, uint16_t task);

/* The next three may also be asked for by the kernel itself, with PIM_KERNEL as the task. It is
 * answered as a task is that doesn't wait and owns no mutex: never NO_TASK for itself, nor
 * WAITING. */

/* Withdraws the target, which waits, from its queue (PIM_WITHDRAWN), as where a time is out or a
 * thread is cancelled. Any task may ask that does not wait, and the target itself. Refused:
 * NO_TASK, WAITING, NOT_WAITING. */
struct pim_answer pim_cancel(struct pim_handle *h, uint16_t task, uint16_t target);

/* pthread_setschedprio: sets the base priority of the target (PIM_SET). Refused: NO_TASK, WAITING,
 * PRIORITY. */
struct pim_answer pim_set_base(struct pim_handle *h, uint16_t task, uint16_t target, uint16_t prio);

/* pthread_mutex_setprioceiling: sets the ceiling of the PROTECT mutex (PIM_SET). Unlike that call
 * it locks nothing: the mutex is free, or the task that asks owns it, and then executes at the new
 * ceiling at once. No base priority is compared, the owner's neither, so a ceiling may be below it.
 * Refused: NO_TASK, WAITING, NO_MUTEX, NOT_PROTECT, PRIORITY, BUSY. */
struct pim_answer pim_set_ceiling(struct pim_handle *h, uint16_t task, uint16_t mutex, uint16_t ceiling);

/* ---- changes that are no steps --------------------------------------------------------------- */

/* pthread_mutex_destroy and pthread_mutex_init: gives a free mutex another protocol (PIM_SET), so
 * that its number can be lent to another mutex. The ceiling is read where the kind is PIM_PROTECT.
 * No priority changes, pim_changed lists no task and pim_handed no mutex then. A trace has no line
 * for it. Refused: NO_PROTOCOL, NO_MUTEX, BUSY. */
struct pim_answer pim_set_protocol(struct pim_handle *h, uint16_t mutex, uint16_t kind, uint16_t ceiling);

/* Makes the task the owner of a free NONE or INHERIT mutex (PIM_GRANTED), also where the task
 * waits: as where a lock that nobody contends is taken without a call, and its owner is told here
 * once somebody comes to wait. No priority and no queue changes, and pim_changed lists no task
 * then. A recursive mutex counts 1. A trace has no line for it. Refused: NO_TASK, NO_MUTEX,
 * PROTECT, BUSY. */
struct pim_answer pim_adopt(struct pim_handle *h, uint16_t task, uint16_t mutex);
#endif

/* ---- what the last step changed -------------------------------------------------------------- */

/* Copies the tasks whose effective priority the last step changed, in ascending order, at most
 * `room` of them, and returns how many there are. They are the tasks that a scheduler has to queue
 * anew: all of them, and no others. None where no step was made yet, where the last one was
 * refused, and where pim_set_protocol was answered PIM_SET since, or pim_adopt PIM_GRANTED. The
 * answer's `changed` is how many there are: 0 where `visits` is 0. */
uint64_t pim_changed(const struct pim_handle *h, struct pim_changed_task *to, uint64_t room);

/* Copies the tasks of pim_changed, in the same order, without the reasons, at most `room` of them,
 * and returns how many there are. It reads no mutex. */
uint64_t pim_changed_prios(const struct pim_handle *h, struct pim_changed_prio *to, uint64_t room);

/* Copies the mutexes that the last step handed to waiters, in ascending order, with their new
 * owners, at most `room` of them, and returns how many there are. Each of these tasks is to run on:
 * after PIM_RELEASED as after PIM_HANDED. None where no step was made yet, where the last one
 * handed none over, and where pim_set_protocol was answered PIM_SET since, or pim_adopt
 * PIM_GRANTED. */
uint64_t pim_handed(const struct pim_handle *h, struct pim_handed *to, uint64_t room);

/* ---- what stands ----------------------------------------------------------------------------- */

/* Without a manager no task and no mutex is known. A function that takes a const handle writes
 * neither to the handle nor to its manager. */

/* Copies those who wait for the mutex, the next owner first, at most `room` of them, and returns
 * how many there are. */
uint64_t pim_waiters(const struct pim_handle *h, uint16_t mutex, struct pim_waiter *to, uint64_t room);

/* Return how many tasks and mutexes there are, 0 without a manager. */
uint16_t pim_task_count(const struct pim_handle *h);
uint16_t pim_mutex_count(const struct pim_handle *h);

/* Returns the ticket that the next waiter gets, from 1 on; 0 without a manager. */
uint64_t pim_next_ticket(const struct pim_handle *h);

/* Returns the priority at which the task is to execute, 0 for an unknown one. */
uint16_t pim_effective_prio(const struct pim_handle *h, uint16_t task);

/* Returns the base priority of the task, 0 for an unknown one. */
uint16_t pim_base_prio(const struct pim_handle *h, uint16_t task);

/* Returns the mutex that the task waits for, 0 where it waits for none, PIM_UNKNOWN for an unknown
 * task. */
uint16_t pim_waits_for(const struct pim_handle *h, uint16_t task);

/* Returns the owner of the mutex, 0 where it is free, PIM_UNKNOWN for an unknown mutex. */
uint16_t pim_owner(const struct pim_handle *h, uint16_t mutex);

/* Returns how often the owner of the mutex has locked it, 0 where it is free, PIM_UNKNOWN for an
 * unknown mutex. It is above 1 of a recursive mutex alone. */
uint16_t pim_lock_count(const struct pim_handle *h, uint16_t mutex);

#ifndef PIM_32_BITS
/* Returns why the task has its effective priority. */
struct pim_reason pim_task_reason(const struct pim_handle *h, uint16_t task);

/* Returns the protocol of the mutex; its kind is PIM_UNKNOWN for an unknown mutex. The ceiling is 0
 * unless the mutex is a PROTECT one. */
struct pim_protocol pim_mutex_protocol(const struct pim_handle *h, uint16_t mutex);
#endif

/* ---- 32 bits --------------------------------------------------------------------------------- */

/* How a small struct is returned differs between CPUs of 32 bits, and a pointer is passed in one
 * way. So libpim has functions for them that write the struct to `to`, and those above are made of
 * these. */
#ifdef PIM_32_BITS
void pim_lock_to(struct pim_handle *h, uint16_t task, uint16_t mutex, struct pim_answer *to);
void pim_try_to(struct pim_handle *h, uint16_t task, uint16_t mutex, struct pim_answer *to);
void pim_unlock_to(struct pim_handle *h, uint16_t task, uint16_t mutex, struct pim_answer *to);
void pim_release_all_to(struct pim_handle *h, uint16_t task, struct pim_answer *to);
void pim_cancel_to(struct pim_handle *h, uint16_t task, uint16_t target, struct pim_answer *to);
void pim_set_base_to(struct pim_handle *h, uint16_t task, uint16_t target, uint16_t prio,
                     struct pim_answer *to);
void pim_set_ceiling_to(struct pim_handle *h, uint16_t task, uint16_t mutex, uint16_t ceiling,
                        struct pim_answer *to);
void pim_set_protocol_to(struct pim_handle *h, uint16_t mutex, uint16_t kind, uint16_t ceiling,
                         struct pim_answer *to);
void pim_adopt_to(struct pim_handle *h, uint16_t task, uint16_t mutex, struct pim_answer *to);
void pim_task_reason_to(const struct pim_handle *h, uint16_t task, struct pim_reason *to);
void pim_mutex_protocol_to(const struct pim_handle *h, uint16_t mutex, struct pim_protocol *to);

static inline struct pim_answer pim_lock(struct pim_handle *h, uint16_t task, uint16_t mutex) {
    struct pim_answer to;
    pim_lock_to(h, task, mutex, &to);
    return to;
}

static inline struct pim_answer pim_try(struct pim_handle *h, uint16_t task, uint16_t mutex) {
    struct pim_answer to;
    pim_try_to(h, task, mutex, &to);
    return to;
}

static inline struct pim_answer pim_unlock(struct pim_handle *h, uint16_t task, uint16_t mutex) {
    struct pim_answer to;
    pim_unlock_to(h, task, mutex, &to);
    return to;
}

static inline struct pim_answer pim_release_all(struct pim_handle *h, uint16_t task) {
    struct pim_answer to;
    pim_release_all_to(h, task, &to);
    return to;
}

static inline struct pim_answer pim_cancel(struct pim_handle *h, uint16_t task, uint16_t target) {
    struct pim_answer to;
    pim_cancel_to(h, task, target, &to);
    return to;
}

static inline struct pim_answer pim_set_base(struct pim_handle *h, uint16_t task, uint16_t target,
                                             uint16_t prio) {
    struct pim_answer to;
    pim_set_base_to(h, task, target, prio, &to);
    return to;
}

static inline struct pim_answer pim_set_ceiling(struct pim_handle *h, uint16_t task, uint16_t mutex,
                                                uint16_t ceiling) {
    struct pim_answer to;
    pim_set_ceiling_to(h, task, mutex, ceiling, &to);
    return to;
}

static inline struct pim_answer pim_set_protocol(struct pim_handle *h, uint16_t mutex, uint16_t kind,
                                                 uint16_t ceiling) {
    struct pim_answer to;
    pim_set_protocol_to(h, mutex, kind, ceiling, &to);
    return to;
}

static inline struct pim_answer pim_adopt(struct pim_handle *h, uint16_t task, uint16_t mutex) {
    struct pim_answer to;
    pim_adopt_to(h, task, mutex, &to);
    return to;
}

static inline struct pim_reason pim_task_reason(const struct pim_handle *h, uint16_t task) {
    struct pim_reason to;
    pim_task_reason_to(h, task, &to);
    return to;
}

static inline struct pim_protocol pim_mutex_protocol(const struct pim_handle *h, uint16_t mutex) {
    struct pim_protocol to;
    pim_mutex_protocol_to(h, mutex, &to);
    return to;
}
#endif

/* ---- that this file fits libpim -------------------------------------------------------------- */

#if defined(__cplusplus) && __cplusplus >= 201103L
#define PIM_ASSERT(holds, text) static_assert(holds, text)
#elif defined(__STDC_VERSION__) && __STDC_VERSION__ >= 201112L
#define PIM_ASSERT(holds, text) _Static_assert(holds, text)
#else
/* C99 and C++98: an array of -1 items is an error. */
#define PIM_ASSERT(holds, text) extern char pim_fits_libpim[(holds) ? 1 : -1]
#endif
#ifndef PIM_32_BITS
PIM_ASSERT(sizeof(size_t) == 8 && sizeof(void *) == 8, "libpim is built for 64 bits");
#endif
PIM_ASSERT(sizeof(struct pim_handle) == 8, "struct pim_handle");
PIM_ASSERT(sizeof(struct pim_protocol) == 4, "struct pim_protocol");
PIM_ASSERT(sizeof(struct pim_answer) == 8 && offsetof(struct pim_answer, changed) == 6, "struct pim_answer");
PIM_ASSERT(sizeof(struct pim_reason) == 6, "struct pim_reason");
PIM_ASSERT(sizeof(struct pim_waiter) == 16 && offsetof(struct pim_waiter, ticket) == 8, "struct pim_waiter");
PIM_ASSERT(sizeof(struct pim_changed_task) == 10 && offsetof(struct pim_changed_task, reason) == 4, "struct pim_changed_task");
PIM_ASSERT(sizeof(struct pim_changed_prio) == 4, "struct pim_changed_prio");
PIM_ASSERT(sizeof(struct pim_handed) == 4, "struct pim_handed");
#undef PIM_ASSERT

#ifdef __cplusplus
}
#endif
#endif
