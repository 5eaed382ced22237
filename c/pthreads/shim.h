/* shim.h - what the files of this folder share. README.md says how the library is used.
 *
 * libpim knows threads and mutexes by numbers from 1 to 256. A thread is lent a number from its
 * first call until it ends. A mutex is lent one while libpim has to know its owner: mutexes.c. */
#ifndef PIM_PTHREADS_SHIM_H
#define PIM_PTHREADS_SHIM_H

#define _GNU_SOURCE
#include <dlfcn.h>
#include <errno.h>
#include <pim.h>
#include <pthread.h>
#include <stdatomic.h>
#include <stdbool.h>

enum { TASKS = 256, MUTEXES = 256, FAST = 16 };

/* glibc's bits of a mutex's kind: its type in the lower ones, and then what it is. A robust mutex is
 * SHARED, too. */
enum { TYPE = 3, INHERIT = 32, PROTECT = 64, SHARED = 128 };

/* The owner of a mutex: 0 or a thread's number, with KNOWN if libpim knows it. Or GONE: the owner
 * ended without unlocking it, so nobody owns it ever again. */
enum { KNOWN = 1 << 16, GONE = 1 << 17 };

/* What the memory of a pthread_mutex_t has here. The initializers of glibc set kind alone. */
struct mutex {
    _Atomic uint32_t owner;
    uint32_t relocks;  /* how often the owner locked a recursive mutex after its first lock */
    uint16_t number;   /* libpim's, while it is lent */
    _Atomic uint32_t sleepers; /* threads that wait at a condition variable with this mutex */
    int kind;
    uint16_t ceiling;
};

struct level { int policy, prio; };

struct thread {
    uint16_t number;
    pid_t id; /* of the kernel; 0 if the thread has ended */
    pthread_t self;
    struct level own, set;      /* set: what was last set in the kernel */
    _Atomic uint32_t is_woken;  /* a futex: 0 while the thread is blocked */
    int result;                 /* with what it was woken */
    struct mutex *fast[FAST];   /* what it locked without libpim, and has not unlocked since */
    int fast_count;
    const pthread_cond_t *condition; /* where it sleeps until a signal, or NULL */
    struct mutex *mutex;             /* that it locks again then */
    uint32_t relocks;                /* of this mutex */
    uint64_t ticket;                 /* of two with the same priority the smaller is woken first */
};

#define EXPORTED __attribute__((visibility("default")))
#define OWN _Thread_local __attribute__((tls_model("initial-exec")))

extern struct pim_handle locks;
extern struct thread threads[TASKS + 1];
extern OWN struct thread *me; /* NULL until the caller is lent a number */

/* glibc's own function: for robust and process-shared mutexes, and threads without a number. */
#define GLIBC(name) __extension__({ \
    static _Atomic(__typeof__(&name)) found; \
    if (found == NULL) found = (__typeof__(&name))(uintptr_t)dlsym(RTLD_NEXT, #name); \
    found; })

/* guard.c: the lock around each call of libpim and all that its answer asks for, and blocking. */
void enter(void);
void leave(void);
void leave_in_child(void); /* of fork */
pid_t own_id(void);
void wake(struct thread *thread, int result);
int error_of_time(const struct timespec *until);
int block(clockid_t clock, const struct timespec *until);

/* threads.c, within the guard */
struct thread *caller(void); /* NULL if no number is left */
void apply_changes(void);

/* mutexes.c */
bool disown_fast(struct mutex *mutex);

/* mutexes.c, within the guard */
int request(struct mutex *mutex, struct thread *thread, bool may_wait);
void release(struct mutex *mutex, struct thread *thread);
bool release_gone(struct thread *thread);

/* Whether glibc has the mutex: one that is robust or process-shared. */
static inline bool is_glibc(const pthread_mutex_t *mutex) {
    return (((const struct mutex *)mutex)->kind & SHARED) != 0;
}

static inline bool is_owner(const struct mutex *mutex, const struct thread *thread) {
    uint32_t owner = atomic_load_explicit(&mutex->owner, memory_order_relaxed);
    return thread != NULL && (owner & ~KNOWN) == thread->number;
}

#endif
