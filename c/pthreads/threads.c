/* Threads: the numbers that they are lent, their priorities, and fork. */
#include "shim.h"

#include <stdlib.h>

/* The memory of the manager: malloc may be the program's own, and lock a mutex. */
#define PIM_HEAP_BYTES PIM_MEMORY(TASKS, MUTEXES)
#include "../heap/static.c"

struct pim_handle locks = PIM_HANDLE_INIT;
struct thread threads[TASKS + 1];
OWN struct thread *me;
static uint16_t unlent[TASKS], unlent_count;
static pthread_key_t key; /* whose destructor is called as a thread ends */

/* ---- priorities ---- */

/* libpim's priorities begin at 1, which is that of threads without one. */
static uint16_t base_of(int prio) {
    return prio <= 0 ? 1 : (uint16_t)prio;
}

/* Gives a thread its effective priority, if the process may. A boosted thread is a FIFO one. */
static int run_at(struct thread *thread, uint16_t prio) {
    struct level level = thread->own;
    if (prio != base_of(level.prio)) level = (struct level){ level.policy == SCHED_RR ? SCHED_RR : SCHED_FIFO, prio };
    struct sched_param param = { .sched_priority = level.prio };
    if (thread->id == 0 || (level.policy == thread->set.policy && level.prio == thread->set.prio)) return 0;
    if (sched_setscheduler(thread->id, level.policy, &param) != 0) return errno;
    thread->set = level;
    return 0;
}

/* Gives each thread whose effective priority the last step changed its new one, and the caller last:
 * once it has lowered itself, a thread of medium priority may run in its place. So this follows
 * wake. */
void apply_changes(void) {
    struct pim_changed_prio changed[TASKS];
    size_t count = pim_changed_prios(&locks, changed, TASKS);
    for (size_t i = 0; i < count; i++)
        if (&threads[changed[i].task] != me) run_at(&threads[changed[i].task], changed[i].prio);
    if (me != NULL) run_at(me, pim_effective_prio(&locks, me->number));
}

static void set_own(struct thread *thread, struct level level) {
    thread->own = level;
    pim_set_base(&locks, me->number, thread->number, base_of(level.prio));
}

/* Sets a thread's own priority. If it is boosted, the kernel gets it when the boost ends. */
static int set_base(struct thread *thread, int policy, int prio) {
    struct level old = thread->own;
    if (caller() == NULL) return EAGAIN;
    if (prio < sched_get_priority_min(policy) || prio > sched_get_priority_max(policy)) return EINVAL;
    set_own(thread, (struct level){ policy, prio });
    int error = run_at(thread, pim_effective_prio(&locks, thread->number));
    if (error != 0) set_own(thread, old);
    apply_changes();
    return error;
}

static struct thread *thread_of(pthread_t thread) {
    if (pthread_equal(thread, pthread_self())) return caller();
    for (uint16_t n = 1; n <= TASKS; n++)
        if (threads[n].id != 0 && pthread_equal(threads[n].self, thread)) return &threads[n];
    return NULL;
}

EXPORTED int pthread_setschedparam(pthread_t thread, int policy, const struct sched_param *param) {
    enter();
    struct thread *found = thread_of(thread);
    int error = found != NULL ? set_base(found, policy, param->sched_priority) : 0;
    leave();
    return found != NULL ? error : GLIBC(pthread_setschedparam)(thread, policy, param);
}

EXPORTED int pthread_setschedprio(pthread_t thread, int prio) {
    struct sched_param param;
    int policy, error = pthread_getschedparam(thread, &policy, &param);
    param.sched_priority = prio;
    return error != 0 ? error : pthread_setschedparam(thread, policy, &param);
}

/* Returns the thread's own priority, and not that of a boost. */
EXPORTED int pthread_getschedparam(pthread_t thread, int *policy, struct sched_param *param) {
    enter();
    struct thread *found = thread_of(thread);
    if (found != NULL) {
        *policy = found->own.policy;
        param->sched_priority = found->own.prio;
    }
    leave();
    return found != NULL ? 0 : GLIBC(pthread_getschedparam)(thread, policy, param);
}

/* ---- the start, and the end of threads ---- */

/* Takes the number back from a thread that ends, unless others wait for a mutex of its for ever. */
static void end_thread(void *thread) {
    struct thread *self = thread;
    enter();
    bool owns_nothing = release_gone(self);
    self->id = 0;
    if (owns_nothing) unlent[unlent_count++] = self->number;
    me = NULL;
    leave();
}

/* In a child there is one thread. The numbers of the others stay lent: they own what they owned. */
static void in_child(void) {
    leave_in_child();
    for (uint16_t n = 1; n <= TASKS; n++) {
        threads[n].id = &threads[n] == me ? own_id() : 0;
        threads[n].condition = NULL;
        pim_cancel(&locks, n, n);
    }
    apply_changes();
}

/* Other libraries may lock mutexes before a constructor of this one would be called. */
static void start(void) {
    static uint16_t bases[TASKS];
    static const struct pim_protocol protocols[MUTEXES]; /* NONE ones: each gets its own when lent */
    for (uint16_t n = TASKS; n >= 1; n--) {
        bases[n - 1] = 1;
        unlent[unlent_count++] = n;
    }
    if (pim_make(&locks, bases, TASKS, protocols, MUTEXES) != PIM_MADE) abort();
    if (pthread_key_create(&key, end_thread) != 0) abort();
    pthread_atfork(enter, leave, in_child);
}

struct thread *caller(void) {
    struct sched_param param;
    if (pim_task_count(&locks) == 0) start();
    if (me != NULL || unlent_count == 0) return me;
    uint16_t number = unlent[--unlent_count];
    me = &threads[number];
    sched_getparam(0, &param);
    *me = (struct thread){ .number = number, .id = own_id(), .self = pthread_self() };
    me->set = (struct level){ sched_getscheduler(0) & ~SCHED_RESET_ON_FORK, param.sched_priority };
    set_own(me, me->set);
    pthread_setspecific(key, me);
    return me;
}
