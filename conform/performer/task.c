#define _GNU_SOURCE
#include "task.h"

#include <errno.h>
#include <fcntl.h>
#include <linux/futex.h>
#include <stdlib.h>
#include <string.h>
#include <sys/prctl.h>
#include <sys/syscall.h>
#include <unistd.h>

enum { STACK_BYTES = 256 * 1024, FILE_BYTES = 16384, STATE_FIELD = 3, PRIORITY_FIELD = 18 };

struct task tasks[MAX_TASKS + 1];
struct mutex mutexes[MAX_MUTEXES + 1];
int task_count, mutex_count;
static __thread struct task *self;

/* ---- what a task's thread does ---- */

void task_withdraw(struct task *task) {
    /* glibc gives the kernel the address of the caller's timespec. Both the kernel's restart
     * (INHERIT) and glibc's loop (the others) read it again after a signal: so the lock ends in
     * the ordinary way, by ETIMEDOUT. */
    task->deadline.tv_sec = 1;
    atomic_thread_fence(memory_order_seq_cst);
    pthread_kill(task->thread, SIGUSR1);
}

/* A cycle through INHERIT mutexes: the kernel answers EDEADLK, at which glibc's lock of an
 * error-checking mutex fails an assertion. The assertion's abort is caught here. */
static int lock(struct task *me, pthread_mutex_t *real) {
    if (sigsetjmp(me->escape, 1)) {
        me->may_escape = 0;
        return EDEADLK;
    }
    me->may_escape = 1;
    int answer = me->is_timed ? pthread_mutex_timedlock(real, &me->deadline)
                              : pthread_mutex_lock(real);
    me->may_escape = 0;
    return answer;
}

static void on_abort(int number) {
    (void)number;
    if (self && self->may_escape) siglongjmp(self->escape, 1);
    signal(SIGABRT, SIG_DFL);
}

static void on_withdrawal(int number) { (void)number; }

/* Counts a lock that was granted. */
static int got(struct task *me, struct mutex *mutex, int answer) {
    if (answer != 0) return answer;
    mutex->owner = me->number;
    mutex->count++;
    return 0;
}

/* The owner is changed before the call, as a waiter of higher priority runs within it. */
static int unlock(struct task *me, struct mutex *mutex) {
    int owner = mutex->owner, count = mutex->count;
    if (owner == me->number) {
        me->is_kept = count > 1;
        mutex->count--;
        mutex->owner = me->is_kept ? owner : 0;
    }
    int answer = pthread_mutex_unlock(&mutex->real);
    if (answer != 0) mutex->owner = owner, mutex->count = count;
    return answer;
}

static int release(struct task *me) {
    int answer = 0;
    me->unlocked = 0;
    for (int m = 1; m <= mutex_count && answer == 0; m++) {
        if (mutexes[m].owner != me->number) continue;
        me->unlocked++;
        while (mutexes[m].owner == me->number && answer == 0) answer = unlock(me, &mutexes[m]);
    }
    return answer;
}

static int set_base(struct task *target, int priority) {
    struct sched_param parameters = { .sched_priority = priority };
    return pthread_setschedparam(target->thread, SCHED_FIFO, &parameters);
}

static int perform(struct task *me, const struct step *step) {
    struct mutex *mutex = &mutexes[step->first <= mutex_count ? step->first : 0];
    int ceiling_before;
    me->is_kept = false;
    switch (step->request) {
    case LOCK: return got(me, mutex, lock(me, &mutex->real));
    case TRY: return got(me, mutex, pthread_mutex_trylock(&mutex->real));
    case UNLOCK: return unlock(me, mutex);
    case RELEASE: return release(me);
    case BASE: return set_base(&tasks[step->first], step->second);
    case CEIL: return pthread_mutex_setprioceiling(&mutex->real, step->second, &ceiling_before);
    case CANCEL: task_withdraw(&tasks[step->first]);
    }
    return 0;
}

static void *thread_main(void *argument) {
    struct task *me = self = argument;
    char name[16];
    snprintf(name, sizeof name, "task %d", me->number);
    prctl(PR_SET_NAME, name);
    atomic_store(&me->tid, (int)syscall(SYS_gettid));
    for (unsigned done = 0;;) {
        while (atomic_load(&me->turn) == done)
            syscall(SYS_futex, &me->turn, FUTEX_WAIT_PRIVATE, done, NULL, NULL, 0);
        me->answer = perform(me, me->step);
        atomic_store(&me->done, ++done);
    }
    return NULL;
}

/* ---- what the controller does with it ---- */

bool task_is_busy(struct task *task) {
    return atomic_load(&task->turn) != atomic_load(&task->done);
}

void task_give(struct task *task, const struct step *step, bool is_timed) {
    task->step = step;
    task->is_timed = is_timed;
    task->deadline = (struct timespec){ .tv_sec = 4102444800 }; /* the year 2100 */
    if (step->request == LOCK) task->waits = step->first;
    atomic_fetch_add(&task->turn, 1);
    syscall(SYS_futex, &task->turn, FUTEX_WAKE_PRIVATE, 1, NULL, NULL, 0);
}

_Noreturn static void unreadable(const struct task *task) {
    stop(FAULT, "the kernel's line on task %d can't be read", task->number);
}

static void read_file(const struct task *task, int file, char text[FILE_BYTES]) {
    ssize_t size = pread(file, text, FILE_BYTES - 1, 0);
    if (size <= 0) stop(FAULT, "the kernel says nothing of task %d", task->number);
    text[size] = '\0';
}

char task_read(struct task *task, int *priority) {
    char text[FILE_BYTES];
    read_file(task, task->stat, text);
    char *rest = strrchr(text, ')');
    if (!rest) unreadable(task);
    char state = *(rest += 2);
    for (int field = STATE_FIELD; field < PRIORITY_FIELD && rest; field++)
        if ((rest = strchr(rest, ' '))) rest++;
    if (!rest) unreadable(task);
    *priority = -1 - atoi(rest);
    return state;
}

unsigned long task_switches(struct task *task) {
    static const char own[] = "\nvoluntary_ctxt_switches:";
    static const char forced[] = "\nnonvoluntary_ctxt_switches:";
    char text[FILE_BYTES];
    read_file(task, task->status, text);
    const char *one = strstr(text, own), *other = strstr(text, forced);
    if (!one || !other) unreadable(task);
    return strtoul(one + strlen(own), NULL, 10) + strtoul(other + strlen(forced), NULL, 10);
}

/* ---- the start ---- */

static void must(int answer, const char *what) {
    if (answer != 0) stop(FAULT, "%s: %s", what, strerror(answer));
}

/* A PROTECT mutex whose owner may set its ceiling is recursive: glibc refuses that of others. */
static void start_mutex(struct mutex *mutex) {
    static const int protocols[] = { PTHREAD_PRIO_NONE, PTHREAD_PRIO_INHERIT,
                                     PTHREAD_PRIO_PROTECT };
    const struct declared *declared = &mutex->declared;
    bool is_recursive = declared->is_recursive || declared->has_ceil;
    pthread_mutexattr_t attributes;
    pthread_mutexattr_init(&attributes);
    must(pthread_mutexattr_settype(&attributes, is_recursive ? PTHREAD_MUTEX_RECURSIVE
                                                             : PTHREAD_MUTEX_ERRORCHECK), "type");
    must(pthread_mutexattr_setprotocol(&attributes, protocols[declared->protocol]), "protocol");
    if (declared->protocol == PROTECT)
        must(pthread_mutexattr_setprioceiling(&attributes, declared->ceiling), "ceiling");
    must(pthread_mutex_init(&mutex->real, &attributes), "mutex");
}

static int opened(const struct task *task, const char *file) {
    char path[60];
    snprintf(path, sizeof path, "/proc/self/task/%d/%s", atomic_load(&task->tid), file);
    int number = open(path, O_RDONLY | O_CLOEXEC);
    if (number < 0) stop(FAULT, "%s: %s", path, strerror(errno));
    return number;
}

static void start_thread(struct task *task, int base, const cpu_set_t *cpus) {
    struct sched_param parameters = { .sched_priority = base };
    struct timespec nap = { .tv_nsec = 20000 };
    pthread_attr_t attributes;
    pthread_attr_init(&attributes);
    must(pthread_attr_setstacksize(&attributes, STACK_BYTES), "stack");
    must(pthread_attr_setinheritsched(&attributes, PTHREAD_EXPLICIT_SCHED), "thread");
    must(pthread_attr_setschedpolicy(&attributes, SCHED_FIFO), "policy");
    must(pthread_attr_setschedparam(&attributes, &parameters), "priority");
    must(pthread_attr_setaffinity_np(&attributes, sizeof *cpus, cpus), "CPU");
    must(pthread_create(&task->thread, &attributes, thread_main, task), "thread");
    while (atomic_load(&task->tid) == 0) nanosleep(&nap, NULL);
    task->stat = opened(task, "stat");
    task->status = opened(task, "status");
}

void tasks_start(const struct text *text, const cpu_set_t *cpus) {
    struct sigaction action = { .sa_handler = on_withdrawal };
    sigaction(SIGUSR1, &action, NULL);
    action.sa_handler = on_abort;
    sigaction(SIGABRT, &action, NULL);
    task_count = text->tasks, mutex_count = text->mutexes;
    for (int m = 1; m <= mutex_count; m++) {
        mutexes[m].declared = text->mutex[m];
        start_mutex(&mutexes[m]);
    }
    for (int t = 1; t <= task_count; t++) {
        tasks[t].number = t;
        tasks[t].shown = text->base[t];
        start_thread(&tasks[t], text->base[t], cpus);
    }
}
