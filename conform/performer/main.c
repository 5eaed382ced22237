/* perform [--cpu N] [--seconds N] [--marks FILE] < TEXT: makes the steps of a trace on this
 * machine's threads and POSIX mutexes, one after the other, and prints each answer and each changed
 * priority. pim-conform calls it.
 *
 * Each task is a thread under SCHED_FIFO at its base priority. The controller is one at 99. All are
 * bound to one CPU: while the controller runs, no task does. So what it reads of them in /proc is
 * of one moment, and a step is over when every thread sleeps. */
#define _GNU_SOURCE
#include "task.h"

#include <errno.h>
#include <fcntl.h>
#include <getopt.h>
#include <gnu/libc-version.h>
#include <stdarg.h>
#include <stdlib.h>
#include <string.h>
#include <sys/prctl.h>
#include <sys/resource.h>
#include <sys/utsname.h>
#include <unistd.h>

enum { CONTROLLER_PRIORITY = 99, SHORT_NAPS = 20, SHORT_NAP = 20000, LONG_NAP = 200000 }; /* ns */
enum { REPLY_BYTES = 64, OUTPUT_BYTES = 1 << 16 };

static int notes = STDERR_FILENO, marks = -1;
static struct text text;

_Noreturn void stop(int status, const char *form, ...) {
    va_list rest;
    va_start(rest, form);
    fflush(stdout);
    dprintf(notes, "perform: ");
    vdprintf(notes, form, rest);
    dprintf(notes, "\n");
    va_end(rest);
    _exit(status);
}

/* ---- rest ---- */

static long sleeps_of_controller(void) {
    struct rusage usage;
    getrusage(RUSAGE_THREAD, &usage);
    return usage.ru_nvcsw;
}

/* Sleeps so many nanoseconds. Returns whether it did: a timer that runs out at once gives the CPU
 * to no task. */
static bool nap(long nanoseconds) {
    struct timespec time = { .tv_nsec = nanoseconds };
    long before = sleeps_of_controller();
    clock_nanosleep(CLOCK_MONOTONIC, 0, &time, NULL);
    return sleeps_of_controller() != before;
}

/* Reads the tasks' priorities and how often their threads have left the CPU. Returns whether every
 * thread shows that it sleeps. If the controller slept while it read, what it read may be of two
 * moments. */
static bool look(int priority[], unsigned long *switches) {
    long before = sleeps_of_controller();
    *switches = 0;
    for (int t = 1; t <= task_count; t++) {
        if (task_read(&tasks[t], &priority[t]) != 'S') return false;
        *switches += task_switches(&tasks[t]);
    }
    return sleeps_of_controller() == before;
}

/* Sleeps until every task's thread sleeps. Puts their priorities.
 *
 * A thread that shows state S isn't yet at rest: the kernel sets the state first, then looks once
 * more for a reason to go on, and sleeps at last. If the controller's timer interrupts it in
 * between, it shows S and still has the CPU to wait for. So each must show S twice in a row, the
 * second time after a longer nap, and none may have left the CPU in between: for while the
 * controller sleeps, a thread that can go on gets the CPU. */
static void settle(int priority[]) {
    unsigned long switches, before = 0;
    for (int naps = 0, looks = 0; looks < 2; naps++) {
        bool is_long = looks > 0 || naps >= SHORT_NAPS;
        bool has_napped = nap(is_long ? LONG_NAP : SHORT_NAP);
        if (!look(priority, &switches))
            looks = 0;
        else if (looks == 0 || switches != before)
            looks = 1;
        else if (has_napped)
            looks = 2;
        before = switches;
    }
}

/* ---- one step ---- */

static const char *of_unknown(const struct step *step) {
    bool names_task = step->request == CANCEL || step->request == BASE;
    if (step->actor < 1 || step->actor > task_count) return "refused no-task";
    bool is_own_cancel = step->request == CANCEL && step->first == step->actor;
    if (task_is_busy(&tasks[step->actor]) && !is_own_cancel) return "refused waiting";
    if (names_task && (step->first < 1 || step->first > task_count)) return "refused no-task";
    if (names_task || step->request == RELEASE) return NULL;
    return step->first < 1 || step->first > mutex_count ? "refused no-mutex" : NULL;
}

/* Answers a step for which POSIX has no call: by a task that waits, or that isn't there; a cancel
 * of a task that doesn't wait; a ceiling of another's mutex, which would block. NULL for others. */
static const char *answer_without_call(const struct step *step) {
    const char *unknown = of_unknown(step);
    if (unknown) return unknown;
    if (step->request == CANCEL)
        return task_is_busy(&tasks[step->first]) ? NULL : "refused not-waiting";
    if (step->request == RELEASE || step->request == BASE) return NULL;
    const struct mutex *mutex = &mutexes[step->first];
    bool is_own = mutex->owner == step->actor;
    if (step->request == CEIL && mutex->declared.protocol != PROTECT) return "refused not-protect";
    if (step->request == CEIL && mutex->owner != 0 && !is_own) return "refused busy";
    /* Such a mutex is recursive for the sake of its ceiling alone. */
    if (!mutex->declared.has_ceil || mutex->declared.protocol != PROTECT || !is_own) return NULL;
    if (step->request == LOCK) return "refused deadlock";
    return step->request == TRY ? "refused busy" : NULL;
}

static const char *refusal(const struct step *step, int answer, char room[REPLY_BYTES]) {
    bool sets = step->request == BASE || step->request == CEIL;
    switch (answer) {
    case EDEADLK: return "refused deadlock";
    case EBUSY: return "refused busy";
    case EPERM: return "refused not-owner";
    case ESRCH: return "refused no-task";
    case EAGAIN: return "refused again";
    case EINVAL: return sets ? "refused priority" : "refused ceiling";
    }
    snprintf(room, REPLY_BYTES, "error %s", strerrorname_np(answer));
    return room;
}

/* The waiters whose lock has returned since the step began. */
struct woken {
    int handed, withdrawn;
};

/* Finds them. Prints those that no reply of this step tells. */
static struct woken find_woken(const struct step *step, char *rest, size_t bytes) {
    struct woken found = { 0 };
    *rest = '\0';
    for (int t = 1; t <= task_count; t++) {
        struct task *task = &tasks[t];
        if (!task->waits || task_is_busy(task)) continue;
        if (t == step->actor && step->request == LOCK) continue;
        bool is_handed = step->request == UNLOCK && task->waits == step->first && !found.handed;
        if (task->answer == 0 && is_handed)
            found.handed = t;
        else if (task->answer == ETIMEDOUT && step->request == CANCEL && t == step->first)
            found.withdrawn = t;
        else if (task->answer != 0 || step->request != RELEASE) {
            const char *with = task->answer ? strerrorname_np(task->answer) : "the mutex";
            int length = snprintf(rest, bytes, "  ! task %d left the wait for mutex %d with %s\n",
                                  t, task->waits, with);
            if ((size_t)length < bytes) rest += length, bytes -= (size_t)length;
        }
        task->waits = 0;
    }
    return found;
}

static const char *reply_of(const struct step *step, struct woken woken, char room[REPLY_BYTES]) {
    struct task *actor = &tasks[step->actor];
    bool is_lock = step->request == LOCK;
    if (step->request == CANCEL) return woken.withdrawn ? "withdrawn" : "not withdrawn";
    if (task_is_busy(actor)) return is_lock ? "queued" : "blocked";
    if (is_lock) actor->waits = 0;
    if (actor->answer != 0) return refusal(step, actor->answer, room);
    if (actor->is_kept) return "kept";
    if (is_lock || step->request == TRY) return "granted";
    if (step->request == BASE || step->request == CEIL) return "set";
    if (step->request == UNLOCK && !woken.handed) return "freed";
    if (step->request == UNLOCK) snprintf(room, REPLY_BYTES, "handed %d", woken.handed);
    if (step->request == RELEASE) snprintf(room, REPLY_BYTES, "released %d", actor->unlocked);
    return room;
}

static void give(int at) {
    const struct step *step = &text.step[at];
    if (step->request == CANCEL && step->first == step->actor)
        task_withdraw(&tasks[step->actor]);
    else
        task_give(&tasks[step->actor], step, text.last_cancel[step->actor] > at);
}

/* Writes the step to the file of --marks, in one call, before it is made: the kernel's trace_marker
 * puts it between the events of its trace. */
static void mark(int at) {
    if (marks >= 0 && dprintf(marks, "step %d '%s'\n", at + 1, text.step[at].words) < 0)
        stop(FAULT, "the file of --marks: %s", strerror(errno));
}

static void make_step(int at) {
    static char rest[OUTPUT_BYTES];
    int priority[MAX_TASKS + 1];
    char room[REPLY_BYTES];
    const char *reply = answer_without_call(&text.step[at]);
    *rest = '\0';
    mark(at);
    if (!reply) {
        give(at);
        settle(priority);
        reply = reply_of(&text.step[at], find_woken(&text.step[at], rest, sizeof rest), room);
        printf("%d %s\n", at + 1, reply);
        for (int t = 1; t <= task_count; t++)
            if (priority[t] != tasks[t].shown)
                printf("  task %d at %d\n", t, tasks[t].shown = priority[t]);
        fputs(rest, stdout);
    } else
        printf("%d %s\n", at + 1, reply);
}

/* ---- the program ---- */

static void on_alarm(int number) {
    (void)number;
    static const char line[] = "perform: a thread didn't come to rest in time\n";
    (void)!write(notes, line, sizeof line - 1);
    _exit(WATCHDOG);
}

static int number_of(const char *argument, int least, int most) {
    char *end;
    long number = strtol(argument, &end, 10);
    if (*argument == '\0' || *end != '\0' || number < least || number > most)
        stop(FAULT, "'%s' isn't a number from %d to %d", argument, least, most);
    return (int)number;
}

static int opened_to_mark(const char *path) {
    int file = open(path, O_WRONLY | O_CREAT | O_APPEND | O_CLOEXEC, 0644);
    if (file < 0) stop(FAULT, "%s: %s", path, strerror(errno));
    return file;
}

/* The messages of glibc's assertions are of no use here. */
static void silence(void) {
    int nothing = open("/dev/null", O_WRONLY | O_CLOEXEC);
    notes = fcntl(STDERR_FILENO, F_DUPFD_CLOEXEC, 3);
    if (notes < 0 || nothing < 0) _exit(FAULT);
    dup2(nothing, STDERR_FILENO);
}

/* Binds this thread to the CPU, and lets it run before all tasks. */
static void take_over(int cpu, cpu_set_t *cpus) {
    struct sched_param parameters = { .sched_priority = CONTROLLER_PRIORITY };
    CPU_ZERO(cpus);
    CPU_SET(cpu, cpus);
    if (sched_setaffinity(0, sizeof *cpus, cpus) != 0)
        stop(FAULT, "CPU %d: %s", cpu, strerror(errno));
    if (sched_setscheduler(0, SCHED_FIFO, &parameters) != 0)
        stop(errno == EPERM ? NO_RIGHTS : FAULT, "SCHED_FIFO at %d: %s", CONTROLLER_PRIORITY,
             strerror(errno));
}

static void print_system(int cpu) {
    struct utsname names;
    uname(&names);
    printf("%s %s, glibc %s, CPU %d\n", names.sysname, names.release, gnu_get_libc_version(), cpu);
}

/* Only the controller receives the watchdog's signal. */
static void start(int seconds, const cpu_set_t *cpus) {
    int priority[MAX_TASKS + 1];
    sigset_t only_controller;
    signal(SIGALRM, on_alarm);
    sigemptyset(&only_controller);
    sigaddset(&only_controller, SIGALRM);
    pthread_sigmask(SIG_BLOCK, &only_controller, NULL);
    alarm((unsigned)seconds);
    tasks_start(&text, cpus);
    pthread_sigmask(SIG_UNBLOCK, &only_controller, NULL);
    settle(priority);
    for (int t = 1; t <= task_count; t++)
        if (priority[t] != text.base[t]) stop(FAULT, "task %d begins at %d", t, priority[t]);
}

int main(int count, char **arguments) {
    static const struct option options[] = { { "cpu", required_argument, NULL, 'c' },
                                             { "seconds", required_argument, NULL, 's' },
                                             { "marks", required_argument, NULL, 'm' }, { 0 } };
    int cpu = (int)sysconf(_SC_NPROCESSORS_ONLN) - 1, seconds = 20, option;
    cpu_set_t cpus;
    while ((option = getopt_long(count, arguments, "c:s:m:", options, NULL)) != -1) {
        if (option == '?') return FAULT;
        if (option == 'c') cpu = number_of(optarg, 0, CPU_SETSIZE - 1);
        if (option == 's') seconds = number_of(optarg, 1, 3600);
        if (option == 'm') marks = opened_to_mark(optarg);
    }
    const char *why = text_read(&text, stdin);
    if (why) stop(FAULT, "%s", why);
    prctl(PR_SET_PDEATHSIG, SIGKILL);
    silence();
    take_over(cpu, &cpus);
    print_system(cpu);
    start(seconds, &cpus);
    for (int k = 0; k < text.steps; k++) make_step(k);
    printf("performed %d\n", text.steps);
    if (fflush(stdout) != 0) stop(FAULT, "write");
    _exit(0); /* ends every thread, whatever it waits for */
}
