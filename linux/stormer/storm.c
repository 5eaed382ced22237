/* storm [--seconds N] [--threads N] [--mutexes N] [--seed N]: threads under SCHED_FIFO lock and
 * unlock mutexes on every CPU that this process may use. Now and then all stop where they are, and
 * the state is printed: who owns, who waits, and each priority in force. linux/storm calls it.
 *
 * The mutexes are INHERIT, which a thread locks in ascending order, so that none deadlocks; and two
 * are PROTECT, which it only tries to lock, as glibc raises who waits for one. Some locks time out,
 * and some are cancelled: their deadline is moved to the past, and a signal lets the kernel see it.
 * Each thread sets the priority of the next one. */
#define _GNU_SOURCE
#include <errno.h>
#include <fcntl.h>
#include <getopt.h>
#include <gnu/libc-version.h>
#include <linux/futex.h>
#include <pthread.h>
#include <sched.h>
#include <signal.h>
#include <stdarg.h>
#include <stdatomic.h>
#include <stdbool.h>
#include <stdio.h>
#include <stdlib.h>
#include <string.h>
#include <sys/prctl.h>
#include <sys/syscall.h>
#include <sys/utsname.h>
#include <time.h>
#include <unistd.h>

enum { MOST = 64, PROTECTED = 2, TOP_BASE = 90, CONTROLLER_PRIORITY = 99 };
enum { FAULT = 2, NO_RIGHTS = 77, FILE_BYTES = 16384 };
/* How long they run between two stops, at least and at most; how long they must show the same. */
enum { LEAST_RUN = 2000, MOST_RUN = 22000, HOLD = 100000, RETRY = 1000 }; /* us */
enum { PATIENCE = 120 };                                                  /* s */
enum { MOST_TIMEOUT = 2000000, MOST_NAP = 300000 };                       /* ns */

static struct thread {
    pthread_t thread;
    unsigned seed;
    int number; /* from 1 */
    int held[MOST + PROTECTED], holds; /* the mutexes that it owns, in the order of their locks */
    atomic_int tid, base, wait; /* wait: the mutex that its lock is for, or 0 */
    atomic_bool is_at_gate, is_timed;
    struct timespec deadline;
    int stat, status;
} threads[MOST + 1];

static struct mutex {
    pthread_mutex_t real;
    atomic_int owner; /* the thread's number, or 0 */
} mutexes[MOST + PROTECTED + 1];

static int thread_count = 40, inherit_count = 30, mutex_count;
static atomic_uint gate = 1; /* odd: closed */
static atomic_bool is_over;
static atomic_uint ended; /* how many threads act no more */
static atomic_ulong locks, waits, timeouts, cancels, sets;

_Noreturn static void fail(int status, const char *form, ...) {
    va_list rest;
    va_start(rest, form);
    fflush(stdout);
    fputs("storm: ", stderr);
    vfprintf(stderr, form, rest);
    fputc('\n', stderr);
    _exit(status);
}

static void must(int answer, const char *what) {
    if (answer != 0) fail(FAULT, "%s: %s", what, strerror(answer));
}

static int draw(struct thread *me, int below) {
    return (int)((unsigned)rand_r(&me->seed) % (unsigned)below);
}

static void wait_at(atomic_uint *word, unsigned value) {
    syscall(SYS_futex, word, FUTEX_WAIT_PRIVATE, value, NULL, NULL, 0);
}

/* ---- what a thread does */

static void got(struct thread *me, int m) {
    mutexes[m].owner = me->number;
    me->held[me->holds++] = m;
    locks++;
}

/* Every lock has a deadline, so that it can be cancelled; a far one, if it isn't timed. */
static void lock(struct thread *me, int m, long timeout) {
    me->deadline = (struct timespec){ .tv_sec = 4102444800 }; /* the year 2100 */
    if (timeout > 0) {
        clock_gettime(CLOCK_REALTIME, &me->deadline);
        me->deadline.tv_nsec += timeout;
        me->deadline.tv_sec += me->deadline.tv_nsec / 1000000000;
        me->deadline.tv_nsec %= 1000000000;
    }
    me->is_timed = timeout > 0;
    me->wait = m;
    int answer = pthread_mutex_trylock(&mutexes[m].real);
    if (answer == EBUSY) {
        waits++;
        answer = pthread_mutex_timedlock(&mutexes[m].real, &me->deadline);
    }
    if (answer == 0) got(me, m);
    me->wait = 0;
    me->is_timed = false;
    if (answer == ETIMEDOUT) timeouts++;
    else must(answer, "lock");
}

static void lock_higher(struct thread *me, bool is_timed) {
    int least = 1;
    for (int k = 0; k < me->holds; k++)
        if (me->held[k] <= inherit_count && me->held[k] >= least) least = me->held[k] + 1;
    if (least > inherit_count) return;
    long timeout = is_timed ? 1 + draw(me, MOST_TIMEOUT) : 0;
    lock(me, least + draw(me, inherit_count - least + 1), timeout);
}

static void try_ceiling(struct thread *me) {
    int m = inherit_count + 1 + draw(me, PROTECTED);
    if (mutexes[m].owner == me->number) return;
    int answer = pthread_mutex_trylock(&mutexes[m].real);
    if (answer == 0) got(me, m);
    else if (answer != EBUSY) must(answer, "trylock");
}

static void unlock(struct thread *me, int at) {
    int m = me->held[at];
    memmove(me->held + at, me->held + at + 1, sizeof *me->held * (size_t)(--me->holds - at));
    mutexes[m].owner = 0;
    must(pthread_mutex_unlock(&mutexes[m].real), "unlock");
}

static void set_next_base(struct thread *me) {
    struct thread *next = &threads[me->number % thread_count + 1];
    struct sched_param parameters = { .sched_priority = 1 + draw(me, TOP_BASE) };
    must(pthread_setschedparam(next->thread, SCHED_FIFO, &parameters), "priority");
    next->base = parameters.sched_priority;
    sets++;
}

static void cancel_some(struct thread *me) {
    struct thread *other = &threads[1 + draw(me, thread_count)];
    if (other->wait == 0 || other->is_timed) return;
    other->deadline.tv_sec = 1;
    pthread_kill(other->thread, SIGUSR1);
    cancels++;
}

static void act(struct thread *me) {
    int dice = draw(me, 16);
    struct timespec nap = { .tv_nsec = 1 + draw(me, MOST_NAP) };
    if (dice < 8) lock_higher(me, dice < 4);
    else if (dice < 12) {
        if (me->holds > 0) unlock(me, draw(me, me->holds));
    } else if (dice == 12) set_next_base(me);
    else if (dice == 13) try_ceiling(me);
    else if (dice == 14) cancel_some(me);
    else nanosleep(&nap, NULL);
}

/* A thread that has returned has no priority to set: none returns before the last has acted. */
static void wait_for_all(void) {
    if (++ended == (unsigned)thread_count)
        syscall(SYS_futex, &ended, FUTEX_WAKE_PRIVATE, MOST, NULL, NULL, 0);
    for (unsigned seen; (seen = ended) < (unsigned)thread_count;) wait_at(&ended, seen);
}

static void *thread_main(void *argument) {
    struct thread *me = argument;
    me->tid = (int)syscall(SYS_gettid);
    while (!is_over) {
        unsigned seen = gate;
        if (seen & 1) {
            me->is_at_gate = true;
            while (gate == seen) wait_at(&gate, seen);
            me->is_at_gate = false;
        }
        act(me);
    }
    while (me->holds > 0) unlock(me, me->holds - 1);
    wait_for_all();
    return NULL;
}

/* ---- a stop */

/* What all threads show at one look. */
struct state {
    int priority[MOST + 1], base[MOST + 1], wait[MOST + 1], owner[MOST + PROTECTED + 1];
    unsigned long switches; /* how often the threads have left their CPUs */
};

static void read_file(int file, char text[FILE_BYTES]) {
    ssize_t size = pread(file, text, FILE_BYTES - 1, 0);
    if (size <= 0) fail(FAULT, "the kernel says nothing of a thread");
    text[size] = '\0';
}

static unsigned long number_behind(const char *text, const char *name) {
    const char *found = strstr(text, name);
    if (!found) fail(FAULT, "the kernel doesn't say '%s'", name + 1);
    return strtoul(found + strlen(name), NULL, 10);
}

/* Reads a thread. Returns whether it sleeps, at the gate or in a lock that no deadline ends. */
static bool look_at(struct thread *thread, struct state *state) {
    enum { STATE_FIELD = 3, PRIORITY_FIELD = 18 };
    char text[FILE_BYTES];
    int t = thread->number;
    read_file(thread->stat, text);
    char *rest = strrchr(text, ')') + 2, shown = *rest;
    for (int field = STATE_FIELD; field < PRIORITY_FIELD; field++) rest = strchr(rest, ' ') + 1;
    state->priority[t] = -1 - atoi(rest);
    state->base[t] = thread->base;
    state->wait[t] = thread->is_at_gate ? 0 : thread->wait;
    read_file(thread->status, text);
    state->switches += number_behind(text, "\nvoluntary_ctxt_switches:");
    state->switches += number_behind(text, "\nnonvoluntary_ctxt_switches:");
    return shown == 'S' && !thread->is_timed && (thread->is_at_gate || thread->wait);
}

static bool look(struct state *state) {
    memset(state, 0, sizeof *state);
    for (int t = 1; t <= thread_count; t++)
        if (!look_at(&threads[t], state)) return false;
    for (int m = 1; m <= mutex_count; m++) state->owner[m] = mutexes[m].owner;
    return true;
}

/* Waits until all threads rest: two looks show the same, and no thread left its CPU in between. */
static void settle(struct state *state) {
    struct state before;
    time_t end = time(NULL) + PATIENCE;
    for (;;) {
        if (look(&before)) {
            usleep(HOLD);
            if (look(state) && memcmp(state, &before, sizeof before) == 0) return;
        }
        if (time(NULL) > end) fail(FAULT, "the threads don't come to rest within %d s", PATIENCE);
        usleep(RETRY);
    }
}

static void print_stop(int number, const struct state *state) {
    printf("stop %d\n", number);
    for (int t = 1; t <= thread_count; t++) {
        bool has_any = state->wait[t] || state->priority[t] != state->base[t];
        for (int m = 1; m <= mutex_count; m++) has_any |= state->owner[m] == t;
        if (!has_any) continue;
        printf("thread %d base %d at %d", t, state->base[t], state->priority[t]);
        if (state->wait[t]) printf(" waits %d", state->wait[t]);
        for (int m = 1; m <= mutex_count; m++)
            if (state->owner[m] == t) printf(" owns %d", m);
        printf("\n");
    }
    if (fflush(stdout) != 0) fail(FAULT, "write: %s", strerror(errno));
}

static void turn_gate(void) {
    gate++;
    syscall(SYS_futex, &gate, FUTEX_WAKE_PRIVATE, MOST, NULL, NULL, 0);
}

/* ---- the start and the end */

static void start_mutexes(void) {
    for (int m = 1; m <= mutex_count; m++) {
        pthread_mutexattr_t attributes;
        bool is_protect = m > inherit_count;
        int ceiling = TOP_BASE + m - inherit_count;
        int protocol = is_protect ? PTHREAD_PRIO_PROTECT : PTHREAD_PRIO_INHERIT;
        pthread_mutexattr_init(&attributes);
        must(pthread_mutexattr_setprotocol(&attributes, protocol), "protocol");
        if (is_protect) must(pthread_mutexattr_setprioceiling(&attributes, ceiling), "ceiling");
        must(pthread_mutex_init(&mutexes[m].real, &attributes), "mutex");
        if (is_protect) printf("mutex %d protect %d\n", m, ceiling);
        else printf("mutex %d inherit\n", m);
    }
}

static int opened(int tid, const char *name) {
    char path[64];
    snprintf(path, sizeof path, "/proc/self/task/%d/%s", tid, name);
    int file = open(path, O_RDONLY | O_CLOEXEC);
    if (file < 0) fail(FAULT, "%s: %s", path, strerror(errno));
    return file;
}

static void start_thread(struct thread *thread, struct thread *controller) {
    struct sched_param parameters = { .sched_priority = 1 + draw(controller, TOP_BASE) };
    pthread_attr_t attributes;
    thread->base = parameters.sched_priority;
    thread->seed = (unsigned)rand_r(&controller->seed);
    pthread_attr_init(&attributes);
    must(pthread_attr_setinheritsched(&attributes, PTHREAD_EXPLICIT_SCHED), "thread");
    must(pthread_attr_setschedpolicy(&attributes, SCHED_FIFO), "policy");
    must(pthread_attr_setschedparam(&attributes, &parameters), "priority");
    must(pthread_attr_setstacksize(&attributes, 65536), "stack");
    must(pthread_create(&thread->thread, &attributes, thread_main, thread), "thread");
    while (thread->tid == 0) usleep(RETRY);
    thread->stat = opened(thread->tid, "stat");
    thread->status = opened(thread->tid, "status");
}

static void on_cancel(int number) { (void)number; }

static void start(unsigned seed) {
    struct sched_param top = { .sched_priority = CONTROLLER_PRIORITY };
    struct sigaction action = { .sa_handler = on_cancel };
    struct thread controller = { .seed = seed };
    struct utsname names;
    prctl(PR_SET_PDEATHSIG, SIGKILL);
    sigaction(SIGUSR1, &action, NULL);
    if (sched_setscheduler(0, SCHED_FIFO, &top) != 0)
        fail(errno == EPERM ? NO_RIGHTS : FAULT, "SCHED_FIFO at %d: %s", CONTROLLER_PRIORITY,
             strerror(errno));
    uname(&names);
    printf("%s %s, glibc %s, %d threads\n", names.sysname, names.release,
           gnu_get_libc_version(), thread_count);
    mutex_count = inherit_count + PROTECTED;
    start_mutexes();
    for (int t = 1; t <= thread_count; t++) threads[t].number = t;
    for (int t = 1; t <= thread_count; t++) start_thread(&threads[t], &controller);
}

/* Lets all threads end, and waits for them: one that a wake-up missed doesn't. */
static void finish(int stops) {
    struct timespec end;
    is_over = true;
    turn_gate();
    clock_gettime(CLOCK_REALTIME, &end);
    end.tv_sec += PATIENCE;
    for (int t = 1; t <= thread_count; t++)
        must(pthread_timedjoin_np(threads[t].thread, NULL, &end), "a thread doesn't end");
    printf("stopped %d, locks %lu, waits %lu, timeouts %lu, cancels %lu, priorities %lu\n", stops,
           locks, waits, timeouts, cancels, sets);
    if (fflush(stdout) != 0) fail(FAULT, "write: %s", strerror(errno));
}

static int number_of(const char *argument, int least, int most) {
    char *end;
    long number = strtol(argument, &end, 10);
    if (*argument == '\0' || *end != '\0' || number < least || number > most)
        fail(FAULT, "'%s' isn't a number from %d to %d", argument, least, most);
    return (int)number;
}

int main(int count, char **arguments) {
    static const struct option options[] = { { "seconds", required_argument, NULL, 's' },
                                             { "threads", required_argument, NULL, 't' },
                                             { "mutexes", required_argument, NULL, 'm' },
                                             { "seed", required_argument, NULL, 'r' }, { 0 } };
    int seconds = 60, seed = 1, stops = 0, option;
    struct state state;
    while ((option = getopt_long(count, arguments, "s:t:m:r:", options, NULL)) != -1) {
        if (option == '?') return FAULT;
        if (option == 's') seconds = number_of(optarg, 1, 86400);
        if (option == 't') thread_count = number_of(optarg, 2, MOST);
        if (option == 'm') inherit_count = number_of(optarg, 1, MOST);
        if (option == 'r') seed = number_of(optarg, 0, 1 << 30);
    }
    start((unsigned)seed);
    unsigned dice = (unsigned)seed;
    for (time_t end = time(NULL) + seconds; time(NULL) < end;) {
        turn_gate();
        usleep(LEAST_RUN + (unsigned)rand_r(&dice) % (MOST_RUN - LEAST_RUN));
        turn_gate();
        settle(&state);
        print_stop(++stops, &state);
    }
    finish(stops);
    return 0;
}
