/* c/pthreads, linked into this program in place of the C library's mutexes and condition variables.
 *
 * No priority is set in the kernel, so no rights are needed: stubs log what would be set,
 * "NAME P" for a thread that runs at priority P from then on, and "wake" for a futex that wakes. They
 * also note which thread is blocked. */
#define _GNU_SOURCE
#include <errno.h>
#include <linux/futex.h>
#include <pthread.h>
#include <signal.h>
#include <stdarg.h>
#include <stdatomic.h>
#include <stdbool.h>
#include <stdint.h>
#include <stdio.h>
#include <stdlib.h>
#include <string.h>
#include <sys/syscall.h>
#include <sys/wait.h>
#include <unistd.h>

enum { NONE = PTHREAD_PRIO_NONE, INHERIT = PTHREAD_PRIO_INHERIT, PROTECT = PTHREAD_PRIO_PROTECT, NAMES = 8 };
enum { NORMAL = PTHREAD_MUTEX_NORMAL, CHECKED = PTHREAD_MUTEX_ERRORCHECK, RECURSIVE = PTHREAD_MUTEX_RECURSIVE };

static const char *test_name;
static int wrongs;

static void expect(int line, const char *what, long got, long wanted) {
    if (got == wanted) return;
    printf("FAIL pthreads.c: %s: line %d: %s: %ld in place of %ld\n", test_name, line, what, got, wanted);
    wrongs++;
}

#define IS(what, wanted) expect(__LINE__, #what, what, wanted)

/* ---- a thread that does what it is asked, one call at a time ---- */

typedef int call(void *);

struct player {
    const char *name;
    pthread_t thread;
    atomic_int id, is_asked, is_blocked;
    call *next;
    void *with;
    int result;
};

static _Thread_local struct player *playing;

/* ---- the stub: which priorities are set ---- */

static char events[512];
static struct { const char *name; _Atomic pid_t id; } names[NAMES];
static atomic_int schedule_error;

/* What happens between a time-out and what its thread does next. */
static void (*at_time_out)(void);

static void event(const char *name, int prio) {
    size_t used = strlen(events);
    const char *space = used != 0 ? " " : "";
    if (prio >= 0) snprintf(events + used, sizeof events - used, "%s%s %d", space, name, prio);
    else snprintf(events + used, sizeof events - used, "%s%s", space, name);
}

static void log_schedule(pid_t id, int policy, const struct sched_param *param) {
    if (id == 0) event("nobody", param->sched_priority);
    for (int i = 0; i < NAMES; i++) {
        if (names[i].id != id || id == 0) continue;
        event(names[i].name, param->sched_priority);
        if (policy != SCHED_FIFO) event("policy", policy);
    }
}

long __real_syscall(long number, ...);

/* A thread that is cancelled leaves this frame without a return, and AddressSanitizer would keep its
 * marks on the stack. */
__attribute__((no_sanitize("address"))) long __wrap_syscall(long number, ...) {
    long a[6];
    va_list list;
    va_start(list, number);
    for (int i = 0; i < 6; i++) a[i] = va_arg(list, long);
    va_end(list);
    if (number == SYS_futex && (int)a[1] == FUTEX_WAKE_PRIVATE) event("wake", -1);
    int waits = number == SYS_futex && ((int)a[1] & FUTEX_CMD_MASK) == FUTEX_WAIT_BITSET && playing != NULL;
    if (waits) atomic_store(&playing->is_blocked, 1);
    long result = __real_syscall(number, a[0], a[1], a[2], a[3], a[4], a[5]);
    if (waits) atomic_store(&playing->is_blocked, 0);
    if (waits && result != 0 && errno == ETIMEDOUT && at_time_out != NULL) {
        at_time_out();
        errno = ETIMEDOUT;
    }
    return result;
}

int __wrap_sched_setscheduler(pid_t id, int policy, const struct sched_param *param) {
    log_schedule(id, policy, param);
    errno = atomic_load(&schedule_error);
    return errno != 0 ? -1 : 0;
}

/* Compares the log with what it has to be, and empties it. */
static void log_is(int line, const char *wanted) {
    if (strcmp(events, wanted) != 0) {
        printf("FAIL pthreads.c: %s: line %d: '%s' in place of '%s'\n", test_name, line, events, wanted);
        wrongs++;
    }
    events[0] = 0;
}

#define LOG(wanted) log_is(__LINE__, wanted)

/* ---- how a thread is asked ---- */

static void pause_shortly(void) {
    usleep(500);
}

static void *play(void *of) {
    struct player *player = of;
    playing = player;
    atomic_store(&player->id, (int)__real_syscall(SYS_gettid));
    for (;;) {
        while (!atomic_load(&player->is_asked)) pause_shortly();
        if (player->next == NULL) return NULL;
        player->result = player->next(player->with);
        atomic_store(&player->is_asked, 0);
    }
}

static void ask(struct player *player, call *what, void *with) {
    player->next = what;
    player->with = with;
    atomic_store(&player->is_asked, 1);
}

/* Returns the result of the call once it has returned. */
static int answer(struct player *player) {
    for (int i = 0; i < 10000 && atomic_load(&player->is_asked); i++) pause_shortly();
    if (atomic_load(&player->is_asked)) {
        printf("FAIL pthreads.c: %s: %s never comes back\n", test_name, player->name);
        exit(1);
    }
    return player->result;
}

static int does(struct player *player, call *what, void *with) {
    ask(player, what, with);
    return answer(player);
}

/* Asks, and waits until the thread is blocked. */
static void blocks(struct player *player, call *what, void *with) {
    ask(player, what, with);
    for (int i = 0; i < 10000 && !atomic_load(&player->is_blocked) && atomic_load(&player->is_asked); i++) pause_shortly();
    if (!atomic_load(&player->is_asked)) expect(0, "it doesn't block, and returns", player->result, -1);
}

static void name_thread(const char *name, pid_t id) {
    int i = 0;
    while (names[i].id != 0) i++;
    names[i].name = name;
    names[i].id = id;
}

static void forget_name(pid_t id) {
    for (int i = 0; i < NAMES; i++)
        if (names[i].id == id) names[i].id = 0;
}

static void begin_player(struct player *player, const char *name) {
    *player = (struct player){ .name = name };
    pthread_create(&player->thread, NULL, play, player);
    while (atomic_load(&player->id) == 0) pause_shortly();
    name_thread(name, atomic_load(&player->id));
}

static void end_player(struct player *player) {
    ask(player, NULL, NULL);
    pthread_join(player->thread, NULL);
    forget_name(atomic_load(&player->id));
}

/* ---- calls that a player makes ---- */

static int do_lock(void *mutex) { return pthread_mutex_lock(mutex); }
static int do_try(void *mutex) { return pthread_mutex_trylock(mutex); }
static int do_unlock(void *mutex) { return pthread_mutex_unlock(mutex); }

static struct timespec in_milliseconds(long milliseconds, clockid_t clock) {
    struct timespec time;
    clock_gettime(clock, &time);
    time.tv_nsec += milliseconds * 1000000;
    time.tv_sec += time.tv_nsec / 1000000000;
    time.tv_nsec %= 1000000000;
    return time;
}

static int do_timed(void *mutex) {
    struct timespec soon = in_milliseconds(30, CLOCK_REALTIME);
    return pthread_mutex_timedlock(mutex, &soon);
}

static bool is_past(const struct timespec *time, clockid_t clock) {
    struct timespec now = in_milliseconds(0, clock);
    return now.tv_sec > time->tv_sec || (now.tv_sec == time->tv_sec && now.tv_nsec >= time->tv_nsec);
}

static int do_clock(void *mutex) {
    struct timespec soon = in_milliseconds(30, CLOCK_MONOTONIC);
    int error = pthread_mutex_clocklock(mutex, CLOCK_MONOTONIC, &soon);
    return is_past(&soon, CLOCK_MONOTONIC) ? error : -1;
}

static int do_wrong_clock(void *mutex) {
    struct timespec soon = in_milliseconds(30, CLOCK_MONOTONIC);
    return pthread_mutex_clocklock(mutex, CLOCK_PROCESS_CPUTIME_ID, &soon);
}

static int do_long(void *mutex) {
    struct timespec late = in_milliseconds(5000, CLOCK_REALTIME);
    return pthread_mutex_timedlock(mutex, &late);
}

static int do_bad_time(void *mutex) {
    struct timespec bad = { 1, 1000000000 };
    return pthread_mutex_timedlock(mutex, &bad);
}

static int do_negative_time(void *mutex) {
    struct timespec bad = { 1, -1 };
    return pthread_mutex_timedlock(mutex, &bad);
}

static int do_old_time(void *mutex) {
    struct timespec old = { -1, 0 };
    return pthread_mutex_timedlock(mutex, &old);
}

static int do_prio(void *prio) {
    struct sched_param param = { .sched_priority = *(int *)prio };
    return pthread_setschedparam(pthread_self(), SCHED_FIFO, &param);
}

static int prio(struct player *player, int prio) {
    return does(player, do_prio, &prio);
}

static pthread_mutex_t made_with(int protocol, int type, int ceiling) {
    pthread_mutexattr_t attributes;
    pthread_mutex_t mutex;
    pthread_mutexattr_init(&attributes);
    pthread_mutexattr_setprotocol(&attributes, protocol);
    pthread_mutexattr_settype(&attributes, type);
    if (protocol == PROTECT) pthread_mutexattr_setprioceiling(&attributes, ceiling);
    IS(pthread_mutex_init(&mutex, &attributes), 0);
    return mutex;
}

static pthread_mutex_t made(int protocol, int type) {
    return made_with(protocol, type, 50);
}

/* ---- results of calls ---- */

static struct player other;

static void results(void) {
    for (int protocol = NONE; protocol <= PROTECT; protocol++) {
        pthread_mutex_t m = made(protocol, NORMAL);
        IS(pthread_mutex_unlock(&m), EPERM);
        IS(do_wrong_clock(&m), EINVAL);
        IS(pthread_mutex_trylock(&m), 0);
        IS(pthread_mutex_unlock(&m), 0);
        IS(pthread_mutex_lock(&m), 0);
        IS(pthread_mutex_trylock(&m), EBUSY);
        IS(do_timed(&m), ETIMEDOUT); /* a NORMAL mutex that the caller owns */
        IS(does(&other, do_try, &m), EBUSY);
        IS(does(&other, do_timed, &m), ETIMEDOUT);
        IS(does(&other, do_clock, &m), ETIMEDOUT);
        IS(does(&other, do_bad_time, &m), EINVAL);
        IS(does(&other, do_negative_time, &m), EINVAL);
        IS(does(&other, do_old_time, &m), ETIMEDOUT);
        IS(does(&other, do_unlock, &m), EPERM);
        IS(pthread_mutex_destroy(&m), EBUSY);
        IS(pthread_mutex_unlock(&m), 0);
        IS(does(&other, do_bad_time, &m), 0); /* it needn't wait */
        IS(pthread_mutex_trylock(&m), EBUSY);
        IS(pthread_mutex_unlock(&m), EPERM);
        IS(does(&other, do_unlock, &m), 0);
        IS(pthread_mutex_trylock(&m), 0);
        IS(pthread_mutex_unlock(&m), 0);
        IS(pthread_mutex_destroy(&m), 0);
        IS(pthread_mutex_lock(&m), EINVAL);
    }
}

static void checked(void) {
    for (int protocol = NONE; protocol <= PROTECT; protocol++) {
        pthread_mutex_t m = made(protocol, CHECKED);
        IS(pthread_mutex_lock(&m), 0);
        IS(pthread_mutex_lock(&m), EDEADLK);
        IS(do_long(&m), EDEADLK);
        IS(pthread_mutex_trylock(&m), EBUSY);
        IS(pthread_mutex_unlock(&m), 0);
        IS(pthread_mutex_unlock(&m), EPERM);
    }
}

static void recursive(void) {
    for (int protocol = NONE; protocol <= PROTECT; protocol++) {
        pthread_mutex_t m = made(protocol, RECURSIVE);
        IS(pthread_mutex_lock(&m), 0);
        IS(pthread_mutex_lock(&m), 0);
        IS(pthread_mutex_trylock(&m), 0);
        blocks(&other, do_long, &m);
        IS(pthread_mutex_unlock(&m), 0);
        IS(pthread_mutex_unlock(&m), 0);
        usleep(5000);
        IS(atomic_load(&other.is_blocked), 1);
        IS(pthread_mutex_unlock(&m), 0);
        IS(answer(&other), 0);
        IS(pthread_mutex_unlock(&m), EPERM);
        IS(does(&other, do_unlock, &m), 0);
        IS(does(&other, do_unlock, &m), EPERM);
        IS(pthread_mutex_lock(&m), 0);
        ((uint32_t *)&m)[1] = UINT32_MAX; /* locked so often */
        IS(pthread_mutex_lock(&m), EAGAIN);
        IS(pthread_mutex_trylock(&m), EAGAIN);
        ((uint32_t *)&m)[1] = 0;
        IS(pthread_mutex_unlock(&m), 0);
    }
}

static void ceilings(void) {
    pthread_mutex_t m = made_with(PROTECT, NORMAL, 50), plain = made(INHERIT, NORMAL), refused[70];
    int is = 0, old = 0;
    IS(pthread_mutex_getprioceiling(&m, &is), 0);
    IS(is, 50);
    IS(pthread_mutex_getprioceiling(&plain, &is), EINVAL);
    IS(pthread_mutex_setprioceiling(&plain, 50, &old), EINVAL);
    IS(pthread_mutex_setprioceiling(&m, 0, &old), EINVAL);
    IS(pthread_mutex_setprioceiling(&m, 100, &old), EINVAL);
    IS(old, 0);
    IS(pthread_mutex_setprioceiling(&m, 60, &old), 0);
    IS(old, 50);
    IS(pthread_mutex_getprioceiling(&m, &is), 0);
    IS(is, 60);
    IS(prio(&other, 70), 0);
    events[0] = 0;
    IS(does(&other, do_lock, &m), EINVAL);
    IS(does(&other, do_try, &m), EINVAL);
    LOG("");
    for (int i = 0; i < 70; i++) {
        refused[i] = made_with(PROTECT, NORMAL, 50);
        IS(does(&other, do_lock, &refused[i]), EINVAL); /* without a number */
    }
    IS(prio(&other, 60), 0);
    IS(does(&other, do_try, &m), 0);
    IS(does(&other, do_unlock, &m), 0);
    IS(prio(&other, 20), 0);
    events[0] = 0;
    IS(does(&other, do_lock, &m), 0);
    LOG("other 60");
    IS(does(&other, do_unlock, &m), 0);
    LOG("other 20");
}

static int do_raise_ceiling(void *mutex) {
    int old;
    return pthread_mutex_setprioceiling(mutex, 65, &old);
}

/* The ceiling of an owned mutex changes once it is unlocked; that of one's own recursive one immediately. */
static void ceiling_of_owned(void) {
    pthread_mutex_t m = made_with(PROTECT, CHECKED, 50), own = made_with(PROTECT, RECURSIVE, 50);
    int is = 0;
    IS(pthread_mutex_lock(&m), 0);
    IS(pthread_mutex_setprioceiling(&m, 65, &is), EDEADLK);
    blocks(&other, do_raise_ceiling, &m);
    IS(pthread_mutex_getprioceiling(&m, &is), 0);
    IS(is, 50);
    IS(pthread_mutex_unlock(&m), 0);
    IS(answer(&other), 0);
    IS(pthread_mutex_getprioceiling(&m, &is), 0);
    IS(is, 65);
    IS(pthread_mutex_lock(&m), 0);
    IS(pthread_mutex_unlock(&m), 0);
    IS(prio(&other, 20), 0);
    IS(does(&other, do_lock, &own), 0);
    events[0] = 0;
    IS(does(&other, do_raise_ceiling, &own), 0);
    LOG("other 65");
    IS(does(&other, do_unlock, &own), 0);
    LOG("other 20");
    IS(pthread_mutex_lock(&own), 0);
    IS(pthread_mutex_unlock(&own), 0);
}

/* ---- waiting, boosts, and their order ---- */

static struct player low, medium, high;

static void set_priorities(void) {
    IS(prio(&low, 10), 0);
    IS(prio(&medium, 40), 0);
    IS(prio(&high, 70), 0);
}

static void chain(void) {
    pthread_mutex_t a = made(INHERIT, NORMAL), b = made(INHERIT, NORMAL);
    struct sched_param raised = { .sched_priority = 80 }, lowered = { .sched_priority = 20 };
    int policy;
    set_priorities();
    LOG("low 10 medium 40 high 70");
    IS(does(&low, do_lock, &a), 0);
    IS(does(&medium, do_lock, &b), 0);
    LOG("");
    blocks(&medium, do_lock, &a);
    LOG("low 40");
    blocks(&high, do_lock, &b);
    LOG("low 70 medium 70");
    IS(pthread_getschedparam(low.thread, &policy, &raised), 0);
    IS(raised.sched_priority, 10);
    raised.sched_priority = 80;
    IS(pthread_setschedparam(high.thread, SCHED_FIFO, &raised), 0);
    LOG("high 80 low 80 medium 80");
    IS(pthread_setschedparam(high.thread, SCHED_FIFO, &lowered), 0);
    LOG("high 20 low 40 medium 40");
    IS(pthread_setschedprio(low.thread, 15), 0); /* it is boosted to 40 */
    LOG("");
    IS(pthread_setschedprio(high.thread, 100), EINVAL);
    IS(does(&low, do_unlock, &a), 0);
    LOG("wake low 15");
    IS(answer(&medium), 0);
    IS(does(&medium, do_unlock, &a), 0);
    LOG("");
    IS(does(&medium, do_unlock, &b), 0);
    LOG("wake");
    IS(answer(&high), 0);
    IS(does(&high, do_unlock, &b), 0);
}

/* The former owner is lowered last, once the new one has its ceiling. */
static void handed_ceiling(void) {
    pthread_mutex_t a = made_with(PROTECT, NORMAL, 80);
    set_priorities();
    IS(does(&low, do_lock, &a), 0);
    blocks(&medium, do_lock, &a);
    events[0] = 0;
    IS(does(&low, do_unlock, &a), 0);
    LOG("wake medium 80 low 10");
    IS(answer(&medium), 0);
    IS(does(&medium, do_unlock, &a), 0);
}

static void boosts(struct player *player, int policy, int prio, const char *begin, const char *end) {
    pthread_mutex_t a = made(INHERIT, NORMAL);
    struct sched_param param = { .sched_priority = prio }, is;
    int policy_is = -1;
    if (policy != SCHED_OTHER) IS(pthread_setschedparam(player->thread, policy, &param), 0);
    IS(does(player, do_lock, &a), 0);
    events[0] = 0;
    blocks(&high, do_lock, &a);
    LOG(begin);
    IS(pthread_getschedparam(player->thread, &policy_is, &is), 0);
    IS(policy_is, policy);
    IS(is.sched_priority, prio);
    IS(does(player, do_unlock, &a), 0);
    LOG(end);
    IS(answer(&high), 0);
    IS(does(&high, do_unlock, &a), 0);
}

/* A boosted thread is scheduled as SCHED_FIFO, or as SCHED_RR if it is that; afterwards as before. */
static void policies(void) {
    struct sched_param param = { .sched_priority = 20 };
    struct player guest;
    set_priorities();
    begin_player(&guest, "guest");
    boosts(&guest, SCHED_OTHER, 0, "guest 70", "wake guest 0 policy 0");
    boosts(&guest, SCHED_RR, 20, "guest 70 policy 2", "wake guest 20 policy 2");
    IS(pthread_setschedparam(guest.thread, SCHED_FIFO, &param), 0);
    LOG("guest 20");
    boosts(&guest, SCHED_FIFO, 20, "guest 70", "wake guest 20");
    IS(pthread_setschedprio(guest.thread, 0), EINVAL);
    IS(pthread_setschedprio(guest.thread, 100), EINVAL);
    LOG("");
    end_player(&guest);
}

/* A thread with the number of one that ended has nothing of its priority. */
static void number_lent_again(void) {
    struct player guest;
    set_priorities();
    begin_player(&guest, "guest");
    IS(prio(&guest, 80), 0);
    end_player(&guest);
    begin_player(&guest, "guest");
    boosts(&guest, SCHED_OTHER, 0, "guest 70", "wake guest 0 policy 0");
    end_player(&guest);
}

static void interrupt(int signal) { (void)signal; }

/* A thread stays blocked though a handler of a signal has interrupted it. */
static void interrupted(void) {
    struct sigaction action = { .sa_handler = interrupt };
    pthread_mutex_t a = made(NONE, NORMAL);
    sigaction(SIGUSR1, &action, NULL);
    IS(pthread_mutex_lock(&a), 0);
    blocks(&low, do_lock, &a);
    pthread_kill(low.thread, SIGUSR1);
    usleep(5000);
    IS(atomic_load(&low.is_asked), 1);
    IS(pthread_mutex_unlock(&a), 0);
    IS(answer(&low), 0);
    IS(does(&low, do_unlock, &a), 0);
}

/* A waiter that gives up takes its boost with it, and the next one is handed the mutex. */
static void time_out(void) {
    pthread_mutex_t a = made(INHERIT, NORMAL);
    set_priorities();
    IS(does(&low, do_lock, &a), 0);
    blocks(&medium, do_long, &a);
    events[0] = 0;
    IS(does(&high, do_timed, &a), ETIMEDOUT);
    LOG("low 70 low 40");
    IS(does(&low, do_unlock, &a), 0);
    LOG("wake low 10");
    IS(answer(&medium), 0);
    IS(does(&high, do_try, &a), EBUSY);
    IS(does(&medium, do_unlock, &a), 0);
    IS(does(&high, do_try, &a), 0);
    IS(does(&high, do_unlock, &a), 0);
}

static pthread_mutex_t contested;

static void unlock_contested(void) {
    at_time_out = NULL;
    IS(does(&low, do_unlock, &contested), 0);
}

/* A thread whose time is out owns the mutex all the same, if it was handed it before it withdrew. */
static void just_in_time(void) {
    contested = made(INHERIT, NORMAL);
    IS(does(&low, do_lock, &contested), 0);
    at_time_out = unlock_contested;
    IS(does(&high, do_timed, &contested), 0);
    IS(does(&high, do_unlock, &contested), 0);
    IS(pthread_mutex_destroy(&contested), 0);
}

/* The highest waiter is first; a mutex of protocol NONE boosts nobody. */
static void order(void) {
    pthread_mutex_t a = made(NONE, NORMAL);
    set_priorities();
    IS(does(&low, do_lock, &a), 0);
    events[0] = 0;
    blocks(&medium, do_lock, &a);
    blocks(&high, do_lock, &a);
    LOG("");
    IS(does(&low, do_unlock, &a), 0);
    IS(answer(&high), 0);
    IS(atomic_load(&medium.is_blocked), 1);
    IS(does(&high, do_unlock, &a), 0);
    IS(answer(&medium), 0);
    IS(does(&medium, do_unlock, &a), 0);
}

static void cycle(void) {
    pthread_mutex_t a = made(INHERIT, NORMAL), b = made(NONE, NORMAL);
    IS(does(&low, do_lock, &a), 0);
    IS(does(&medium, do_lock, &b), 0);
    blocks(&medium, do_lock, &a);
    IS(does(&low, do_lock, &b), EDEADLK);
    IS(does(&low, do_unlock, &a), 0);
    IS(answer(&medium), 0);
    IS(does(&medium, do_unlock, &a) + does(&medium, do_unlock, &b), 0);
    IS(does(&low, do_lock, &b), 0);
    IS(does(&low, do_unlock, &b), 0);
}

/* More mutexes than a thread locks without libpim, unlocked in another order. */
static void many_owned(void) {
    enum { MANY = 40 };
    pthread_mutex_t many[MANY];
    IS(prio(&low, 10) + prio(&high, 70), 0);
    for (int i = 0; i < MANY; i++) many[i] = made(i % 2 != 0 ? INHERIT : NONE, NORMAL);
    for (int i = 0; i < MANY; i++) IS(does(&low, do_lock, &many[i]), 0);
    for (int i = 0; i < MANY; i++) IS(pthread_mutex_trylock(&many[i]), EBUSY);
    events[0] = 0;
    blocks(&high, do_lock, &many[MANY - 1]);
    LOG("low 70");
    for (int i = 0; i < MANY; i++) IS(does(&low, do_unlock, &many[i * 7 % MANY]), 0);
    LOG("wake low 10");
    IS(answer(&high), 0);
    IS(does(&high, do_unlock, &many[MANY - 1]), 0);
    for (int i = 0; i < MANY; i++) IS(pthread_mutex_destroy(&many[i]), 0);
}

static void unlocked_in_another_order(void) {
    pthread_mutex_t a = made(NONE, NORMAL), b = made(INHERIT, NORMAL), c = made(INHERIT, NORMAL);
    set_priorities();
    IS(does(&low, do_lock, &a) + does(&low, do_lock, &b), 0);
    IS(does(&low, do_unlock, &a), 0);
    IS(does(&medium, do_lock, &c), 0);
    blocks(&low, do_lock, &c);
    events[0] = 0;
    blocks(&high, do_lock, &b);
    LOG("low 70 medium 70");
    IS(does(&medium, do_unlock, &c), 0);
    IS(answer(&low), 0);
    IS(does(&low, do_unlock, &b), 0);
    IS(answer(&high), 0);
    IS(does(&high, do_unlock, &b) + does(&low, do_unlock, &c), 0);
}

/* A thread has `count` mutexes: those that libpim needn't know, and as many as there are numbers. */
static void run_out(int protocol, int count, const char *waited, const char *unlocked) {
    static pthread_mutex_t all[16 + 256 + 1];
    set_priorities();
    events[0] = 0;
    for (int i = 0; i <= count; i++) all[i] = made_with(protocol, NORMAL, i == count - 1 ? 90 : 80);
    for (int i = 0; i < count; i++) IS(does(&low, do_lock, &all[i]), 0);
    LOG(protocol == PROTECT ? "low 80 low 90" : "");
    IS(does(&low, do_lock, &all[count]), EAGAIN);
    blocks(&high, do_lock, &all[count - 1]);
    LOG(waited);
    IS(does(&low, do_unlock, &all[count - 1]), 0);
    LOG(unlocked);
    IS(answer(&high), 0);
    IS(does(&high, do_unlock, &all[count - 1]), 0);
    IS(does(&low, do_lock, &all[count]), 0);
    IS(does(&low, do_unlock, &all[count]), 0);
    for (int i = 0; i < count - 1; i++) IS(does(&low, do_unlock, &all[i]), 0);
}

static void too_many_mutexes(void) {
    run_out(NONE, 16 + 256, "", "wake");
    run_out(INHERIT, 16 + 256, "low 70", "wake low 10");
    run_out(PROTECT, 256, "", "wake high 90 low 80");
}

/* A thread without a number is glibc's. */
static void unknown_thread(void) {
    struct sched_param param = { .sched_priority = 200 };
    struct player guest;
    int policy = -1;
    begin_player(&guest, "guest");
    IS(pthread_setschedparam(guest.thread, SCHED_FIFO, &param), EINVAL);
    IS(pthread_getschedparam(guest.thread, &policy, &param), 0);
    IS(policy, SCHED_OTHER);
    IS(param.sched_priority, 0);
    end_player(&guest);
}

static void no_rights(void) {
    pthread_mutex_t a = made(INHERIT, NORMAL);
    struct sched_param param;
    int policy;
    set_priorities();
    atomic_store(&schedule_error, EPERM);
    IS(prio(&low, 30), EPERM);
    IS(pthread_getschedparam(low.thread, &policy, &param), 0);
    IS(param.sched_priority, 10);
    IS(does(&low, do_lock, &a), 0);
    blocks(&high, do_lock, &a);
    IS(does(&low, do_unlock, &a), 0);
    IS(answer(&high), 0);
    IS(does(&high, do_unlock, &a), 0);
    atomic_store(&schedule_error, 0);
}

/* ---- condition variables ---- */

struct meeting {
    pthread_mutex_t mutex;
    pthread_cond_t condition;
    int cleanups;
};

static int do_wait(void *of) {
    struct meeting *meeting = of;
    return pthread_cond_wait(&meeting->condition, &meeting->mutex);
}

static int do_lock_and_wait(void *of) {
    struct meeting *meeting = of;
    int error = pthread_mutex_lock(&meeting->mutex);
    return error != 0 ? error : do_wait(of);
}

static int do_timed_wait(void *of) {
    struct meeting *meeting = of;
    struct timespec soon = in_milliseconds(30, CLOCK_REALTIME);
    return pthread_cond_timedwait(&meeting->condition, &meeting->mutex, &soon);
}

static int do_signal(void *of) { return pthread_cond_signal(&((struct meeting *)of)->condition); }
static int do_leave(void *of) { return pthread_mutex_unlock(&((struct meeting *)of)->mutex); }
static int do_enter(void *of) { return pthread_mutex_lock(&((struct meeting *)of)->mutex); }

static void signals(void) {
    struct meeting of = { made(INHERIT, CHECKED), PTHREAD_COND_INITIALIZER, 0 };
    set_priorities();
    blocks(&low, do_lock_and_wait, &of);
    blocks(&high, do_lock_and_wait, &of);
    blocks(&medium, do_lock_and_wait, &of);
    IS(pthread_mutex_destroy(&of.mutex), EBUSY);
    IS(pthread_cond_signal(&of.condition), 0);
    IS(answer(&high), 0);
    IS(does(&high, do_leave, &of), 0);
    usleep(5000);
    IS(atomic_load(&low.is_asked) + atomic_load(&medium.is_asked), 2); /* the signal was for one */
    IS(does(&high, do_enter, &of), 0);
    events[0] = 0;
    IS(pthread_cond_broadcast(&of.condition), 0);
    usleep(5000);
    LOG(""); /* they wait for the mutex, below the priority of its owner */
    IS(atomic_load(&low.is_blocked) + atomic_load(&medium.is_blocked), 2);
    IS(does(&high, do_leave, &of), 0);
    LOG("wake");
    IS(answer(&medium), 0);
    IS(does(&medium, do_leave, &of), 0);
    IS(answer(&low), 0);
    IS(does(&low, do_leave, &of), 0);
    IS(does(&low, do_leave, &of), EPERM);
    IS(pthread_mutex_destroy(&of.mutex), 0);
}

/* Of two threads with the same priority the first to wait is the first to wake; and a signal is for
 * those at its condition variable alone. */
static void signals_in_order(void) {
    struct meeting of = { made(INHERIT, CHECKED), PTHREAD_COND_INITIALIZER, 0 };
    struct meeting elsewhere = { made(NONE, CHECKED), PTHREAD_COND_INITIALIZER, 0 };
    set_priorities();
    IS(prio(&low, 40), 0);
    blocks(&high, do_lock_and_wait, &elsewhere);
    blocks(&medium, do_lock_and_wait, &of);
    blocks(&low, do_lock_and_wait, &of);
    IS(pthread_cond_signal(&of.condition), 0);
    IS(answer(&medium), 0);
    IS(does(&medium, do_leave, &of), 0);
    IS(pthread_cond_signal(&of.condition), 0);
    IS(answer(&low), 0);
    IS(does(&low, do_leave, &of), 0);
    IS(pthread_cond_signal(&of.condition), 0); /* for nobody */
    IS(atomic_load(&high.is_asked), 1);
    IS(pthread_cond_signal(&elsewhere.condition), 0);
    IS(answer(&high), 0);
    IS(does(&high, do_leave, &elsewhere), 0);
}

/* A thread unlocks a recursive mutex wholly as it waits, and owns it as often again afterwards. */
static void recursive_wait(void) {
    struct meeting of = { made(INHERIT, RECURSIVE), PTHREAD_COND_INITIALIZER, 0 };
    IS(does(&low, do_enter, &of), 0);
    blocks(&low, do_lock_and_wait, &of);
    IS(does(&medium, do_enter, &of), 0);
    IS(does(&medium, do_leave, &of), 0);
    IS(does(&medium, do_leave, &of), EPERM);
    IS(pthread_cond_signal(&of.condition), 0);
    IS(answer(&low), 0);
    IS(does(&low, do_leave, &of), 0);
    IS(does(&high, do_try, &of.mutex), EBUSY);
    IS(does(&low, do_leave, &of), 0);
    IS(does(&low, do_leave, &of), EPERM);
}

/* Who is signalled while the mutex is owned boosts its owner; and what a sleeper owns is known. */
static void signalled_waits(void) {
    struct meeting of = { made(INHERIT, NORMAL), PTHREAD_COND_INITIALIZER, 0 };
    pthread_mutex_t a = made(INHERIT, NORMAL);
    set_priorities();
    IS(does(&medium, do_lock, &a), 0);
    blocks(&medium, do_lock_and_wait, &of);
    IS(does(&low, do_enter, &of), 0);
    events[0] = 0;
    IS(pthread_cond_signal(&of.condition), 0);
    LOG("low 40");
    blocks(&high, do_lock, &a);
    LOG("low 70 medium 70");
    IS(does(&low, do_leave, &of), 0);
    LOG("wake low 10");
    IS(answer(&medium), 0);
    IS(does(&medium, do_leave, &of), 0);
    IS(does(&medium, do_unlock, &a), 0);
    LOG("wake medium 40");
    IS(answer(&high), 0);
    IS(does(&high, do_unlock, &a), 0);
}

/* A signalled thread whose request for the mutex would close a cycle returns without the mutex. */
static void signalled_into_cycle(void) {
    struct meeting of = { made(INHERIT, NORMAL), PTHREAD_COND_INITIALIZER, 0 };
    pthread_mutex_t a = made(INHERIT, NORMAL);
    IS(does(&low, do_lock, &a), 0);
    blocks(&low, do_lock_and_wait, &of);
    IS(does(&medium, do_enter, &of), 0);
    blocks(&medium, do_lock, &a);
    IS(pthread_cond_signal(&of.condition), 0);
    IS(answer(&low), EDEADLK);
    IS(does(&low, do_leave, &of), EPERM);
    IS(does(&low, do_unlock, &a), 0);
    IS(answer(&medium), 0);
    IS(does(&medium, do_unlock, &a) + does(&medium, do_leave, &of), 0);
}

static void waits_that_fail(void) {
    struct meeting of = { made(NONE, RECURSIVE), PTHREAD_COND_INITIALIZER, 0 };
    struct timespec bad = { 1, 1000000000 }, soon = in_milliseconds(30, CLOCK_MONOTONIC);
    int type = -1;
    IS(do_wait(&of), EPERM);
    IS(do_enter(&of) + do_enter(&of), 0);
    IS(does(&low, do_wait, &of), EPERM);
    blocks(&high, do_enter, &of);
    IS(pthread_cond_timedwait(&of.condition, &of.mutex, &bad), EINVAL);
    usleep(5000);
    IS(atomic_load(&high.is_asked), 1); /* the mutex wasn't unlocked */
    IS(do_leave(&of) + do_leave(&of), 0);
    IS(answer(&high), 0);
    IS(does(&high, do_leave, &of), 0);
    IS(do_enter(&of) + do_enter(&of), 0);
    IS(do_timed_wait(&of), ETIMEDOUT);
    IS(pthread_cond_clockwait(&of.condition, &of.mutex, CLOCK_MONOTONIC, &soon), ETIMEDOUT);
    IS(pthread_cond_clockwait(&of.condition, &of.mutex, CLOCK_PROCESS_CPUTIME_ID, &soon), EINVAL);
    pthread_setcanceltype(PTHREAD_CANCEL_DEFERRED, &type);
    IS(type, PTHREAD_CANCEL_DEFERRED); /* as before */
    IS(do_leave(&of) + do_leave(&of), 0); /* as often as it was locked */
    IS(do_leave(&of), EPERM);
}

static struct meeting missed;

static void signal_missed(void) {
    at_time_out = NULL;
    IS(does(&low, do_signal, &missed), 0);
}

/* A thread whose time is out got a signal all the same, if it came before the thread withdrew. */
static void signalled_just_in_time(void) {
    missed = (struct meeting){ made(INHERIT, NORMAL), PTHREAD_COND_INITIALIZER, 0 };
    IS(does(&high, do_enter, &missed), 0);
    at_time_out = signal_missed;
    IS(does(&high, do_timed_wait, &missed), 0);
    IS(does(&high, do_leave, &missed), 0);
    IS(pthread_mutex_destroy(&missed.mutex), 0);
}

static void monotonic_wait(void) {
    struct meeting of = { .mutex = made(NONE, NORMAL) };
    struct timespec soon = in_milliseconds(30, CLOCK_MONOTONIC);
    pthread_condattr_t attributes;
    pthread_condattr_init(&attributes);
    pthread_condattr_setclock(&attributes, CLOCK_MONOTONIC);
    pthread_cond_init(&of.condition, &attributes);
    IS(do_enter(&of), 0);
    IS(pthread_cond_timedwait(&of.condition, &of.mutex, &soon), ETIMEDOUT);
    IS(is_past(&soon, CLOCK_MONOTONIC), true);
    IS(do_leave(&of), 0);
}

static void clean(void *of) {
    struct meeting *meeting = of;
    meeting->cleanups += pthread_mutex_unlock(&meeting->mutex) == 0;
}

static int do_cancelled_wait(void *of) {
    pthread_cleanup_push(clean, of);
    do_lock_and_wait(of);
    pthread_cleanup_pop(1);
    return 0;
}

/* A thread that is cancelled after a signal passes it on. */
static void cancelled_after_signal(void) {
    struct meeting of = { made(INHERIT, CHECKED), PTHREAD_COND_INITIALIZER, 0 };
    struct player guest;
    begin_player(&guest, "guest");
    IS(prio(&guest, 80), 0);
    IS(prio(&medium, 40), 0);
    blocks(&medium, do_lock_and_wait, &of);
    blocks(&guest, do_cancelled_wait, &of);
    IS(pthread_mutex_lock(&of.mutex), 0);
    IS(pthread_cond_signal(&of.condition), 0);
    pthread_cancel(guest.thread);
    usleep(5000);
    IS(of.cleanups, 0);
    IS(pthread_mutex_unlock(&of.mutex), 0);
    end_player(&guest);
    IS(of.cleanups, 1);
    IS(answer(&medium), 0);
    IS(does(&medium, do_leave, &of), 0);
}

/* A cancelled thread owns the mutex in its cleanup. */
static void cancelled_wait(void) {
    struct meeting of = { made(INHERIT, CHECKED), PTHREAD_COND_INITIALIZER, 0 };
    struct player guest;
    begin_player(&guest, "guest");
    blocks(&guest, do_cancelled_wait, &of);
    IS(pthread_mutex_lock(&of.mutex), 0);
    pthread_cancel(guest.thread);
    usleep(5000);
    IS(of.cleanups, 0);
    blocks(&low, do_lock, &of.mutex);
    IS(pthread_mutex_unlock(&of.mutex), 0);
    IS(answer(&low), 0); /* it is the higher one */
    IS(of.cleanups, 0);
    IS(does(&low, do_leave, &of), 0);
    end_player(&guest);
    IS(of.cleanups, 1);
    IS(pthread_mutex_destroy(&of.mutex), 0);
}

/* ---- many threads ---- */

static struct { pthread_mutex_t mutex; long count; int times; } counter;

static void *count(void *none) {
    for (int i = 0; i < counter.times; i++) {
        pthread_mutex_lock(&counter.mutex);
        counter.count++;
        pthread_mutex_unlock(&counter.mutex);
    }
    return none;
}

static void counted(int threads, int protocol, int type) {
    pthread_t all[8];
    counter.mutex = made(protocol, type);
    counter.count = 0;
    counter.times = protocol == PROTECT ? 2000 : 20000;
    for (int i = 0; i < threads; i++) pthread_create(&all[i], NULL, count, NULL);
    for (int i = 0; i < threads; i++) pthread_join(all[i], NULL);
    IS(counter.count, (long)threads * counter.times);
    IS(pthread_mutex_destroy(&counter.mutex), 0);
}

static void counts(void) {
    for (int protocol = NONE; protocol <= PROTECT; protocol++) {
        counted(2, protocol, NORMAL);
        counted(8, protocol, RECURSIVE);
    }
}

static struct meeting turn;
static int whose, turns;

static void *alternate(void *own) {
    pthread_mutex_lock(&turn.mutex);
    for (int i = 0; i < 2000; i++) {
        while (whose != (int)(intptr_t)own) pthread_cond_wait(&turn.condition, &turn.mutex);
        whose = 1 - whose;
        turns++;
        pthread_cond_signal(&turn.condition);
    }
    pthread_mutex_unlock(&turn.mutex);
    return NULL;
}

static void turns_of_two(void) {
    pthread_t both[2];
    turn = (struct meeting){ made(INHERIT, NORMAL), PTHREAD_COND_INITIALIZER, 0 };
    turns = 0;
    for (intptr_t i = 0; i < 2; i++) pthread_create(&both[i], NULL, alternate, (void *)i);
    for (int i = 0; i < 2; i++) pthread_join(both[i], NULL);
    IS(turns, 4000);
}

/* ---- threads and mutexes that come and go ---- */

static void *lock_and_end(void *mutex) {
    return (void *)(intptr_t)pthread_mutex_lock(mutex);
}

static int of_thread(void *(*function)(void *), void *with) {
    pthread_t thread;
    void *result;
    pthread_create(&thread, NULL, function, with);
    pthread_join(thread, &result);
    return (int)(intptr_t)result;
}

static void *unlock_of_another(void *mutex) {
    pthread_mutex_t own = made(NONE, NORMAL);
    pthread_mutex_lock(&own);
    int error = pthread_mutex_unlock(mutex);
    pthread_mutex_unlock(&own);
    return (void *)(intptr_t)error;
}

/* A mutex whose owner has ended stays locked, and the number of the owner is lent again. */
static void ended_owners(void) {
    for (int i = 0; i < 600; i++) {
        pthread_mutex_t m = made(i % 3, NORMAL);
        IS(of_thread(lock_and_end, &m), 0);
        IS(pthread_mutex_trylock(&m), EBUSY);
        IS(pthread_mutex_unlock(&m), EPERM);
        if (i < 3) IS(do_timed(&m), ETIMEDOUT);
        if (i < 3) IS(of_thread(unlock_of_another, &m), EPERM);
    }
}

static void ended_with_ceiling(void) {
    pthread_mutex_t m = made_with(PROTECT, NORMAL, 80);
    struct player guest;
    begin_player(&guest, "guest");
    events[0] = 0;
    IS(does(&guest, do_lock, &m), 0);
    LOG("guest 80");
    end_player(&guest);
    LOG("guest 0 policy 0");
}

static int do_second(void *mutex) {
    struct timespec late = in_milliseconds(1000, CLOCK_REALTIME);
    return pthread_mutex_timedlock(mutex, &late);
}

static atomic_int has_guest_ended;

static void wait_for_guest(void) {
    at_time_out = NULL;
    while (!atomic_load(&has_guest_ended)) pause_shortly();
}

/* The number of an owner for which others wait isn't lent again: it would own the mutex. */
static void ended_with_waiter(void) {
    pthread_mutex_t m = made(INHERIT, NORMAL);
    struct player guest;
    set_priorities();
    begin_player(&guest, "guest");
    IS(does(&guest, do_lock, &m), 0);
    at_time_out = wait_for_guest;
    blocks(&low, do_second, &m);
    end_player(&guest);
    name_thread("ended", atomic_load(&guest.id));
    IS(of_thread(unlock_of_another, &m), EPERM);
    events[0] = 0;
    atomic_store(&has_guest_ended, 1);
    IS(answer(&low), ETIMEDOUT);
    LOG(""); /* no priority of the ended thread is set */
    forget_name(atomic_load(&guest.id));
    IS(pthread_mutex_trylock(&m), EBUSY);
}

static pthread_barrier_t barrier;
static atomic_int owned, refused;
static struct meeting crowd;
static int sleeping;
static bool is_open;

static void join_crowd(void) {
    pthread_mutex_lock(&crowd.mutex);
    sleeping++;
    while (!is_open) pthread_cond_wait(&crowd.condition, &crowd.mutex);
    pthread_mutex_unlock(&crowd.mutex);
}

/* Wakes all once all sleep. */
static void open_to_crowd(void) {
    for (int there = 0; there < atomic_load(&owned); pause_shortly()) {
        pthread_mutex_lock(&crowd.mutex);
        there = sleeping;
        pthread_mutex_unlock(&crowd.mutex);
    }
    pthread_mutex_lock(&crowd.mutex);
    is_open = true;
    pthread_cond_broadcast(&crowd.condition);
    pthread_mutex_unlock(&crowd.mutex);
}

static void *lock_and_stay(void *none) {
    pthread_mutex_t m = made(NONE, NORMAL);
    int error = pthread_mutex_lock(&m);
    if (error == 0) atomic_fetch_add(&owned, 1);
    if (error == EAGAIN) atomic_fetch_add(&refused, 1);
    pthread_barrier_wait(&barrier);
    if (error != 0) return none;
    pthread_mutex_unlock(&m);
    join_crowd();
    return none;
}

/* 256 threads have a number, among them this one, the four players, and the ended one of the test above. */
static void too_many_threads(void) {
    enum { MANY = 256 };
    static pthread_t threads[MANY];
    pthread_barrier_init(&barrier, NULL, MANY + 1);
    crowd = (struct meeting){ made(INHERIT, NORMAL), PTHREAD_COND_INITIALIZER, 0 };
    for (int i = 0; i < MANY; i++) pthread_create(&threads[i], NULL, lock_and_stay, NULL);
    pthread_barrier_wait(&barrier);
    open_to_crowd();
    for (int i = 0; i < MANY; i++) pthread_join(threads[i], NULL);
    IS(atomic_load(&owned), 256 - 6);
    IS(atomic_load(&refused), 6);
    pthread_mutex_t m = made(INHERIT, NORMAL);
    IS(of_thread(lock_and_end, &m), 0);
}

/* ---- processes ---- */

static struct meeting common;
static atomic_int is_in_child;

static void *wait_in_child(void *mutex) {
    struct timespec late = in_milliseconds(3000, CLOCK_REALTIME);
    pthread_mutex_lock(mutex);
    atomic_store(&is_in_child, 1);
    return (void *)(intptr_t)pthread_cond_timedwait(&common.condition, mutex, &late);
}

/* A signal in the child is for a thread of the child. */
static int signal_in_child(void) {
    pthread_mutex_t m = made(INHERIT, NORMAL);
    pthread_t thread;
    void *result;
    pthread_create(&thread, NULL, wait_in_child, &m);
    while (!atomic_load(&is_in_child)) pause_shortly();
    pthread_mutex_lock(&m); /* the thread waits at the condition variable by now */
    pthread_mutex_unlock(&m);
    pthread_cond_signal(&common.condition);
    pthread_join(thread, &result);
    return (int)(intptr_t)result;
}

static void name_child(void) {
    name_thread("child", (pid_t)__real_syscall(SYS_gettid));
}

static int child(pthread_mutex_t *own, pthread_mutex_t *others) {
    struct sched_param param = { .sched_priority = 30 };
    if (strcmp(events, "child 0 policy 0") != 0) return 2;
    if (pthread_mutex_trylock(others) != EBUSY) return 3;
    if (pthread_mutex_unlock(own) != 0) return 4;
    if (of_thread(lock_and_end, own) != 0) return 5;
    if (signal_in_child() != 0) return 6;
    events[0] = 0;
    if (pthread_setschedparam(pthread_self(), SCHED_FIFO, &param) != 0) return 7;
    return strcmp(events, "child 30") != 0 ? 8 : 0;
}

/* A child owns what the thread that forked owned, nobody waits there, and it sets its own priority alone: its boost is over. */
static void forked(void) {
    pthread_mutex_t own = made(INHERIT, NORMAL), others = made(INHERIT, NORMAL);
    int status = -1;
    set_priorities();
    IS(does(&low, do_lock, &others), 0);
    blocks(&medium, do_lock, &others);
    IS(pthread_mutex_lock(&own), 0);
    blocks(&high, do_lock, &own);
    common = (struct meeting){ made(NONE, NORMAL), PTHREAD_COND_INITIALIZER, 0 };
    blocks(&other, do_lock_and_wait, &common);
    name_thread("parent", (pid_t)__real_syscall(SYS_gettid));
    fflush(stdout);
    events[0] = 0;
    pid_t process = fork();
    if (process == 0) _exit(child(&own, &others));
    waitpid(process, &status, 0);
    IS(status, 0);
    forget_name((pid_t)__real_syscall(SYS_gettid));
    IS(pthread_cond_signal(&common.condition), 0);
    IS(answer(&other), 0);
    IS(does(&other, do_leave, &common), 0);
    IS(pthread_mutex_unlock(&own), 0);
    IS(answer(&high), 0);
    IS(does(&high, do_unlock, &own), 0);
    IS(does(&low, do_unlock, &others), 0);
    IS(answer(&medium), 0);
    IS(does(&medium, do_unlock, &others), 0);
}

/* Robust mutexes are those of the C library, and so are waits with them. */
static void robust_waits(void) {
    struct meeting of = { .condition = PTHREAD_COND_INITIALIZER };
    pthread_mutexattr_t attributes;
    pthread_mutexattr_init(&attributes);
    pthread_mutexattr_setrobust(&attributes, PTHREAD_MUTEX_ROBUST);
    IS(pthread_mutex_init(&of.mutex, &attributes), 0);
    for (int i = 0; i < 2; i++) {
        IS(does(&low, do_enter, &of), 0);
        ask(&low, do_wait, &of);
        IS(pthread_mutex_lock(&of.mutex), 0); /* it waits at the condition variable by now */
        IS((i == 0 ? pthread_cond_signal : pthread_cond_broadcast)(&of.condition), 0);
        IS(pthread_mutex_unlock(&of.mutex), 0);
        IS(answer(&low), 0);
        IS(does(&low, do_timed_wait, &of), ETIMEDOUT);
        IS(does(&low, do_leave, &of), 0);
    }
    IS(pthread_mutex_destroy(&of.mutex), 0);
    pthread_mutexattr_setprotocol(&attributes, PROTECT);
    IS(pthread_mutex_init(&of.mutex, &attributes), ENOTSUP);
}

static void robust(void) {
    pthread_mutexattr_t attributes;
    pthread_mutex_t m;
    pthread_mutexattr_init(&attributes);
    pthread_mutexattr_setrobust(&attributes, PTHREAD_MUTEX_ROBUST);
    IS(pthread_mutex_init(&m, &attributes), 0);
    IS(of_thread(lock_and_end, &m), 0);
    IS(pthread_mutex_lock(&m), EOWNERDEAD);
    IS(pthread_mutex_consistent(&m), 0);
    IS(pthread_mutex_unlock(&m), 0);
    IS(pthread_mutex_trylock(&m), 0);
    IS(pthread_mutex_unlock(&m), 0);
    IS(pthread_mutex_destroy(&m), 0);
}

static void test(const char *name, void (*function)(void)) {
    int before = wrongs;
    test_name = name;
    events[0] = 0;
    function();
    if (wrongs == before) printf("ok pthreads.c: %s\n", test_name);
    fflush(stdout);
}

int main(void) {
    alarm(100);
    pthread_atfork(NULL, NULL, name_child); /* before the library's own */
    begin_player(&other, "other");
    begin_player(&low, "low");
    begin_player(&medium, "medium");
    begin_player(&high, "high");
    test("the results of calls", results);
    test("a mutex that detects errors", checked);
    test("a recursive mutex", recursive);
    test("ceilings", ceilings);
    test("the ceiling of an owned mutex", ceiling_of_owned);
    test("a chain of three", chain);
    test("a ceiling is handed on", handed_ceiling);
    test("policies of boosted threads", policies);
    test("a number that is lent again", number_lent_again);
    test("a signal's handler", interrupted);
    test("a time-out", time_out);
    test("a mutex that is handed just in time", just_in_time);
    test("the order of waiters", order);
    test("a cycle is refused", cycle);
    test("a thread that owns many mutexes", many_owned);
    test("mutexes unlocked in another order", unlocked_in_another_order);
    test("more mutexes than numbers", too_many_mutexes);
    test("a thread without a number", unknown_thread);
    test("without rights", no_rights);
    test("signals", signals);
    test("the order of signals", signals_in_order);
    test("a wait with a recursive mutex", recursive_wait);
    test("a signalled thread waits for its mutex", signalled_waits);
    test("a signalled thread that would close a cycle", signalled_into_cycle);
    test("waits that fail", waits_that_fail);
    test("a signal just in time", signalled_just_in_time);
    test("a monotonic wait", monotonic_wait);
    test("a cancelled wait", cancelled_wait);
    test("a cancelled wait passes its signal on", cancelled_after_signal);
    test("two and eight threads count", counts);
    test("two threads take turns", turns_of_two);
    test("owners that have ended", ended_owners);
    test("an owner that has ended, with a ceiling", ended_with_ceiling);
    test("an owner that has ended, with a waiter", ended_with_waiter);
    test("more threads than numbers", too_many_threads);
    test("a child of fork", forked);
    test("a robust mutex", robust);
    test("waits with a robust mutex", robust_waits);
    struct player *players[] = { &other, &low, &medium, &high };
    for (int i = 0; i < 4; i++) end_player(players[i]);
    return wrongs != 0;
}
