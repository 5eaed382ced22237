/* others CASE: waits for what isn't a mutex. 'waits': a thread waits by each call, and sleeps
 * before the first one ends that. 'at-once': nothing has to be waited for. 'errors': calls that
 * fail. 'cancel': threads that are cancelled. 'handler': a post in a handler of a thread that
 * waits. 'storm': posts, and posts in handlers that interrupt them. It prints where each object is,
 * and what calls returned. A comment at the end of a line names the line. */
#define _GNU_SOURCE
#include "common.h"

#include <limits.h>
#include <signal.h>

enum { POSTS = 20000, SIGNALS = 100, UNCHANGED = 77 };

static sem_t semaphore, other;
static pthread_rwlock_t rwlock = PTHREAD_RWLOCK_INITIALIZER;
static pthread_barrier_t barrier;
static pthread_mutex_t mutex = PTHREAD_MUTEX_INITIALIZER;
static pthread_cond_t condition = PTHREAD_COND_INITIALIZER;
static pthread_t awaited;
static int ends[2]; /* of the pipe that the awaited thread reads */
static bool is_signalled;
static struct timespec late, late_monotonic;
static const struct timespec past = { 1, 0 }, wrong = { 1, 1000000000 }, negative = { 1, -1 };
static _Atomic pid_t waiter;

static void print_result(const char *name, int result, int error) {
    printf("result %s %d %d\n", name, result, error);
    fflush(stdout);
}

/* Prints what a call returns, and errno behind it. */
#define CALL(name, call) \
    do { \
        errno = UNCHANGED; \
        int result = call; \
        print_result(name, result, errno); \
    } while (0)

/* ---- a wait by each call ---- */

static int by_sem_wait(void) {
    return sem_wait(&semaphore); // SEM_WAIT
}

static int by_sem_timedwait(void) {
    return sem_timedwait(&semaphore, &late); // SEM_TIMEDWAIT
}

static int by_sem_clockwait(void) {
    return sem_clockwait(&semaphore, CLOCK_MONOTONIC, &late_monotonic); // SEM_CLOCKWAIT
}

static int by_rdlock(void) {
    return pthread_rwlock_rdlock(&rwlock); // RDLOCK
}

static int by_timedrdlock(void) {
    return pthread_rwlock_timedrdlock(&rwlock, &late); // TIMEDRDLOCK
}

static int by_clockrdlock(void) {
    return pthread_rwlock_clockrdlock(&rwlock, CLOCK_MONOTONIC, &late_monotonic); // CLOCKRDLOCK
}

static int by_wrlock(void) {
    return pthread_rwlock_wrlock(&rwlock); // WRLOCK
}

static int by_timedwrlock(void) {
    return pthread_rwlock_timedwrlock(&rwlock, &late); // TIMEDWRLOCK
}

static int by_clockwrlock(void) {
    return pthread_rwlock_clockwrlock(&rwlock, CLOCK_MONOTONIC, &late_monotonic); // CLOCKWRLOCK
}

static int by_barrier(void) {
    return pthread_barrier_wait(&barrier) != PTHREAD_BARRIER_SERIAL_THREAD; // BARRIER
}

static int by_join(void) {
    void *result = NULL;
    int error = pthread_join(awaited, &result); // JOIN
    return error ? error : *(int *)result;
}

static int by_timedjoin(void) {
    void *result = NULL;
    int error = pthread_timedjoin_np(awaited, &result, &late); // TIMEDJOIN
    return error ? error : *(int *)result;
}

static int by_clockjoin(void) {
    void *result = NULL;
    int error = pthread_clockjoin_np(awaited, &result, CLOCK_MONOTONIC, &late_monotonic); // CLOCKJOIN
    return error ? error : *(int *)result;
}

static int by_condition(void) {
    lock(&mutex);
    while (!is_signalled) pthread_cond_wait(&condition, &mutex);
    unlock(&mutex);
    return 0;
}

/* ---- what makes them wait, and what ends that ---- */

static void *await_byte(void *result) {
    char byte;
    return read(ends[0], &byte, 1) == 1 ? result : NULL;
}

static void start_awaited(void) {
    static int result = 42;
    awaited = start(await_byte, &result);
    printf("object thread %#lx\n", (unsigned long)awaited);
}

static void end_awaited(void) {
    if (write(ends[1], "x", 1) != 1) exit(1);
}

static void nothing(void) {
}

static void hold_to_write(void) {
    must(pthread_rwlock_wrlock(&rwlock), "wrlock");
}

static void hold_to_read(void) {
    must(pthread_rwlock_rdlock(&rwlock), "rdlock");
}

static void leave(void) {
    must(pthread_rwlock_unlock(&rwlock), "unlock"); // LEAVE
}

static void end_unlock(void) {
    must(pthread_rwlock_unlock(&rwlock), "unlock"); // UNLOCK
}

static void end_post(void) {
    must(sem_post(&semaphore), "post"); // POST
}

static void end_barrier(void) {
    pthread_barrier_wait(&barrier); // LAST
}

static void end_signal(void) {
    lock(&mutex);
    is_signalled = true;
    must(pthread_cond_signal(&condition), "signal"); // SIGNAL
    unlock(&mutex);
}

static void end_broadcast(void) {
    lock(&mutex);
    is_signalled = true;
    must(pthread_cond_broadcast(&condition), "broadcast"); // BROADCAST
    unlock(&mutex);
}

static void begin_again(void) {
    is_signalled = false;
}

static const struct wait {
    const char *name;
    int (*call)(void);
    void (*before)(void), (*end)(void), (*behind)(void);
} waits[] = {
    { "sem_wait", by_sem_wait, nothing, end_post, nothing },
    { "sem_timedwait", by_sem_timedwait, nothing, end_post, nothing },
    { "sem_clockwait", by_sem_clockwait, nothing, end_post, nothing },
    { "rdlock", by_rdlock, hold_to_write, end_unlock, leave },
    { "timedrdlock", by_timedrdlock, hold_to_write, end_unlock, leave },
    { "clockrdlock", by_clockrdlock, hold_to_write, end_unlock, leave },
    { "wrlock", by_wrlock, hold_to_read, end_unlock, leave },
    { "timedwrlock", by_timedwrlock, hold_to_write, end_unlock, leave },
    { "clockwrlock", by_clockwrlock, hold_to_read, end_unlock, leave },
    { "join", by_join, start_awaited, end_awaited, nothing },
    { "timedjoin", by_timedjoin, start_awaited, end_awaited, nothing },
    { "clockjoin", by_clockjoin, start_awaited, end_awaited, nothing },
    { "signal", by_condition, nothing, end_signal, begin_again },
    { "broadcast", by_condition, nothing, end_broadcast, begin_again },
    { "barrier", by_barrier, nothing, end_barrier, nothing },
};

static void *wait_by(void *of) {
    const struct wait *wait = of;
    comes(&waiter);
    errno = UNCHANGED;
    int result = wait->call();
    int error = errno;
    wait->behind();
    print_result(wait->name, result, error);
    return NULL;
}

/* Starts a thread that runs as soon as it can, where that is permitted. */
static pthread_t start_first(void *(*body)(void *), const void *argument) {
    struct sched_param param = { .sched_priority = 30 };
    pthread_attr_t attributes;
    pthread_t thread;
    waiter = 0;
    pthread_attr_init(&attributes);
    pthread_attr_setinheritsched(&attributes, PTHREAD_EXPLICIT_SCHED);
    pthread_attr_setschedpolicy(&attributes, SCHED_FIFO);
    pthread_attr_setschedparam(&attributes, &param);
    if (pthread_create(&thread, &attributes, body, (void *)argument) != 0)
        thread = start(body, (void *)argument);
    pthread_attr_destroy(&attributes);
    return thread;
}

/* Waits until a thread has come and sleeps. */
static void until_it_waits(void) {
    while (!waiter) rest(1);
    until_waits(&waiter);
}

/* This puts no record. */
static void *collect(pthread_t thread) {
    void *result;
    while (pthread_tryjoin_np(thread, &result) == EBUSY) rest(1);
    return result;
}

static void do_waits(void) {
    for (size_t i = 0; i < sizeof waits / sizeof *waits; i++) {
        waits[i].before();
        pthread_t thread = start_first(wait_by, &waits[i]);
        until_it_waits();
        waits[i].end();
        collect(thread);
    }
}

/* ---- what can be had at once ---- */

/* Makes a thread that has ended, and isn't joined. */
static void *come(void *result) {
    comes(&waiter);
    return result;
}

static void make_ended(void) {
    static int result = 43;
    char path[64];
    waiter = 0;
    awaited = start(come, &result);
    while (!waiter) rest(1);
    snprintf(path, sizeof path, "/proc/self/task/%d", waiter);
    while (access(path, F_OK) == 0) rest(1);
}

static void do_at_once(void) {
    for (int i = 0; i < 3; i++) must(sem_post(&semaphore), "post"); // POST
    CALL("sem_wait", by_sem_wait());
    CALL("sem_timedwait", by_sem_timedwait());
    CALL("sem_clockwait", by_sem_clockwait());
    for (size_t i = 3; i < 9; i++) {
        CALL(waits[i].name, waits[i].call());
        end_unlock();
    }
    hold_to_read();
    CALL("another reader", by_rdlock());
    end_unlock();
    leave();
    for (size_t i = 9; i < 12; i++) {
        make_ended();
        CALL(waits[i].name, waits[i].call());
    }
    must(pthread_cond_signal(&condition), "signal");       // SIGNAL
    must(pthread_cond_broadcast(&condition), "broadcast"); // BROADCAST
    pthread_barrier_destroy(&barrier);
    pthread_barrier_init(&barrier, NULL, 1);
    CALL("barrier", by_barrier());
}

/* ---- errors ---- */

static void ignore(int number) {
    (void)number;
}

static void fail_semaphore(void) {
    CALL("a time that is past", sem_timedwait(&semaphore, &past)); // TIMED_OUT
    CALL("a clock that is past", sem_clockwait(&semaphore, CLOCK_MONOTONIC, &past)); // CLOCKED_OUT
    must(sem_post(&semaphore), "post"); // POST
    CALL("a wrong time", sem_timedwait(&semaphore, &wrong));
    CALL("a time below 0", sem_timedwait(&semaphore, &negative));
    CALL("a wrong time of a clock", sem_clockwait(&semaphore, CLOCK_MONOTONIC, &wrong));
    CALL("a wrong clock", sem_clockwait(&semaphore, CLOCK_PROCESS_CPUTIME_ID, &late));
    CALL("none of them has taken it", sem_trywait(&semaphore));
    sem_init(&other, 0, SEM_VALUE_MAX);
    CALL("a post too many", sem_post(&other)); // TOO_MANY
}

static void fail_rwlock(void) {
    hold_to_write();
    CALL("a reader of its own lock", by_rdlock());
    CALL("a writer of its own lock", by_wrlock());
    end_unlock();
    CALL("a reader and a wrong time", pthread_rwlock_timedrdlock(&rwlock, &wrong));
    CALL("a writer and a wrong time", pthread_rwlock_timedwrlock(&rwlock, &wrong));
    CALL("a reader and a wrong clock",
         pthread_rwlock_clockrdlock(&rwlock, CLOCK_PROCESS_CPUTIME_ID, &late));
    CALL("a writer and a wrong clock",
         pthread_rwlock_clockwrlock(&rwlock, CLOCK_PROCESS_CPUTIME_ID, &late));
    hold_to_read();
    CALL("a writer whose time is past", pthread_rwlock_timedwrlock(&rwlock, &past)); // WRITE_OUT
    leave();
}

static void *read_late(void *unused) {
    CALL("a reader whose time is past", pthread_rwlock_timedrdlock(&rwlock, &past)); // READ_OUT
    return unused;
}

static void fail_join(void) {
    CALL("its own end", pthread_join(pthread_self(), NULL)); // OWN_END
    start_awaited();
    CALL("an end whose time is past", pthread_timedjoin_np(awaited, NULL, &past)); // JOIN_OUT
    CALL("an end and a wrong clock",
         pthread_clockjoin_np(awaited, NULL, CLOCK_PROCESS_CPUTIME_ID, &late));
    end_awaited();
    collect(awaited);
}

static void do_errors(void) {
    struct sigaction action = { .sa_handler = ignore };
    fail_semaphore();
    fail_rwlock();
    hold_to_write();
    collect(start(read_late, NULL));
    leave();
    fail_join();
    sigaction(SIGUSR1, &action, NULL);
    pthread_t thread = start_first(wait_by, &waits[0]);
    until_it_waits();
    pthread_kill(thread, SIGUSR1); /* it returns EINTR */
    collect(thread);
}

/* ---- cancellation ---- */

static void post_other(void *unused) {
    (void)unused;
    sem_post(&other); // CLEANUP
}

static void *be_cancelled(void *of) {
    comes(&waiter);
    pthread_cleanup_push(post_other, NULL);
    ((const struct wait *)of)->call();
    pthread_cleanup_pop(0);
    return NULL;
}

/* Cancels itself before it waits. */
static void *cancel_itself(void *of) {
    pthread_setcancelstate(PTHREAD_CANCEL_DISABLE, NULL);
    pthread_cancel(pthread_self());
    pthread_setcancelstate(PTHREAD_CANCEL_ENABLE, NULL);
    ((const struct wait *)of)->call();
    return NULL;
}

static void do_cancel(void) {
    static const size_t cancelled[] = { 0, 1, 2, 9, 10, 11 }; /* sem_wait .. clockjoin */
    for (size_t i = 0; i < 6; i++) {
        const struct wait *wait = &waits[cancelled[i]];
        wait->before();
        pthread_t thread = start_first(be_cancelled, wait);
        until_it_waits();
        pthread_cancel(thread);
        print_result(wait->name, collect(thread) == PTHREAD_CANCELED, 0);
        if (i > 2) wait->end();
        if (i > 2) collect(awaited);
    }
    for (size_t i = 0; i < 6; i++) {
        int value;
        if (i < 3) sem_init(&semaphore, 0, 1);
        if (i > 2) make_ended();
        pthread_t thread = start_first(cancel_itself, &waits[cancelled[i]]);
        bool is_cancelled = collect(thread) == PTHREAD_CANCELED;
        sem_getvalue(&semaphore, &value);
        print_result("pending", is_cancelled, i < 3 ? value : 0);
        if (i > 2 && is_cancelled) collect(awaited);
    }
}

/* ---- handlers ---- */

static _Atomic long handled;

static void post_in_handler(int number) {
    (void)number;
    sem_post(&other); // HANDLER
    handled++;
}

static void do_handler(void) {
    struct sigaction action = { .sa_handler = post_in_handler, .sa_flags = SA_RESTART };
    sigaction(SIGUSR1, &action, NULL);
    pthread_t thread = start_first(wait_by, &waits[0]);
    until_it_waits();
    pthread_kill(thread, SIGUSR1);
    while (!handled) rest(1);
    until_it_waits();
    end_post();
    collect(thread);
}

static _Atomic bool is_over;
static pthread_t posts;

static void *send_signals(void *unused) {
    while (!is_over) {
        long before = handled;
        pthread_kill(posts, SIGUSR1);
        while (handled == before && !is_over) continue;
    }
    return unused;
}

static void do_storm(void) {
    struct sigaction action = { .sa_handler = post_in_handler };
    int value;
    sigaction(SIGUSR1, &action, NULL);
    posts = pthread_self();
    pthread_t sender = start(send_signals, NULL);
    for (int i = 0; i < POSTS || handled < SIGNALS; i++) {
        sem_post(&semaphore);
        if (i >= POSTS) rest(1);
    }
    is_over = true;
    collect(sender);
    sem_getvalue(&semaphore, &value);
    print_result("posts", value, 0);
    sem_getvalue(&other, &value);
    print_result("handled", value, value == handled);
}

int main(int count, char **arguments) {
    static const struct { const char *name; void (*plays)(void); } cases[] = {
        { "waits", do_waits }, { "at-once", do_at_once }, { "errors", do_errors },
        { "cancel", do_cancel }, { "handler", do_handler }, { "storm", do_storm },
    };
    if (count != 2) return 2;
    sem_init(&semaphore, 0, 0);
    sem_init(&other, 0, 0);
    pthread_barrier_init(&barrier, NULL, 2);
    if (pipe(ends) != 0) return 1;
    late = after(CLOCK_REALTIME, 36000000);
    late_monotonic = after(CLOCK_MONOTONIC, 36000000);
    printf("object semaphore %p\nobject other %p\nobject rwlock %p\nobject barrier %p\n"
           "object condition %p\nobject main %#lx\n", (void *)&semaphore, (void *)&other,
           (void *)&rwlock, (void *)&barrier, (void *)&condition, (unsigned long)pthread_self());
    if (strcmp(arguments[1], "storm") != 0) stay_on_one_cpu();
    for (size_t i = 0; i < sizeof cases / sizeof *cases; i++)
        if (strcmp(arguments[1], cases[i].name) == 0) cases[i].plays();
    return 0;
}
