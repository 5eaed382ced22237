/* futexes: a thread (80) waits in each way that futex(2) has, and main (10) ends that, on one CPU.
 * Prints a line for each wait: the waiter's task, the address, private or shared, what the kernel
 * returned, and the task that woke the waiter: 'any' by an interrupt, and 'none' where it didn't
 * sleep.
 *
 * futexes attach FILE: waits so while a recording is attached, at any priority. It reads a line
 * from its input before it goes on and one before it ends, and says what it wants from outside:
 * 'ready', a line; 'outside', a wake of the first word of FILE; 'done', a line. */
#define _GNU_SOURCE
#include "common.h"

#include <linux/futex.h>
#include <signal.h>
#include <sys/mman.h>

enum { SHARED = 0, PRIVATE = FUTEX_PRIVATE_FLAG, RESTART = -512, TIMES_OUT = 5 };

static uint32_t word, other, pi;
static sem_t semaphore;
static _Atomic pid_t waiter;
static _Atomic int step; /* the number of the wait that the thread begins */
static int go[2];

static pid_t self(void) { return (pid_t)syscall(SYS_gettid); }

/* Returns the result, or the error below 0. */
static int futex(void *at, int operation, uint32_t value, const void *fourth, void *second,
                 uint32_t last) {
    long result = syscall(SYS_futex, at, operation, value, fourth, second, last);
    return result < 0 ? -errno : (int)result;
}

static int wait_at(void *at, int operation, const struct timespec *until) {
    return futex(at, operation, 0, until, &pi, FUTEX_BITSET_MATCH_ANY);
}

static void wake(void *at, int flag) {
    expect(futex(at, FUTEX_WAKE | flag, 1, NULL, NULL, 0), 1, "FUTEX_WAKE");
}

static void say(pid_t task, const void *at, int flag, int result, const char *waker) {
    printf("%d %p %s %d %s\n", (int)task, at, flag ? "private" : "shared", result, waker);
    fflush(stdout);
}

static void say_woken(pid_t task, const void *at, int flag, int result) {
    char waker[16];
    snprintf(waker, sizeof waker, "%d", (int)getpid());
    say(task, at, flag, result, waker);
}

/* ---- all ways ---- */

static void be_told(int number) { (void)number; }

/* Begins a step, which main knows of, and waits. */
static void wait_in(int wanted, void *at, int operation, const struct timespec *until, int result) {
    step = wanted;
    expect(wait_at(at, operation, until), result, "a wait");
}

static void *high(void *unused) {
    const struct timespec soon = { 0, TIMES_OUT * 1000000 };
    comes(&waiter);
    wait_in(1, &word, FUTEX_WAIT_PRIVATE, NULL, 0);
    wait_in(2, &word, FUTEX_WAIT_BITSET, NULL, 0);
    step = 3;
    expect(sem_wait(&semaphore), 0, "sem_wait");
    wait_in(4, &word, FUTEX_WAIT_PRIVATE, &soon, -ETIMEDOUT);
    expect(futex(&word, FUTEX_WAIT_PRIVATE, 1, NULL, NULL, 0), -EAGAIN, "another value");
    wait_in(5, &word, FUTEX_WAIT_PRIVATE, NULL, 0); /* and is requeued */
    wait_in(6, &word, FUTEX_WAIT_PRIVATE, NULL, -EINTR);
    wait_in(7, &other, FUTEX_WAIT_REQUEUE_PI_PRIVATE, NULL, 0);
    expect(futex(&pi, FUTEX_UNLOCK_PI_PRIVATE, 0, NULL, NULL, 0), 0, "FUTEX_UNLOCK_PI");
    return unused;
}

static void until_step(int wanted) {
    while (step != wanted) rest(1);
    until_waits(&waiter);
}

static void requeue(void) {
    int operation = FUTEX_CMP_REQUEUE_PRIVATE;
    expect(futex(&word, operation, 0, (void *)1, &other, 0), 1, "FUTEX_CMP_REQUEUE");
    wake(&other, PRIVATE);
}

static void requeue_to_mutex(void) {
    int operation = FUTEX_CMP_REQUEUE_PI_PRIVATE;
    expect(futex(&other, operation, 1, (void *)0, &pi, 0), 1, "FUTEX_CMP_REQUEUE_PI");
}

static void wait_in_all_ways(void) {
    struct sigaction told = { .sa_handler = be_told };
    sigaction(SIGUSR1, &told, NULL);
    sem_init(&semaphore, 0, 0);
    pthread_t thread = start_at(80, high, NULL);
    until_step(1);
    wake(&word, PRIVATE);
    until_step(2);
    wake(&word, SHARED);
    until_step(3);
    sem_post(&semaphore);
    until_step(5);
    requeue();
    until_step(6);
    pthread_kill(thread, SIGUSR1);
    until_step(7);
    requeue_to_mutex();
    join(thread);
    say_woken(waiter, &word, PRIVATE, 0);
    say_woken(waiter, &word, SHARED, 0);
    say_woken(waiter, &semaphore, PRIVATE, 0);
    say(waiter, &word, PRIVATE, -ETIMEDOUT, "any");
    say(waiter, &word, PRIVATE, -EAGAIN, "none");
    say_woken(waiter, &word, PRIVATE, 0);
    say_woken(waiter, &word, PRIVATE, RESTART);
    say_woken(waiter, &other, PRIVATE, 0);
}

/* ---- while a recording is attached ---- */

static _Atomic pid_t early_task, old_task, new_task;

static void *early(void *at) {
    comes(&early_task);
    expect(wait_at(at, FUTEX_WAIT_PRIVATE, NULL), 0, "early");
    return NULL;
}

static void *new(void *at) {
    comes(&new_task);
    expect(wait_at(at, FUTEX_WAIT_PRIVATE, NULL), 0, "new");
    return NULL;
}

/* Is there before the recording, and waits and makes a thread then. */
static void *old(void *words) {
    char line;
    expect((int)read(go[0], &line, 1), 1, "read");
    pthread_t thread = start(new, (uint32_t *)words + 1);
    until_waits(&new_task);
    comes(&old_task);
    expect(wait_at(words, FUTEX_WAIT_PRIVATE, NULL), 0, "old");
    join(thread);
    return NULL;
}

static void hear(const char *wanted) {
    char line[64];
    puts(wanted);
    fflush(stdout);
    if (!fgets(line, sizeof line, stdin)) exit(1);
}

/* Waits at the first word of the file for somebody outside. */
static void wait_outside(const char *path) {
    int file = open(path, O_RDWR | O_CLOEXEC);
    void *at = mmap(NULL, sizeof word, PROT_READ | PROT_WRITE, MAP_SHARED, file, 0);
    if (at == MAP_FAILED) exit(1);
    puts("outside");
    fflush(stdout);
    expect(wait_at(at, FUTEX_WAIT, NULL), 0, "outside");
    say(self(), at, SHARED, 0, "outside");
}

static void wait_while_attached(const char *path) {
    static uint32_t words[3];
    expect(pipe(go), 0, "pipe");
    pthread_t before = start(early, &words[2]), olds = start(old, words);
    until_waits(&early_task);
    hear("ready");
    wake(&words[2], PRIVATE);
    join(before);
    expect((int)write(go[1], "x", 1), 1, "write");
    while (!new_task || !old_task) rest(1);
    until_waits(&new_task);
    wake(&words[1], PRIVATE);
    until_waits(&old_task);
    wake(&words[0], PRIVATE);
    join(olds);
    printf("early %d new %d\n", early_task, new_task);
    say_woken(new_task, &words[1], PRIVATE, 0);
    say_woken(old_task, &words[0], PRIVATE, 0);
    wait_outside(path);
    hear("done");
}

int main(int count, char **arguments) {
    if (count == 3) {
        wait_while_attached(arguments[2]);
        return 0;
    }
    stay_on_one_cpu();
    be_real_time(10);
    wait_in_all_ways();
    return 0;
}
