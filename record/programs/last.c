/* Does what each line of standard input says, and prints 'done' behind it: 'busy' and 'quiet' are
 * of a thread each, 'main' of the first one, 'short' of threads that end. 'named' gives the busy
 * thread a name, and makes it SCHED_BATCH. 'fork' forks a process that locks, too. For 'wait' a
 * thread at SCHED_FIFO 80 waits for a mutex for 20 ms, for 'plain' one without a priority, for
 * 'stuck' until the next line. For 'beside' the quiet one waits for the first one. For 'deep' the
 * first thread owns twelve mutexes at a time, one of them three times. */
#define _GNU_SOURCE
#include "common.h"

enum { PAIRS = 5110, SHORT = 50, WAIT_MS = 20, DEEP = 12 };

struct worker {
    sem_t go, done;
    pthread_mutex_t mutex;
    _Atomic pid_t at_work;
    int pairs;
};

static struct worker busy, quiet;
static pthread_mutex_t awaited = PTHREAD_MUTEX_INITIALIZER;
static _Atomic pid_t waiting;

static void make_pairs(pthread_mutex_t *mutex, int count) {
    for (int i = 0; i < count; i++) {
        lock(mutex);
        unlock(mutex);
    }
}

static void *serve(void *argument) {
    struct worker *own = argument;
    make(&own->mutex, PTHREAD_PRIO_INHERIT, PTHREAD_MUTEX_NORMAL, 0);
    for (;;) {
        sem_post(&own->done);
        while (sem_wait(&own->go) != 0) continue;
        comes(&own->at_work);
        make_pairs(&own->mutex, own->pairs);
    }
    return NULL;
}

static pthread_t serve_by(struct worker *worker, int pairs) {
    worker->pairs = pairs;
    pthread_t thread = start(serve, worker);
    while (sem_wait(&worker->done) != 0) continue;
    return thread;
}

static void have_done(struct worker *worker) {
    sem_post(&worker->go);
    while (sem_wait(&worker->done) != 0) continue;
}

/* Neither of the two has another record to put between the lock and the request. */
static void let_wait_beside(struct worker *worker) {
    lock(&worker->mutex);
    worker->at_work = 0;
    sem_post(&worker->go);
    while (!worker->at_work) rest(1);
    until_waits(&worker->at_work);
    unlock(&worker->mutex);
    while (sem_wait(&worker->done) != 0) continue;
}

static void *once(void *unused) {
    make_pairs(&awaited, 1);
    return unused;
}

static void *wait_for_it(void *unused) {
    comes(&waiting);
    lock(&awaited);
    unlock(&awaited);
    return unused;
}

/* Lets a thread wait for 20 ms, or until a line comes. */
static void let_wait(int priority, bool is_until_line) {
    char line[64];
    lock(&awaited);
    pthread_t thread = priority ? start_at(priority, wait_for_it, NULL) : start(wait_for_it, NULL);
    while (!waiting) rest(1);
    until_waits(&waiting);
    if (is_until_line) {
        puts("done");
        fflush(stdout);
        if (!fgets(line, sizeof line, stdin)) exit(1);
    } else {
        rest(WAIT_MS);
    }
    unlock(&awaited);
    join(thread);
    waiting = 0;
}

static void fork_one(void) {
    int status = 0;
    lock(&awaited);
    pid_t child = fork();
    unlock(&awaited);
    if (child == 0) {
        make_pairs(&awaited, 1);
        exit(0);
    }
    if (child < 0 || waitpid(child, &status, 0) != child || status) exit(1);
}

/* The one that was locked first is released first. */
static void go_deep(void) {
    static pthread_mutex_t deep[DEEP];
    for (int i = 0; i < DEEP; i++)
        make(&deep[i], PTHREAD_PRIO_NONE, i ? PTHREAD_MUTEX_NORMAL : PTHREAD_MUTEX_RECURSIVE, 0);
    for (int i = -2; i < DEEP; i++) lock(&deep[i < 0 ? 0 : i]);
    for (int i = -2; i < DEEP; i++) unlock(&deep[i < 0 ? 0 : i]);
}

static void do_it(const char *line, pthread_t thread) {
    struct sched_param none = { 0 };
    if (strcmp(line, "busy\n") == 0) have_done(&busy);
    if (strcmp(line, "quiet\n") == 0) have_done(&quiet);
    if (strcmp(line, "main\n") == 0) make_pairs(&awaited, PAIRS);
    if (strcmp(line, "short\n") == 0)
        for (int i = 0; i < SHORT; i++) join(start(once, NULL));
    if (strcmp(line, "named\n") == 0) must(pthread_setname_np(thread, "the-busy-one"), "setname");
    if (strcmp(line, "named\n") == 0)
        must(pthread_setschedparam(thread, SCHED_BATCH, &none), "setschedparam");
    if (strcmp(line, "fork\n") == 0) fork_one();
    if (strcmp(line, "beside\n") == 0) let_wait_beside(&quiet);
    if (strcmp(line, "deep\n") == 0) go_deep();
    if (strcmp(line, "wait\n") == 0) let_wait(80, false);
    if (strcmp(line, "plain\n") == 0) let_wait(0, false);
    if (strcmp(line, "stuck\n") == 0) let_wait(80, true);
}

int main(void) {
    char line[64];
    serve_by(&quiet, 1);
    pthread_t thread = serve_by(&busy, PAIRS);
    while (fgets(line, sizeof line, stdin)) {
        do_it(line, thread);
        puts("done");
        fflush(stdout);
    }
    return 0;
}
