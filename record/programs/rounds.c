/* rounds pairs COUNT: for each line of standard input, a thread locks and unlocks a mutex COUNT
 * times, and prints how many page faults it had in that. rounds threads COUNT: for each line,
 * COUNT threads lock and unlock the mutex once, one by one. rounds processes COUNT: so do COUNT
 * processes. rounds urgent COUNT: for each line, a thread makes COUNT pairs, and then another one,
 * at SCHED_FIFO, makes 1,000 and prints how many page faults it had in those. */
#define _GNU_SOURCE
#include "common.h"

#include <sys/resource.h>

static pthread_mutex_t mutex = PTHREAD_MUTEX_INITIALIZER;
static pthread_barrier_t turn;
static long count;

static bool reads_line(void) {
    int read = getchar();
    while (read != '\n' && read != EOF) read = getchar();
    return read == '\n';
}

static void make_pairs(long pairs) {
    for (long i = 0; i < pairs; i++) {
        lock(&mutex);
        unlock(&mutex);
    }
}

static long page_faults(void) {
    struct rusage used;
    getrusage(RUSAGE_THREAD, &used);
    return used.ru_minflt + used.ru_majflt;
}

static void *in_rounds(void *unused) {
    make_pairs(1);
    page_faults();
    while (reads_line()) {
        long before = page_faults();
        make_pairs(count);
        long after = page_faults();
        printf("%ld\n", after - before);
        fflush(stdout);
    }
    return unused;
}

static void *urgent(void *unused) {
    be_real_time(80);
    make_pairs(1);
    page_faults();
    for (;;) {
        pthread_barrier_wait(&turn);
        long before = page_faults();
        make_pairs(1000);
        printf("%ld\n", page_faults() - before);
        fflush(stdout);
        pthread_barrier_wait(&turn);
    }
    return unused;
}

static void take_turns(void) {
    pthread_barrier_init(&turn, NULL, 2);
    start(urgent, NULL);
    while (reads_line()) {
        make_pairs(count);
        pthread_barrier_wait(&turn);
        pthread_barrier_wait(&turn);
    }
}

static void *once(void *unused) {
    make_pairs(1);
    return unused;
}

static void in_process(void) {
    int status;
    pid_t child = fork();
    if (child == 0) {
        make_pairs(1);
        _exit(0);
    }
    if (child < 0 || waitpid(child, &status, 0) != child || status) exit(1);
}

int main(int number, char **arguments) {
    if (number != 3 || (count = atol(arguments[2])) < 1) return 2;
    if (strcmp(arguments[1], "pairs") == 0) {
        join(start(in_rounds, NULL));
        return 0;
    }
    if (strcmp(arguments[1], "urgent") == 0) {
        take_turns();
        return 0;
    }
    bool are_processes = strcmp(arguments[1], "processes") == 0;
    while (reads_line()) {
        for (long i = 0; i < count && are_processes; i++) in_process();
        for (long i = 0; i < count && !are_processes; i++) join(start(once, NULL));
        puts("done");
        fflush(stdout);
    }
    return 0;
}
