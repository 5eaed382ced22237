#define _GNU_SOURCE
#include "running.h"

#include "../kernel/record.h"
#include "../library/clock.h"
#include "guard.h"
#include "ordinary.h"

#include <errno.h>
#include <poll.h>
#include <signal.h>
#include <stdbool.h>
#include <stdio.h>
#include <stdlib.h>
#include <string.h>
#include <sys/signalfd.h>
#include <sys/syscall.h>
#include <time.h>
#include <unistd.h>

enum { FAULT = 2, ENDS = 2 };

static const uint64_t PERIOD = 50000000; /* nanoseconds between two reads of events */

static _Noreturn void refuse(pid_t process, const char *why) {
    fprintf(stderr, "pim-record: process %d: %s; nothing was recorded\n", (int)process, why);
    exit(FAULT);
}

/* Returns a descriptor that says when the process has ended. */
static int watch_process(pid_t process) {
    int watched = (int)syscall(SYS_pidfd_open, process, 0);
    struct pollfd end = { .fd = watched, .events = POLLIN };
    int error = errno; /* of a thread EINVAL, or ENOENT by newer kernels */
    if (watched < 0 && (error == EINVAL || error == ENOENT) && kill(process, 0) == 0)
        refuse(process, "it is a thread, and not a process's number");
    if (watched < 0) refuse(process, strerror(error));
    if (poll(&end, 1, 0) > 0) refuse(process, "it has ended");
    return watched;
}

/* Returns whether a signal is ignored, as SIGHUP is by nohup, and SIGINT by the & of a script. */
static bool is_ignored(int number) {
    struct sigaction action;
    return sigaction(number, NULL, &action) == 0 && action.sa_handler == SIG_IGN;
}

/* Returns a descriptor that says when a signal has come that ends the recording. SIGTERM does in
 * any case. */
static int watch_signals(pid_t process) {
    static const int numbers[] = { SIGINT, SIGTERM, SIGHUP };
    sigset_t signals;
    sigemptyset(&signals);
    for (size_t i = 0; i < sizeof numbers / sizeof *numbers; i++)
        if (numbers[i] == SIGTERM || !is_ignored(numbers[i])) sigaddset(&signals, numbers[i]);
    sigprocmask(SIG_BLOCK, &signals, NULL);
    int watched = signalfd(-1, &signals, SFD_CLOEXEC);
    if (watched < 0) refuse(process, strerror(errno));
    return watched;
}

static struct pollfd ends[ENDS]; /* of the program, and of the recording by a signal */

/* Returns whether one of the ends is there. */
static bool is_over(void) {
    return poll(ends, ENDS, 0) > 0;
}

/* Reads events until one of the ends is there, or the time is over. */
static void read_until_end(const struct running *wanted) {
    uint64_t began = clock_time(), passed = 0;
    while (!wanted->is_limited || passed < wanted->nanoseconds) {
        uint64_t rest = wanted->is_limited ? wanted->nanoseconds - passed : PERIOD;
        struct timespec period = { 0, (long)(rest < PERIOD ? rest : PERIOD) };
        if (ppoll(ends, ENDS, &period, NULL) > 0) return;
        read_kernel();
        passed = clock_time() - began;
    }
}

_Noreturn void record_running(const struct running *wanted) {
    struct guard guard;
    ends[0] = (struct pollfd){ .fd = watch_process(wanted->process), .events = POLLIN };
    ends[1] = (struct pollfd){ .fd = watch_signals(wanted->process), .events = POLLIN };
    be_ordinary();
    signal(SIGXFSZ, SIG_IGN); /* a file that may not grow isn't whole */
    begin_kernel(RUNNING, wanted->kernel, wanted->kilobytes, &guard);
    const char *missing = turn_on_kernel(wanted->process, is_over);
    if (missing) give_up_kernel(missing);
    read_until_end(wanted);
    int status = end_kernel(true) ? 0 : FAULT;
    show_recording(&wanted->showing);
    exit(status);
}
