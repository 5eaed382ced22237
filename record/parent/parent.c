#define _GNU_SOURCE
#include "parent.h"

#include "../kernel/record.h"
#include "guard.h"
#include "imports.h"
#include "ordinary.h"

#include <errno.h>
#include <poll.h>
#include <signal.h>
#include <stdbool.h>
#include <stdio.h>
#include <stdlib.h>
#include <string.h>
#include <sys/prctl.h>
#include <sys/resource.h>
#include <sys/socket.h>
#include <sys/wait.h>
#include <time.h>
#include <unistd.h>

enum { FAULT = 2, NAMES_BYTES = 256 };

/* What to do about a loss. */
static const char *const help[] = {
    [LOSS_SIZE] = "--size makes it larger, --last keeps the latest ones",
    [LOSS_DISK] = "the disk is full; -o names a log elsewhere",
    [LOSS_MEMORY] = "they come faster than they are written; --last with --contended takes fewer",
};

static const long PERIOD = 50000000; /* nanoseconds between two looks at the kernel's events */

static struct parent {
    const struct wanted *wanted;
    struct guard guard;
    struct collector collector;
    int channel; /* between the parent and the child */
} parent;

/* ---- the program ---- */

/* Makes the child what a program is that a shell executes, and lets it wait for the parent. */
static void be_program(pid_t recorder, const sigset_t *mask, const struct sigaction *of_children,
                       int channel) {
    char go;
    prctl(PR_SET_PDEATHSIG, SIGKILL); /* a program that nobody waits for any more isn't to run on */
    if (getppid() != recorder || read(channel, &go, 1) != 1) _exit(FAULT);
    sigaction(SIGCHLD, of_children, NULL);
    sigprocmask(SIG_SETMASK, mask, NULL);
    parent.channel = channel;
}

void withdraw_recording(void) {
    if (parent.channel > 0) send(parent.channel, "x", 1, MSG_NOSIGNAL);
}

/* Returns whether the program goes on, and puts its status if not. If it is stopped, this process
 * stops too, so that a shell sees it. */
static bool goes_on(pid_t program, int *status) {
    pid_t changed = waitpid(program, status, WNOHANG | WUNTRACED);
    if (changed == 0) return true;
    if (changed < 0 || !WIFSTOPPED(*status)) return false;
    stop_as_program(&parent.guard, program, WSTOPSIG(*status));
    return true;
}

/* Waits until each signal that is being sent to this process' group has come to all of it: the
 * kernel holds the lock of all process groups meanwhile, and setpgid takes it, also where it
 * changes nothing. A group whose first process is outside of the PID namespace has no number here:
 * by 0 this process would get a group of its own. */
static void wait_for_senders(void) {
    pid_t group = getpgrp();
    if (group > 0) setpgid(0, group);
}

/* Passes a signal on. If a stop was sent to the whole group, its end may have come to the program
 * already; then it is pending here, and holds. */
static void pass_on(pid_t program, int number) {
    bool is_stop = number == SIGTSTP || number == SIGTTIN || number == SIGTTOU;
    sigset_t pending;
    kill(program, number);
    if (!is_stop) return;
    wait_for_senders();
    sigpending(&pending);
    if (sigismember(&pending, SIGCONT)) kill(program, SIGCONT);
}

/* Says that records are lost, as that begins. The program goes on meanwhile: a reader that takes
 * nothing doesn't hold this process up. */
static void say_loss(void) {
    enum loss loss = parent.wanted->log ? hear_loss(&parent.collector) : NO_LOSS;
    struct pollfd standard_error = { .fd = STDERR_FILENO, .events = POLLOUT };
    if (loss != NO_LOSS && poll(&standard_error, 1, 0) > 0)
        fprintf(stderr, "pim-record: the log has no room for what comes now: %s\n", help[loss]);
}

/* A process has sent a signal. */
static void hear(pid_t program, int number) {
    if (number == SIGURG)
        say_loss();
    else if (number == SIGUSR2 && parent.wanted->amount.room.is_last)
        ask_for_snapshot(&parent.collector);
    else
        pass_on(program, number);
}

/* Waits until the program ends, and returns its status. A signal that a process sent is passed
 * on; a terminal has sent it to the program, too. */
static int wait_until_end(pid_t program, const sigset_t *awaited) {
    const struct timespec period = { 0, PERIOD };
    int status = 0;
    while (goes_on(program, &status)) {
        siginfo_t info;
        int number = sigtimedwait(awaited, &info, parent.wanted->kernel ? &period : NULL);
        if (number > 0 && number != SIGCHLD && info.si_code <= 0) hear(program, number);
        if (parent.wanted->kernel) read_kernel();
    }
    return status;
}

static _Noreturn void end_as(int status) {
    const struct rlimit none = { 0, 0 };
    sigset_t its;
    if (WIFEXITED(status)) exit(WEXITSTATUS(status));
    setrlimit(RLIMIT_CORE, &none); /* the program has left its own */
    signal(WTERMSIG(status), SIG_DFL);
    sigemptyset(&its);
    sigaddset(&its, WTERMSIG(status));
    raise(WTERMSIG(status));
    sigprocmask(SIG_UNBLOCK, &its, NULL);
    exit(128 + WTERMSIG(status));
}

/* ---- the end ---- */

static void say_lost(const struct report *report) {
    if (report->lost)
        fprintf(stderr, "pim-record: the log had no room for %llu records: %s\n",
                (unsigned long long)report->lost, help[report->loss]);
}

static void say_unrecorded(const struct report *report) {
    if (report->others == 1)
        fputs("pim-record: 1 program that it started wasn't recorded: it ran as another user\n",
              stderr);
    else if (report->others)
        fprintf(stderr, "pim-record: %u programs that it started weren't recorded: they ran as"
                " another user\n", report->others);
    if (report->failed)
        fprintf(stderr, "pim-record: %u of the programs that it started got no log: %s\n",
                report->failed, report->why);
}

/* A log without waits isn't to be read as if there were none. */
static void say_unseen(void) {
    char names[NAMES_BYTES];
    read_unseen(parent.wanted->program, names, sizeof names);
    if (names[0])
        fprintf(stderr, "pim-record: %s also calls %s: what waits by these isn't recorded\n",
                parent.wanted->program, names);
}

static void say_snapshots(const struct report *report) {
    const char *log = parent.wanted->log;
    if (report->wait[0]) fprintf(stderr, "pim-record: %s\n", report->wait);
    if (report->snapshots == 1)
        fprintf(stderr, "pim-record: 1 snapshot was taken: %s.snapshot.1\n", log);
    else if (report->snapshots)
        fprintf(stderr, "pim-record: %u snapshots were taken: %s.snapshot.1 to %u\n",
                report->snapshots, log, report->snapshots);
    if (report->unwritten)
        fprintf(stderr, "pim-record: %u of the snapshots couldn't be written\n",
                report->unwritten);
}

/* Has the places of the logs named, while the files of the program are as it ran. What pim-log needs
 * for that may be missing: it says nothing. */
static void name_places(void) {
    const struct wanted *wanted = parent.wanted;
    if (wanted->reader) run_script(wanted->reader, "--places", wanted->log, true);
}

/* Has the collector write what is there. Returns whether there is a log. */
static bool end_logs(void) {
    struct report report = { .logs = 0 };
    if (!end_collector(&parent.collector, &report)) {
        fprintf(stderr, "pim-record: %s isn't whole: what writes it was killed\n",
                parent.wanted->log);
        return true;
    }
    say_snapshots(&report);
    say_lost(&report);
    say_unrecorded(&report);
    if (report.logs) say_unseen();
    if (report.logs) name_places();
    return report.logs > 0;
}

/* Ends a collector whose program wasn't run. */
static void end_collector_of_nothing(void) {
    struct report none;
    if (parent.collector.process > 0) end_collector(&parent.collector, &none);
}

/* Returns whether the program was run: it was executed, and the library found what it needs. */
static bool is_run(int status, int channel, bool has_log) {
    char none;
    if (recv(channel, &none, 1, MSG_DONTWAIT) == 1) return false; /* withdraw_recording sent it */
    bool is_refused = WIFEXITED(status) && WEXITSTATUS(status) == FAULT;
    return !is_refused || !parent.wanted->log || has_log;
}

/* Lets the program begin, waits for its end, and ends this process as it ended. */
static _Noreturn void be_parent(pid_t program, const sigset_t *awaited, int channel) {
    be_ordinary();
    signal(SIGXFSZ, SIG_IGN); /* a file that may not grow isn't whole; the program runs on */
    const char *missing = parent.wanted->kernel ? turn_on_kernel(program, NULL) : NULL;
    if (missing) {
        end_collector_of_nothing();
        give_up_kernel(missing); /* the child sees the end of its channel */
    }
    send(channel, "x", 1, MSG_NOSIGNAL);
    int status = wait_until_end(program, awaited);
    bool has_log = parent.wanted->log && end_logs();
    bool is_recorded = parent.wanted->kernel ? is_run(status, channel, has_log) : has_log;
    if (parent.wanted->kernel)
        end_kernel(is_recorded);
    else
        end_guard(&parent.guard, NULL);
    if (is_recorded) show_recording(&parent.wanted->showing);
    end_as(status);
}

/* ---- the start ---- */

static _Noreturn void fail(const char *what, const char *why) {
    end_collector_of_nothing();
    if (parent.wanted->kernel)
        end_kernel(false);
    else
        end_guard(&parent.guard, NULL);
    fprintf(stderr, "pim-record: %s: %s; nothing was run\n", what, why);
    exit(FAULT);
}

/* Starts what records. No signal is to leave the guard behind, or the collector. */
static void start_recorders(void) {
    const char *why = NULL;
    sigset_t all, before;
    if (parent.wanted->kernel) {
        begin_kernel(STARTED, parent.wanted->kernel, parent.wanted->kilobytes, &parent.guard);
    } else {
        sigfillset(&all);
        sigprocmask(SIG_SETMASK, &all, &before);
        if (!start_guard(&parent.guard, NULL)) why = strerror(errno);
        sigprocmask(SIG_SETMASK, &before, NULL);
    }
    if (why) fail("a process", why);
    if (parent.wanted->log)
        why = start_collector(&parent.collector, parent.wanted->log, &parent.wanted->amount);
    if (why) fail(parent.wanted->log, why);
}

const char *run_recorded(const struct wanted *wanted) {
    static const int passed_on[] = { SIGHUP,  SIGINT,  SIGQUIT, SIGTERM, SIGUSR1,
                                     SIGUSR2, SIGALRM, SIGTSTP, SIGTTIN, SIGTTOU };
    struct sigaction of_children, usual = { .sa_handler = SIG_DFL };
    sigset_t awaited, blocked, before;
    int channel[2];
    pid_t recorder = getpid(), program = -1;
    parent.wanted = wanted;
    start_recorders();
    sigemptyset(&awaited);
    sigaddset(&awaited, SIGCHLD);
    sigaddset(&awaited, SIGURG); /* of the collector */
    for (size_t i = 0; i < sizeof passed_on / sizeof *passed_on; i++)
        sigaddset(&awaited, passed_on[i]);
    blocked = awaited;
    sigaddset(&blocked, SIGCONT); /* whether it came is asked after a stop */
    sigprocmask(SIG_BLOCK, &blocked, &before);
    sigaction(SIGCHLD, &usual, &of_children);
    if (socketpair(AF_UNIX, SOCK_STREAM | SOCK_CLOEXEC, 0, channel) == 0) program = fork();
    if (program < 0) fail("a process", strerror(errno));
    close(channel[program != 0]);
    if (program != 0) be_parent(program, &awaited, channel[0]);
    be_program(recorder, &before, &of_children, channel[1]);
    return wanted->log ? parent.collector.name : NULL;
}
