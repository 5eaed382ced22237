#define _GNU_SOURCE
#include "guard.h"

#include <dirent.h>
#include <errno.h>
#include <fcntl.h>
#include <limits.h>
#include <poll.h>
#include <signal.h>
#include <stdio.h>
#include <stdlib.h>
#include <string.h>
#include <sys/prctl.h>
#include <sys/socket.h>
#include <sys/wait.h>
#include <time.h>
#include <unistd.h>

enum { LOOKS_AFTER_MS = 20, TRIES = 500, BETWEEN_TRIES_US = 10000 };

/* ---- the state of the program ---- */

/* Returns whether a thread is stopped, by a signal or by a debugger. */
static bool is_thread_stopped(int threads, const char *number) {
    char path[NAME_MAX + 8], text[512];
    snprintf(path, sizeof path, "%s/stat", number);
    int file = openat(threads, path, O_RDONLY | O_CLOEXEC);
    ssize_t length = file < 0 ? 0 : read(file, text, sizeof text - 1);
    if (file >= 0) close(file);
    text[length < 0 ? 0 : length] = '\0';
    const char *behind_name = strrchr(text, ')');
    if (!behind_name) return false;
    return strncmp(behind_name, ") T", 3) == 0 || strncmp(behind_name, ") t", 3) == 0;
}

/* Returns whether a thread of the process is stopped: the first one may have ended. Without /proc
 * nothing says that it isn't. */
static bool is_stopped(pid_t process) {
    char path[64];
    bool is_found = false;
    snprintf(path, sizeof path, "/proc/%d/task", (int)process);
    DIR *threads = opendir(path);
    if (!threads) return true;
    for (struct dirent *entry; !is_found && (entry = readdir(threads));)
        is_found = entry->d_name[0] != '.' && is_thread_stopped(dirfd(threads), entry->d_name);
    closedir(threads);
    return is_found;
}

/* ---- the guard ---- */

static void remove_patiently(const struct instance *instance) {
    if (!instance) return;
    for (int i = 0; i < TRIES && !remove_instance(instance); i++) usleep(BETWEEN_TRIES_US);
}

/* Closes all descriptors but those that the guard uses: another process may wait for the end of
 * what the caller has open. */
static void close_others(int channel, const struct instance *instance) {
    const int used[] = { channel, instance ? instance->tracefs : channel,
                         instance ? instance->instances : channel };
    int last = channel;
    for (size_t i = 0; i < 3; i++)
        if (used[i] > last) last = used[i];
    for (int file = 0; file < last; file++)
        if (file != used[0] && file != used[1] && file != used[2]) close(file);
    close_range((unsigned)last + 1, UINT_MAX, 0);
}

/* Reads from the channel which program to look at, or 0 for none, until the channel ends. A look
 * takes time: what the recorder has sent by its end counts. */
static _Noreturn void be_guard(pid_t recorder, int channel, const struct instance *instance) {
    struct pollfd end = { .fd = channel, .events = POLLIN };
    pid_t program = 0;
    prctl(PR_SET_NAME, "pim-guard");
    setsid(); /* to be in no group that a terminal or a shell stops or ends */
    close_others(channel, instance);
    for (;;) {
        int ready = poll(&end, 1, program ? LOOKS_AFTER_MS : -1);
        if (ready > 0 && recv(channel, &program, sizeof program, 0) <= 0) break;
        if (ready == 0 && !is_stopped(program) && poll(&end, 1, 0) == 0) kill(recorder, SIGCONT);
    }
    remove_patiently(instance);
    _exit(0);
}

bool start_guard(struct guard *started, const struct instance *instance) {
    pid_t recorder = getpid();
    int ends[2];
    if (socketpair(AF_UNIX, SOCK_SEQPACKET | SOCK_CLOEXEC, 0, ends) != 0) return false;
    started->process = fork();
    started->channel = ends[0];
    if (started->process == 0) be_guard(recorder, ends[1], instance);
    close(ends[1]);
    return started->process > 0;
}

void end_guard(struct guard *ended, const struct instance *instance) {
    remove_patiently(instance);
    if (ended->process <= 0) return;
    kill(ended->process, SIGKILL); /* it may be stopped */
    waitpid(ended->process, NULL, 0);
    close(ended->channel);
}

/* ---- the recorder's stop ---- */

/* Stops this process by a signal, which is blocked otherwise. Returns which process continued it,
 * or -1 if it wasn't stopped, as in a group that no shell would continue. */
static pid_t stop_by(int number) {
    const struct timespec none = { 0, 0 };
    siginfo_t info = { 0 };
    sigset_t its, continued;
    sigemptyset(&continued);
    sigaddset(&continued, SIGCONT);
    sigemptyset(&its);
    sigaddset(&its, number);
    signal(number, SIG_DFL);
    raise(number);
    sigprocmask(SIG_UNBLOCK, &its, NULL);
    sigprocmask(SIG_BLOCK, &its, NULL);
    return sigtimedwait(&continued, &info, &none) == SIGCONT ? info.si_pid : -1;
}

/* Returns whether the program was continued, and maybe stopped again, since this process waited for
 * its stop. The kernel looks whether it is stopped, and then whether it was continued: it finds
 * neither if the program is stopped again in between, and the stop if it is asked once more. */
static bool was_continued(pid_t program) {
    siginfo_t info = { .si_pid = 0 };
    for (int i = 0; i < 2 && info.si_pid == 0; i++)
        waitid(P_PID, (id_t)program, &info, WCONTINUED | WSTOPPED | WEXITED | WNOHANG | WNOWAIT);
    return info.si_pid != 0;
}

static void watch(const struct guard *guard, pid_t program) {
    send(guard->channel, &program, sizeof program, MSG_NOSIGNAL | MSG_DONTWAIT);
}

void stop_as_program(const struct guard *guard, pid_t program, int number) {
    pid_t by;
    do {
        watch(guard, program);
        by = stop_by(number);
        watch(guard, 0);
    } while (by == guard->process && is_stopped(program));
    /* Who continued this process may have continued the program, as a shell's 'fg' does: a second
     * SIGCONT might undo a stop that came in between. */
    if (by >= 0 && !was_continued(program)) kill(program, SIGCONT);
}
