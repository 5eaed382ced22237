#define _GNU_SOURCE
#include "inner.h"
#include "recorder.h"

#include <errno.h>
#include <stdarg.h>
#include <unistd.h>

extern char **environ;

static pid_t process;         /* whose memory this is: not that of a vfork child, which shares it */
static uint64_t fork_number;  /* of the FORK record that a child is told of */
static uint32_t fork_thread;
static bool has_log; /* whether the process that forks is recorded */

/* ---- fork ---- */

/* Runs after the program's own handlers, so what the thread owns by then the child owns, too. */
static void before_fork(void) {
    fork_number = 0;
    bool is_told = is_recorded() && log_begin();
    has_log = log_header;
    if (!is_told) return;
    fork_number = log_write((struct record){ .event = EVENT_FORK, .time = clock_time() });
    fork_thread = log_cursor.thread;
    log_end();
}

/* The child of a process that is recorded goes on in the same file, in chunks of its own. */
static void in_child(void) {
    process = (pid_t)inner_task();
    if (!has_log) return;
    log_cursor = (struct cursor){ .next = NULL };
    log_is_forked((uint32_t)process);
    thread_introduce();
    log_put((struct record){ .event = EVENT_CHILD,
                             .object = fork_number,
                             .value = fork_thread });
}

void processes_start(void) {
    process = getpid();
    pthread_atfork(before_fork, NULL, in_child);
}

/* Returns whether the calling process's record can be put. That of a child of vfork would be put as
 * its parent's. */
static bool is_own_record(void) {
    if (getpid() == process) return is_recorded();
    if (log_header) log_leave_out();
    return false;
}

/* ---- exec ---- */

static bool begin_exec(const char *path) {
    bool is_told = is_own_record();
    int error = errno;
    if (is_told) log_put_text((struct record){ .event = EVENT_EXEC }, path, LONGEST_TEXT);
    if (is_told) log_close_chunk(); /* the process may be a forked one, which is gone then */
    errno = error;
    return is_told;
}

static int exec_failed(bool is_told, int result) {
    int error = errno;
    if (is_told)
        log_put((struct record){ .event = EVENT_EXEC_FAILED, .how = (uint8_t)error });
    errno = error;
    return result;
}

EXPORT int execve(const char *path, char *const arguments[], char *const environment[]) {
    bool is_told = begin_exec(path);
    return exec_failed(is_told, real.execve(path, arguments, environment));
}

EXPORT int execv(const char *path, char *const arguments[]) {
    return execve(path, arguments, environ);
}

EXPORT int execvpe(const char *file, char *const arguments[], char *const environment[]) {
    bool is_told = begin_exec(file);
    return exec_failed(is_told, real.execvpe(file, arguments, environment));
}

EXPORT int execvp(const char *file, char *const arguments[]) {
    return execvpe(file, arguments, environ);
}

EXPORT int fexecve(int file, char *const arguments[], char *const environment[]) {
    bool is_told = begin_exec("");
    return exec_failed(is_told, real.fexecve(file, arguments, environment));
}

EXPORT int execveat(int folder, const char *path, char *const arguments[],
                    char *const environment[], int flags) {
    bool is_told = begin_exec(path);
    return exec_failed(is_told, real.execveat(folder, path, arguments, environment, flags));
}

/* Returns how many arguments there are up to the null pointer, without it. */
static size_t count_of(va_list list) {
    size_t count = 0;
    while (va_arg(list, char *)) count++;
    return count;
}

/* Puts the arguments, the first one included, and the null pointer into the array. */
static void collect(char **into, const char *first, va_list list) {
    *into = (char *)first;
    while (*into) *++into = va_arg(list, char *);
}

EXPORT int execl(const char *path, const char *first, ...) {
    va_list list;
    va_start(list, first);
    char *arguments[count_of(list) + 2];
    va_end(list);
    va_start(list, first);
    collect(arguments, first, list);
    va_end(list);
    return execve(path, arguments, environ);
}

EXPORT int execlp(const char *file, const char *first, ...) {
    va_list list;
    va_start(list, first);
    char *arguments[count_of(list) + 2];
    va_end(list);
    va_start(list, first);
    collect(arguments, first, list);
    va_end(list);
    return execvpe(file, arguments, environ);
}

EXPORT int execle(const char *path, const char *first, ...) {
    va_list list;
    va_start(list, first);
    char *arguments[count_of(list) + 2];
    va_end(list);
    va_start(list, first);
    collect(arguments, first, list);
    char **environment = va_arg(list, char **);
    va_end(list);
    return execve(path, arguments, environment);
}

/* ---- the end ---- */

static void put_end(bool is_status_known, int status) {
    log_put((struct record){ .event = EVENT_END,
                             .how = is_status_known,
                             .value = (uint32_t)status & 0xff });
}

/* Where the kernel may not be asked, nothing says whether it is a child of vfork that ends. A
 * filter that allows an exec allows what the recorder asks as the next program starts. */
EXPORT _Noreturn void _exit(int status) {
    if (!atomic_load(&log_is_quiet) && is_own_record()) {
        put_end(true, status);
        log_close_chunk();
    }
    real.exit_now(status);
    __builtin_unreachable();
}

EXPORT _Noreturn void _Exit(int status) {
    _exit(status);
}

/* Runs at a return from main and at exit, which don't tell the status. */
__attribute__((destructor)) static void finish(void) {
    if (!log_header || (!atomic_load(&log_is_quiet) && getpid() != process)) return;
    if (log_remove_unused()) return;
    modules_tell();
    put_end(false, 0);
    log_close_chunk(); /* the process may be a forked one, which is gone then */
}
