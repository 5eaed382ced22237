#define _GNU_SOURCE
#include "scripts.h"

#include <fcntl.h>
#include <signal.h>
#include <stddef.h>
#include <sys/prctl.h>
#include <sys/wait.h>
#include <unistd.h>

enum { FAULT = 2 };

static _Noreturn void be_script(const char *path, const char *first, const char *second,
                                bool is_quiet) {
    static const int stops[] = { SIGTSTP, SIGTTIN, SIGTTOU };
    sigset_t none;
    int nowhere = open("/dev/null", O_RDWR);
    prctl(PR_SET_PDEATHSIG, SIGKILL);
    dup2(nowhere, STDIN_FILENO);
    if (is_quiet) dup2(nowhere, STDERR_FILENO);
    dup2(STDERR_FILENO, STDOUT_FILENO);
    if (nowhere > STDERR_FILENO) close(nowhere);
    for (size_t i = 0; i < sizeof stops / sizeof *stops; i++) signal(stops[i], SIG_IGN);
    sigemptyset(&none);
    sigprocmask(SIG_SETMASK, &none, NULL);
    execl(path, path, first, second, NULL);
    _exit(FAULT);
}

void run_script(const char *path, const char *first, const char *second, bool is_quiet) {
    pid_t child = fork();
    if (child == 0) be_script(path, first, second, is_quiet);
    if (child > 0) waitpid(child, NULL, 0);
}

void show_recording(const struct showing *showing) {
    if (showing->path) run_script(showing->path, showing->how, showing->name, false);
}
