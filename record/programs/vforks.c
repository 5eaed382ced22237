/* A child of vfork, which runs in its parent's memory: its exec fails, and it ends by _exit. */
#define _GNU_SOURCE
#include "common.h"

static pthread_mutex_t mutex = PTHREAD_MUTEX_INITIALIZER;

int main(void) {
    char *const arguments[] = { (char *)"nowhere", NULL };
    int status = 0;
    lock(&mutex);
    pid_t child = vfork();
    if (child == 0) {
        execv("/nowhere/at-all", arguments);
        _exit(4);
    }
    unlock(&mutex);
    if (waitpid(child, &status, 0) != child) return 1;
    return WIFEXITED(status) && WEXITSTATUS(status) == 4 ? 0 : 1;
}
