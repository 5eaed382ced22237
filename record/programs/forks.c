/* A process that forks while it owns a mutex: the child unlocks its own copy, starts a thread, and
 * ends by _exit; the parent unlocks its own, and ends by exit. */
#define _GNU_SOURCE
#include "common.h"

static pthread_mutex_t mutex = PTHREAD_MUTEX_INITIALIZER;

static void *work(void *unused) {
    lock(&mutex);
    unlock(&mutex);
    return unused;
}

int main(void) {
    int status = 0;
    lock(&mutex);
    pid_t child = fork();
    if (child < 0) return 1;
    unlock(&mutex);
    if (child == 0) {
        join(start(work, NULL));
        _exit(3);
    }
    if (waitpid(child, &status, 0) != child) return 1;
    return WIFEXITED(status) && WEXITSTATUS(status) == 3 ? 0 : 1;
}
