/* A program whose child by _Fork, which runs no handlers, locks while the parent does, too. That
 * child forks one that locks. */
#define _GNU_SOURCE
#include "common.h"

enum { ROUNDS = 2000 };

int main(void) {
    static pthread_mutex_t mutex = PTHREAD_MUTEX_INITIALIZER;
    int status = 1;
    lock(&mutex);
    unlock(&mutex);
    pid_t child = _Fork();
    for (int i = 0; i < ROUNDS; i++) {
        lock(&mutex);
        unlock(&mutex);
    }
    if (child == 0) {
        pid_t grandchild = fork();
        lock(&mutex);
        unlock(&mutex);
        if (grandchild > 0) waitpid(grandchild, &status, 0);
        _exit(grandchild < 0);
    }
    return waitpid(child, &status, 0) == child ? status : 1;
}
