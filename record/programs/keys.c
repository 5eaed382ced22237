/* Waits for signals, as a terminal's keys send them. It says when it goes on after a stop. 'keys
 * handle' ignores SIGTSTP, says that it was told of SIGINT, and exits with 5 after SIGTERM. 'keys
 * thread' waits in another thread, and ends the first one. */
#define _GNU_SOURCE
#include "common.h"

#include <signal.h>

static void say(int number) {
    const char *line = number == SIGINT ? "told\n" : number == SIGTERM ? "sent\n" : "goes on\n";
    (void)!write(STDOUT_FILENO, line, strlen(line));
    if (number == SIGTERM) _exit(5);
}

static void *wait_for_signals(void *none) {
    printf("process %d.\n", (int)getpid());
    fflush(stdout);
    for (;;) pause();
    return none;
}

int main(int count, char **arguments) {
    const char *how = count > 1 ? arguments[1] : "";
    signal(SIGCONT, say);
    signal(SIGTSTP, SIG_DFL); /* whatever the caller does with it */
    if (strcmp(how, "handle") == 0) {
        signal(SIGTSTP, SIG_IGN);
        signal(SIGINT, say);
        signal(SIGTERM, say);
    }
    if (strcmp(how, "thread") != 0) wait_for_signals(NULL);
    start(wait_for_signals, NULL);
    pthread_exit(NULL);
}
