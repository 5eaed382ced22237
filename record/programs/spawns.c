/* spawns: threads that each make the next one and end, until it is killed. It says 'ready' once. */
#define _GNU_SOURCE
#include "common.h"

enum { CHAINS = 20 };

static void *go_on(void *unused) {
    pthread_detach(pthread_self());
    rest(1);
    start(go_on, unused);
    return unused;
}

int main(void) {
    for (int chain = 0; chain < CHAINS; chain++) start(go_on, NULL);
    puts("ready");
    fflush(stdout);
    for (;;) rest(1000);
}
