/* 600 threads, four at a time, and 1,206 mutexes: of each thread one on its stack and one on the
 * heap, at addresses that come again, and six that all share. */
#define _GNU_SOURCE
#include "common.h"

enum { ROUNDS = 150, AT_A_TIME = 4, SHARED = 6 };

static pthread_mutex_t shared[SHARED];

static void use(pthread_mutex_t *mutex) {
    make(mutex, PTHREAD_PRIO_INHERIT, PTHREAD_MUTEX_NORMAL, 0);
    lock(mutex);
    unlock(mutex);
    must(pthread_mutex_destroy(mutex), "pthread_mutex_destroy");
}

static void *work(void *unused) {
    pthread_mutex_t on_stack, *on_heap = malloc(sizeof *on_heap);
    if (!on_heap) exit(1);
    use(&on_stack);
    use(on_heap);
    free(on_heap);
    for (int i = 0; i < SHARED; i++) lock(&shared[i]);
    for (int i = 0; i < SHARED; i++) unlock(&shared[i]);
    return unused;
}

int main(void) {
    pthread_t threads[AT_A_TIME];
    for (int i = 0; i < SHARED; i++)
        make(&shared[i], i % 2 ? PTHREAD_PRIO_INHERIT : PTHREAD_PRIO_NONE, PTHREAD_MUTEX_NORMAL, 0);
    for (int round = 0; round < ROUNDS; round++) {
        for (int i = 0; i < AT_A_TIME; i++) threads[i] = start(work, NULL);
        for (int i = 0; i < AT_A_TIME; i++) join(threads[i]);
    }
    return 0;
}
