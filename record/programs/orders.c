/* Two threads, one after the other, that lock two NONE mutexes in opposite orders: they could wait
 * for each other, but don't. Each gets a third one by a trylock, at last and at first. */
#define _GNU_SOURCE
#include "common.h"

static pthread_mutex_t map, io, cache;

static void try_lock(pthread_mutex_t *mutex) {
    must(pthread_mutex_trylock(mutex), "pthread_mutex_trylock");
}

static void *plan(void *unused) {
    pthread_setname_np(pthread_self(), "plan");
    lock(&map);
    lock(&io);
    try_lock(&cache);
    unlock(&cache);
    unlock(&io);
    unlock(&map);
    return unused;
}

static void *flush(void *unused) {
    pthread_setname_np(pthread_self(), "log");
    try_lock(&cache);
    lock(&io);
    lock(&map);
    unlock(&map);
    unlock(&io);
    unlock(&cache);
    return unused;
}

int main(void) {
    make(&map, PTHREAD_PRIO_NONE, PTHREAD_MUTEX_NORMAL, 0);
    make(&io, PTHREAD_PRIO_NONE, PTHREAD_MUTEX_NORMAL, 0);
    make(&cache, PTHREAD_PRIO_NONE, PTHREAD_MUTEX_NORMAL, 0);
    pthread_join(start(plan, NULL), NULL);
    pthread_join(start(flush, NULL), NULL);
    return 0;
}
