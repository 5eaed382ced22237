/* objects semaphore|rwlock|condition: a priority inversion at what isn't a mutex, on one CPU. A
 * thread storage (10) is what control (80) waits for, and camera (50) computes meanwhile, for 50
 * ms. No protocol passes a priority on here. */
#define _GNU_SOURCE
#include "common.h"

static sem_t storage_free, is_taken;
static pthread_rwlock_t storage_lock = PTHREAD_RWLOCK_INITIALIZER;
static pthread_cond_t storage_changed = PTHREAD_COND_INITIALIZER;
static pthread_mutex_t state = PTHREAD_MUTEX_INITIALIZER;
static bool is_in_use;
static _Atomic bool may_end;

static enum { SEMAPHORE, RWLOCK, CONDITION } how;

static void set_in_use(bool is_used) {
    lock(&state);
    is_in_use = is_used;
    if (!is_used) must(pthread_cond_signal(&storage_changed), "pthread_cond_signal");
    unlock(&state);
}

static void take(void) {
    if (how == SEMAPHORE) sem_wait(&storage_free);
    if (how == RWLOCK) must(pthread_rwlock_wrlock(&storage_lock), "pthread_rwlock_wrlock");
    if (how == CONDITION) set_in_use(true);
}

static void give(void) {
    if (how == SEMAPHORE) sem_post(&storage_free);
    if (how == RWLOCK) must(pthread_rwlock_unlock(&storage_lock), "pthread_rwlock_unlock");
    if (how == CONDITION) set_in_use(false);
}

static void *store(void *unused) {
    pthread_setname_np(pthread_self(), "storage");
    take();
    sem_post(&is_taken);
    while (!may_end) continue;
    give();
    return unused;
}

static void await_change(void) {
    lock(&state);
    while (is_in_use)
        must(pthread_cond_wait(&storage_changed, &state), "wait"); /* control waits: condition */
    unlock(&state);
}

static void *control(void *unused) {
    pthread_setname_np(pthread_self(), "control");
    if (how == SEMAPHORE)
        sem_wait(&storage_free); /* control waits: semaphore */
    else if (how == RWLOCK)
        must(pthread_rwlock_rdlock(&storage_lock), "rdlock"); /* control waits: rwlock */
    else
        await_change();
    return unused;
}

static void *camera(void *unused) {
    struct timespec until = after(CLOCK_MONOTONIC, 50), now;
    pthread_setname_np(pthread_self(), "camera");
    do clock_gettime(CLOCK_MONOTONIC, &now);
    while (now.tv_sec < until.tv_sec ||
           (now.tv_sec == until.tv_sec && now.tv_nsec < until.tv_nsec));
    may_end = true;
    return unused;
}

int main(int count, char **arguments) {
    const char *word = count > 1 ? arguments[1] : "";
    how = strcmp(word, "rwlock") == 0 ? RWLOCK
          : strcmp(word, "condition") == 0 ? CONDITION : SEMAPHORE;
    stay_on_one_cpu();
    be_real_time(90);
    sem_init(&storage_free, 0, 1);
    sem_init(&is_taken, 0, 0);
    pthread_t s = start_at(10, store, NULL);
    while (sem_wait(&is_taken)) continue;
    pthread_t c = start_at(80, control, NULL), v = start_at(50, camera, NULL);
    join(c);
    join(v);
    join(s);
    return 0;
}
