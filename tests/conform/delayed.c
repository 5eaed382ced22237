// Delays the tasks of a performer in which this is preloaded: a lock that has timed out returns only
// after 5 ms of its thread's CPU time, and meanwhile the kernel's files show state S, as they do of a
// thread that is about to sleep. A performer that believes the state takes the step for finished.
#define _GNU_SOURCE
#include <dlfcn.h>
#include <pthread.h>
#include <string.h>
#include <sys/types.h>
#include <time.h>

enum { DELAY = 5000000 }; // ns

static long own_time(void) {
    struct timespec time;
    clock_gettime(CLOCK_THREAD_CPUTIME_ID, &time);
    return time.tv_sec * 1000000000 + time.tv_nsec;
}

int pthread_mutex_timedlock(pthread_mutex_t *mutex, const struct timespec *deadline) {
    int (*real)(pthread_mutex_t *, const struct timespec *) = dlsym(RTLD_NEXT, __func__);
    int answer = real(mutex, deadline);
    for (long begin = own_time(); own_time() < begin + DELAY;) {
    }
    return answer;
}

ssize_t pread(int file, void *bytes, size_t size, off_t at) {
    ssize_t (*real)(int, void *, size_t, off_t) = dlsym(RTLD_NEXT, __func__);
    ssize_t got = real(file, bytes, size, at);
    char *state = got > 0 ? memmem(bytes, (size_t)got, ") R ", 4) : NULL;
    if (state) state[2] = 'S';
    return got;
}
