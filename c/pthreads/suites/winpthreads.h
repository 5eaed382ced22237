/* What the tests of winpthreads need of Windows and of their own test.h, for a build on Linux. */
#ifndef WINPTHREADS_H
#define WINPTHREADS_H

#define _PTHREAD_TEST_H_ /* their test.h is left out */

#include <errno.h>
#include <pthread.h>
#include <semaphore.h>
#include <stdio.h>
#include <stdlib.h>
#include <time.h>
#include <unistd.h>

typedef int BOOL;
typedef unsigned int DWORD;
typedef long LONG;

#define TRUE 1
#define FALSE 0
#define PTW32_THREAD_NULL_ID 0
#define PTHREAD_RECURSIVE_MUTEX_INITIALIZER PTHREAD_RECURSIVE_MUTEX_INITIALIZER_NP
#define PTHREAD_ERRORCHECK_MUTEX_INITIALIZER PTHREAD_ERRORCHECK_MUTEX_INITIALIZER_NP
#define InterlockedIncrement(at) __atomic_add_fetch(at, 1, __ATOMIC_SEQ_CST)
#define InterlockedExchangeAdd(at, more) __atomic_fetch_add(at, more, __ATOMIC_SEQ_CST)

/* The names of errors, which a test that fails prints. */
static const char *const error_string[200];

#define assert(e) \
    ((e) ? (void)0 : (fprintf(stderr, "%s:%d: not so: %s\n", __FILE__, __LINE__, #e), exit(1)))
#define assert_e(e, is, wanted) assert((e)is(wanted))

struct _timeb {
    time_t time;
    unsigned short millitm;
};

static inline void _ftime(struct _timeb *now) {
    struct timespec time;
    clock_gettime(CLOCK_REALTIME, &time);
    *now = (struct _timeb){ time.tv_sec, (unsigned short)(time.tv_nsec / 1000000) };
}

static inline void Sleep(unsigned milliseconds) {
    struct timespec time = { milliseconds / 1000, milliseconds % 1000 * 1000000L };
    nanosleep(&time, NULL);
}

#endif
