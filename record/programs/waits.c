/* A wait that is longer than a record's 32 bits of nanoseconds can say: 4.4 seconds. */
#define _GNU_SOURCE
#include "common.h"

static pthread_mutex_t mutex = PTHREAD_MUTEX_INITIALIZER;

int main(void) {
    struct timespec until = after(CLOCK_REALTIME, 4400);
    lock(&mutex);
    expect(pthread_mutex_timedlock(&mutex, &until), ETIMEDOUT, "pthread_mutex_timedlock");
    unlock(&mutex);
    return 0;
}
