/* longest [MILLISECONDS] [THREADS] [PAIRS]: the longest lock and unlock of threads of a
 * real-time priority. Each thread locks and unlocks a mutex of its own 200 times in each
 * millisecond, or so often as PAIRS says. Prints the longest pair of all threads, and the mean,
 * both in nanoseconds and with the two reads of the clock. */
#define _GNU_SOURCE
#include "common.h"

enum { PRIORITY = 80, MOST_THREADS = 64 };

static long milliseconds = 4000, pairs = 200;

struct measured {
    pthread_mutex_t mutex;
    int64_t longest, sum; /* nanoseconds */
};

static int64_t nanoseconds(void) {
    struct timespec now;
    clock_gettime(CLOCK_MONOTONIC, &now);
    return (int64_t)now.tv_sec * 1000000000 + now.tv_nsec;
}

static void measure_pair(struct measured *of) {
    int64_t began = nanoseconds();
    pthread_mutex_lock(&of->mutex);
    pthread_mutex_unlock(&of->mutex);
    int64_t took = nanoseconds() - began;
    of->sum += took;
    if (took > of->longest) of->longest = took;
}

static void *work(void *argument) {
    struct measured *of = argument;
    make(&of->mutex, PTHREAD_PRIO_NONE, PTHREAD_MUTEX_NORMAL, 0);
    for (long i = 0; i < milliseconds; i++) {
        rest(1);
        for (long k = 0; k < pairs; k++) measure_pair(of);
    }
    pthread_mutex_destroy(&of->mutex);
    return NULL;
}

int main(int count, char **arguments) {
    static struct measured measured[MOST_THREADS];
    pthread_t started[MOST_THREADS];
    int64_t longest = 0, sum = 0;
    if (count > 1) milliseconds = atol(arguments[1]);
    int threads = count > 2 ? atoi(arguments[2]) : 1;
    if (count > 3) pairs = atol(arguments[3]);
    if (milliseconds < 1 || threads < 1 || threads > MOST_THREADS || pairs < 1) return 2;
    be_real_time(PRIORITY);
    for (int i = 0; i < threads; i++) started[i] = start_at(PRIORITY, work, &measured[i]);
    for (int i = 0; i < threads; i++) {
        join(started[i]);
        sum += measured[i].sum;
        if (measured[i].longest > longest) longest = measured[i].longest;
    }
    printf("longest %lld\n", (long long)longest);
    printf("mean %.1f\n", (double)sum / ((double)milliseconds * (double)pairs * threads));
    return 0;
}
