/* locks [MILLISECONDS] [THREADS] [MUTEXES]: how often threads lock and unlock, each time another
 * one of the mutexes, that it chooses at random. Prints millions of pairs in a second, and the
 * nanoseconds of a CPU that one takes. */
#define _GNU_SOURCE
#include "common.h"

#include <sys/resource.h>

enum { MOST_THREADS = 64, MOST_MUTEXES = 1024 };

static struct {
    _Alignas(64) pthread_mutex_t mutex;
} mutexes[MOST_MUTEXES];
static _Atomic bool is_over;
static unsigned count_of_mutexes = 64;
static pthread_barrier_t all_are_started;

static void *work(void *number) {
    unsigned random = (unsigned)(uintptr_t)number * 2654435761u + 1;
    uintptr_t pairs = 0;
    pthread_barrier_wait(&all_are_started);
    for (; !is_over; pairs++) {
        random = random * 1103515245u + 12345u;
        pthread_mutex_t *mutex = &mutexes[(random >> 16) % count_of_mutexes].mutex;
        pthread_mutex_lock(mutex);
        pthread_mutex_unlock(mutex);
    }
    return (void *)pairs;
}

int main(int count, char **arguments) {
    pthread_t started[MOST_THREADS];
    long milliseconds = count > 1 ? atol(arguments[1]) : 200;
    int threads = count > 2 ? atoi(arguments[2]) : 8;
    if (count > 3) count_of_mutexes = (unsigned)atoi(arguments[3]);
    if (milliseconds < 1 || threads < 1 || threads > MOST_THREADS) return 2;
    if (count_of_mutexes < 1 || count_of_mutexes > MOST_MUTEXES) return 2;
    pthread_barrier_init(&all_are_started, NULL, (unsigned)threads + 1);
    for (unsigned i = 0; i < count_of_mutexes; i++)
        make(&mutexes[i].mutex, PTHREAD_PRIO_NONE, PTHREAD_MUTEX_NORMAL, 0);
    for (int i = 0; i < threads; i++) started[i] = start(work, (void *)(uintptr_t)i);
    pthread_barrier_wait(&all_are_started);
    struct timespec began, ended;
    clock_gettime(CLOCK_MONOTONIC, &began);
    rest(milliseconds);
    is_over = true;
    uintptr_t sum = 0;
    for (int i = 0; i < threads; i++) {
        void *pairs;
        must(pthread_join(started[i], &pairs), "pthread_join");
        sum += (uintptr_t)pairs;
    }
    clock_gettime(CLOCK_MONOTONIC, &ended);
    double seconds = (double)(ended.tv_sec - began.tv_sec) +
                     (double)(ended.tv_nsec - began.tv_nsec) / 1e9;
    struct rusage used;
    getrusage(RUSAGE_SELF, &used);
    struct timeval user = used.ru_utime, kernel = used.ru_stime;
    double cpu = (double)(user.tv_sec + kernel.tv_sec) * 1e9 +
                 (double)(user.tv_usec + kernel.tv_usec) * 1e3;
    printf("pairs %.3f\n", (double)sum / seconds / 1e6);
    printf("cpu %.1f\n", cpu / (double)sum);
    return 0;
}
