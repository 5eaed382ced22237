/* A program with an allocator of its own, as a browser's: its first call, which comes before any
 * constructor, calls prctl while it holds a lock that isn't the C library's. */
#define _GNU_SOURCE
#include "common.h"

#include <stdatomic.h>
#include <sys/prctl.h>

enum { HEAP_BYTES = 1 << 24, UNIT = 16 };

static _Alignas(UNIT) char heap[HEAP_BYTES];
static size_t used;
static atomic_flag is_busy;

/* The recorder loads the unwinder for a program with such a function. */
void locks(void) __asm__("_ZNSt5mutex4lockEv");
void locks(void) {}

void *malloc(size_t bytes) {
    while (atomic_flag_test_and_set(&is_busy)) sched_yield();
    if (used == 0) prctl(PR_GET_DUMPABLE);
    size_t *made = (size_t *)(heap + used);
    bytes = (bytes + UNIT - 1) / UNIT * UNIT;
    if (bytes > HEAP_BYTES - UNIT - used) abort();
    *made = bytes;
    used += UNIT + bytes;
    atomic_flag_clear(&is_busy);
    return (char *)made + UNIT;
}

void free(void *unused) {
    (void)unused;
}

void *calloc(size_t count, size_t bytes) {
    return malloc(count * bytes); /* nothing is used twice */
}

void *realloc(void *had, size_t bytes) {
    char *grown = malloc(bytes);
    size_t old = had ? *(size_t *)((char *)had - UNIT) : 0;
    for (size_t i = 0; i < old && i < bytes; i++) grown[i] = ((char *)had)[i];
    return grown;
}

static void *volatile made; /* so that the compiler keeps the call */

static void begin(int count, char **arguments, char **environment) {
    (void)count;
    (void)arguments;
    environ = environment; /* the C library hasn't begun */
    made = malloc(1);
}

__attribute__((section(".preinit_array"), used)) static void (*const first)(int, char **, char **) = begin;

int main(void) {
    static pthread_mutex_t mutex = PTHREAD_MUTEX_INITIALIZER;
    lock(&mutex);
    unlock(&mutex);
    return 0;
}
