/* generate [OPTION].. LOG: writes a log that pim-record could have written, of threads that lock
 * and unlock at random, for measurements. The same options give the same log. `usage` lists them.
 *
 * A thread owns two mutexes at most, the second above the first, so that there is no deadlock. A
 * mutex that is released goes to its waiter of the highest priority, and of those to the one that
 * waits longest. */
#define _GNU_SOURCE
#include "library/inner.h"
#include "library/log.h"
#include "library/places.h"

#include <errno.h>
#include <fcntl.h>
#include <stdio.h>
#include <stdlib.h>
#include <string.h>
#include <sys/mman.h>
#include <unistd.h>

enum {
    LEAST_CHUNKS = 16384, /* room for 256 MB, as pim-record gives */
    NESTED = 2,
    CEILING = 90,
    NOBODY = -1,
    FIFO = 1,
};

static const char usage[] = "usage: generate [OPTION].. LOG\n"
                            "  -n RECORDS    at least so many records   3000000\n"
                            "  -t THREADS                               64\n"
                            "  -m MUTEXES                               256\n"
                            "  -c PERCENT    locks that wait            5\n"
                            "  -s SEED                                  1\n";

struct thread {
    struct record *next, *end;
    uint32_t chunks;
    int held[NESTED], count;
    int awaited; /* the mutex that it waits for, or NOBODY */
    uint64_t since;
    unsigned priority; /* 0: SCHED_OTHER */
};

struct mutex {
    int owner; /* a thread, or NOBODY */
    int waiters;
    uint16_t detail;
};

static uint64_t wanted_records = 3000000, now = 1000000000, random_state = 1;
static int thread_count = 64, mutex_count = 256, percent = 5;
static struct header *header;
static struct thread *threads;
static struct mutex *mutexes;

static _Noreturn void stop(const char *what, const char *why) {
    fprintf(stderr, "generate: %s: %s\n", what, why);
    exit(2);
}

/* Returns a number below a limit (splitmix64). */
static uint64_t below(uint64_t limit) {
    uint64_t mixed = random_state += 0x9e3779b97f4a7c15u;
    mixed = (mixed ^ mixed >> 30) * 0xbf58476d1ce4e5b9u;
    mixed = (mixed ^ mixed >> 27) * 0x94d049bb133111ebu;
    return (mixed ^ mixed >> 31) % limit;
}

/* ---- records ---- */

static uint64_t object_of(int mutex) {
    return 0x555500000000u + 64u * (unsigned)mutex;
}

/* Returns the number of the place at which all calls of an event and a mutex are made. */
static uint64_t place_of(enum event event, int mutex) {
    return 1 + (8 * (unsigned)mutex + event) % PLACE_SLOTS;
}

static void open_chunk(int thread) {
    struct thread *self = &threads[thread];
    uint64_t chunk = header->next_chunk++;
    struct chunk_head *head =
        (struct chunk_head *)((char *)header + HEADER_BYTES + chunk * CHUNK_BYTES);
    if (chunk >= header->chunks) stop("the log", "there is no room for a chunk");
    *head = (struct chunk_head){ .mark = CHUNK_MARK,
                                 .process = header->process,
                                 .task = header->process + (uint32_t)thread,
                                 .thread = (uint32_t)thread + 1,
                                 .index = self->chunks++ };
    self->next = (struct record *)head + 1;
    self->end = (struct record *)head + CHUNK_RECORDS;
}

/* Returns the place of a thread's next record, which has its number. */
static struct record *numbered(int thread) {
    struct thread *self = &threads[thread];
    if (self->next == self->end) open_chunk(thread);
    self->next->number = header->next_number++;
    return self->next++;
}

static struct record *put(int thread, struct record filled) {
    struct record *record = numbered(thread);
    filled.number = record->number;
    filled.time = now += 20 + below(200);
    *record = filled;
    return record;
}

static struct record *put_of(int thread, enum event event, int mutex) {
    uint64_t place = event == EVENT_INIT ? 0 : place_of(event, mutex);
    return put(thread, (struct record){ .event = (uint8_t)event,
                                        .object = object_of(mutex) | place << PLACE_SHIFT,
                                        .detail = mutexes[mutex].detail });
}

/* Puts a record of the code's place, which follows a CREATE or an INIT. */
static void put_place(int thread) {
    put(thread, (struct record){ .event = EVENT_PLACE, .object = 0x400000 + below(0x10000) });
}

static void put_name(int thread) {
    char name[TEXT_BYTES];
    int length = snprintf(name, sizeof name, "worker-%d", thread);
    put(thread, (struct record){ .event = EVENT_NAME, .value = (uint32_t)length });
    struct text_record *part = (struct text_record *)numbered(thread);
    memcpy(part->text, name, (size_t)length);
    part->event = EVENT_TEXT;
    part->length = (uint8_t)length;
}

/* ---- what threads do ---- */

static void start(int thread) {
    struct thread *self = &threads[thread];
    self->awaited = NOBODY;
    self->priority = thread % 4 == 3 ? 0 : 10 + (unsigned)thread * 7 % 80;
    uint16_t detail = self->priority ? (uint16_t)(self->priority << 8 | FIFO) : 0;
    if (thread > 0) {
        put(0, (struct record){ .event = EVENT_CREATE, .detail = detail });
        put_place(0);
    }
    put(thread, (struct record){ .event = EVENT_THREAD, .detail = detail });
    put_name(thread);
}

/* By turns NONE, INHERIT and PROTECT. */
static void make_mutex(int mutex) {
    const uint16_t details[] = { DETAIL_KNOWN, DETAIL_KNOWN | DETAIL_INHERIT,
                                 DETAIL_KNOWN | DETAIL_PROTECT | CEILING << 8 };
    mutexes[mutex] = (struct mutex){ .owner = NOBODY, .detail = details[mutex % 3] };
    put_of(0, EVENT_INIT, mutex);
    put_place(0);
}

static void grant(int thread, int mutex, uint64_t began) {
    struct thread *self = &threads[thread];
    mutexes[mutex].owner = thread;
    self->held[self->count++] = mutex;
    self->awaited = NOBODY;
    struct record *record = put_of(thread, EVENT_GRANTED, mutex);
    record->value = (uint32_t)(now - began < UINT32_MAX ? now - began : UINT32_MAX);
}

static void request(int thread, int mutex) {
    struct thread *self = &threads[thread];
    struct record *record = put_of(thread, EVENT_REQUEST, mutex);
    record->value = header->process + (uint32_t)mutexes[mutex].owner;
    mutexes[mutex].waiters++;
    self->awaited = mutex;
    self->since = now;
}

/* Returns whom a mutex goes to that is released and for which somebody waits. */
static int top_waiter(int mutex) {
    int top = NOBODY;
    for (int i = 0; i < thread_count; i++) {
        if (threads[i].awaited != mutex) continue;
        if (top == NOBODY || threads[i].priority > threads[top].priority
            || (threads[i].priority == threads[top].priority
                && threads[i].since < threads[top].since))
            top = i;
    }
    return top;
}

static void release(int thread) {
    struct thread *self = &threads[thread];
    int mutex = self->held[--self->count];
    put_of(thread, EVENT_RELEASE, mutex);
    mutexes[mutex].owner = NOBODY;
    if (mutexes[mutex].waiters == 0) return;
    int next = top_waiter(mutex);
    mutexes[mutex].waiters--;
    grant(next, mutex, threads[next].since);
}

/* Returns a mutex above those that a thread owns, which is owned by then or isn't, or NOBODY. */
static int find(const struct thread *self, bool is_owned) {
    int lowest = self->count ? self->held[self->count - 1] + 1 : 0, room = mutex_count - lowest;
    int from = room > 0 ? (int)below((uint64_t)room) : 0;
    for (int i = 0; i < room; i++) {
        int mutex = lowest + (from + i) % room;
        if ((mutexes[mutex].owner != NOBODY) == is_owned) return mutex;
    }
    return NOBODY;
}

/* Returns the mutex that a thread locks next, or NOBODY if it owns the last one. */
static int choose(const struct thread *self) {
    bool is_owned = below(100) < (uint64_t)percent;
    int mutex = find(self, is_owned);
    return mutex == NOBODY ? find(self, !is_owned) : mutex;
}

static void step(int thread) {
    struct thread *self = &threads[thread];
    if (self->awaited != NOBODY) return;
    bool releases = self->count == NESTED || (self->count && below(4) != 0);
    int mutex = releases ? NOBODY : choose(self);
    if (mutex == NOBODY)
        release(thread);
    else if (mutexes[mutex].owner != NOBODY)
        request(thread, mutex);
    else
        grant(thread, mutex, now);
}

/* ---- the log ---- */

static void map_log(const char *path) {
    uint64_t most = wanted_records + 16u * (unsigned)thread_count + 2u * (unsigned)mutex_count;
    uint64_t chunks = most / (CHUNK_RECORDS - 1) + (unsigned)thread_count + 1;
    if (chunks < LEAST_CHUNKS) chunks = LEAST_CHUNKS;
    uint64_t bytes = HEADER_BYTES + chunks * CHUNK_BYTES;
    int file = open(path, O_RDWR | O_CREAT | O_TRUNC | O_CLOEXEC, 0600);
    if (file < 0 || ftruncate(file, (off_t)bytes) != 0) stop(path, strerror(errno));
    header = mmap(NULL, bytes, PROT_READ | PROT_WRITE, MAP_SHARED, file, 0);
    if (header == MAP_FAILED) stop(path, strerror(errno));
    memcpy(header->magic, "pimlog\r\n", sizeof header->magic);
    header->version = LOG_VERSION;
    header->byte_order = LOG_BYTE_ORDER;
    header->header_bytes = HEADER_BYTES;
    header->record_bytes = sizeof(struct record);
    header->chunk_records = CHUNK_RECORDS;
    header->known = KNOWN_KIND | KNOWN_CEILING | KNOWN_OWNER;
    header->contents = HAS_PLACES;
    for (uint64_t i = 0; i < PLACE_SLOTS; i++) header->places[i] = 0x400000 + 16 * i;
    header->chunks = chunks;
    header->process = 1000;
    header->parent = 999;
    header->began_monotonic = now;
    header->began_realtime = 1700000000000000000u;
    header->command_bytes = sizeof "generated";
    memcpy(header->command, "generated", sizeof "generated");
    header->next_number = 1;
    header->next_thread = (uint64_t)thread_count + 1;
}

/* Returns how many threads still own a mutex. Each of them that doesn't wait releases one. */
static int release_each(void) {
    int owners = 0;
    for (int i = 0; i < thread_count; i++) {
        owners += threads[i].count > 0;
        if (threads[i].count && threads[i].awaited == NOBODY) release(i);
    }
    return owners;
}

static void write_records(void) {
    for (int i = 0; i < thread_count; i++) start(i);
    for (int i = 0; i < mutex_count; i++) make_mutex(i);
    while (header->next_number <= wanted_records) step((int)below((uint64_t)thread_count));
    while (release_each() > 0) {}
    for (int i = 1; i < thread_count; i++) put(i, (struct record){ .event = EVENT_EXIT });
    put(0, (struct record){ .event = EVENT_END, .how = 1 });
}

/* ---- the command ---- */

static uint64_t number(const char *text, uint64_t least, uint64_t most) {
    char *rest;
    errno = 0;
    uint64_t value = strtoull(text, &rest, 10);
    if (errno || *rest || *text < '0' || *text > '9' || value < least || value > most)
        stop(text, "no such number");
    return value;
}

int main(int count, char **arguments) {
    for (int option; (option = getopt(count, arguments, "n:t:m:c:s:")) != -1;) {
        switch (option) {
        case 'n': wanted_records = number(optarg, 1, UINT32_MAX); break;
        case 't': thread_count = (int)number(optarg, 1, 100000); break;
        case 'm': mutex_count = (int)number(optarg, 1, 100000); break;
        case 'c': percent = (int)number(optarg, 0, 100); break;
        case 's': random_state = number(optarg, 0, UINT32_MAX); break;
        default: fputs(usage, stderr); return 2;
        }
    }
    if (optind != count - 1) {
        fputs(usage, stderr);
        return 2;
    }
    threads = calloc((size_t)thread_count, sizeof *threads);
    mutexes = calloc((size_t)mutex_count, sizeof *mutexes);
    if (!threads || !mutexes) stop("the threads", strerror(errno));
    map_log(arguments[optind]);
    write_records();
    return 0;
}
