#define _GNU_SOURCE
#include "ring.h"

#include "known.h"

#include <sched.h>
#include <stdlib.h>
#include <string.h>
#include <sys/mman.h>

enum { IS_TOLD = 1 }; /* in place of when a thread asked: the wait's end says nothing new */

/* ---- making ---- */

struct ring *ring_make(uint32_t chunks, uint64_t limit) {
    const int how = MAP_PRIVATE | MAP_ANONYMOUS | MAP_NORESERVE;
    struct ring *made = calloc(1, sizeof *made);
    if (!made) return NULL;
    *made = (struct ring){ .room = chunks, .free = NO_CHUNK, .limit = limit };
    made->next = calloc(chunks, sizeof *made->next);
    made->used = calloc(chunks, sizeof *made->used);
    made->mutexes = known_make_mutexes();
    void *memory = mmap(NULL, (size_t)chunks * CHUNK_BYTES, PROT_READ | PROT_WRITE, how, -1, 0);
    made->chunks = memory == MAP_FAILED ? NULL : memory;
    if (made->next && made->used && made->mutexes && made->chunks) return made;
    ring_free(made);
    return NULL;
}

void ring_free(struct ring *freed) {
    if (!freed) return;
    for (int list = 0; list < LISTS; list++)
        for (struct ring_thread *it = freed->first[list], *next; it; it = next) {
            next = it->after;
            free(it);
        }
    for (struct module *it = freed->modules, *next; it; it = next) {
        next = it->next;
        free(it);
    }
    if (freed->chunks) munmap(freed->chunks, (size_t)freed->room * CHUNK_BYTES);
    free(freed->next);
    free(freed->used);
    free(freed->mutexes);
    free(freed);
}

/* ---- threads ---- */

static void leave_list(struct ring *of, struct ring_thread *thread) {
    enum lists list = thread->list;
    *(thread->before ? &thread->before->after : &of->first[list]) = thread->after;
    *(thread->after ? &thread->after->before : &of->last[list]) = thread->before;
    if (list == ENDED) of->ended_chunks -= thread->count;
}

static void enter_list(struct ring *of, struct ring_thread *thread, enum lists list) {
    thread->list = list;
    thread->after = NULL;
    thread->before = of->last[list];
    *(thread->before ? &thread->before->after : &of->first[list]) = thread;
    of->last[list] = thread;
    if (list == ENDED) of->ended_chunks += thread->count;
}

/* Puts a thread into the list that it belongs to: one that has ended is behind those before it. */
static void move_thread(struct ring *of, struct ring_thread *thread, bool is_ended) {
    enum lists list = !is_ended ? LIVE : thread->count ? ENDED : GONE;
    if (list == thread->list) return;
    leave_list(of, thread);
    enter_list(of, thread, list);
}

static struct ring_thread **bucket_of(struct ring *of, uint32_t number) {
    return &of->buckets[number % THREAD_BUCKETS];
}

struct ring_thread *ring_find(struct ring *of, uint32_t number) {
    struct ring_thread *found = *bucket_of(of, number);
    while (found && found->number != number) found = found->same_bucket;
    return found;
}

struct ring_thread *ring_thread_of(struct ring *of, const struct record *chunk) {
    const struct chunk_head *head = (const struct chunk_head *)chunk;
    struct ring_thread **bucket = bucket_of(of, head->thread);
    struct ring_thread *found = ring_find(of, head->thread);
    if (found) return found;
    found = calloc(1, sizeof *found);
    if (!found) return NULL;
    *found = (struct ring_thread){ .same_bucket = *bucket,
                                   .number = head->thread,
                                   .process = head->process,
                                   .task = head->task,
                                   .is_cut = head->index > 0, /* it was forgotten */
                                   .has_exit = head->index > 0,
                                   .next_index = head->index,
                                   .first = NO_CHUNK,
                                   .last = NO_CHUNK };
    *bucket = found;
    enter_list(of, found, LIVE);
    return found;
}

static bool is_target(const struct ring_thread *it, const struct ring_thread *by,
                      const struct record *record) {
    if (!record->object) return it->task == record->value;
    return it->process == by->process && it->self == record->object;
}

/* Of several that had the same pthread_t it is the thread itself, or the one that came last. */
struct ring_thread *ring_target(struct ring *of, struct ring_thread *by,
                                const struct record *record) {
    if (is_target(by, by, record)) return by;
    for (int list = LIVE; list <= ENDED; list++)
        for (struct ring_thread *it = of->last[list]; it; it = it->before)
            if (is_target(it, by, record)) return it;
    return NULL;
}

void ring_forget_empty(struct ring *of, struct ring_thread *thread) {
    if (thread->list != GONE || thread->remarks) return;
    struct ring_thread **place = bucket_of(of, thread->number);
    while (*place != thread) place = &(*place)->same_bucket;
    *place = thread->same_bucket;
    leave_list(of, thread);
    known_forget_thread(of, thread);
    free(thread);
}

/* ---- the present ---- */

static bool is_real_time(uint16_t priority) {
    int policy = priority & 15;
    return policy == SCHED_FIFO || policy == SCHED_RR || policy == 6 /* SCHED_DEADLINE */;
}

/* Returns whether a wait is too long, and keeps it. */
static bool look_at_wait(struct ring *of, const struct ring_thread *thread, uint64_t nanoseconds) {
    if (nanoseconds <= of->limit || !is_real_time(thread->priority_now)) return false;
    of->wait = (struct long_wait){ nanoseconds, thread->task, thread->priority_now };
    return true;
}

static void end_process(struct ring *of, uint32_t process) {
    for (struct ring_thread *it = of->first[LIVE], *next; it; it = next) {
        next = it->after;
        if (it->process == process) it->has_exit = true;
    }
}

static void look_at(struct ring *of, struct ring_thread *thread, const struct record *record) {
    struct ring_thread *target;
    switch (record->event) {
    case EVENT_THREAD:
        thread->self = record->object;
        thread->priority_now = record->detail;
        thread->has_exit = false;
        break;
    case EVENT_PRIORITY:
        target = ring_target(of, thread, record);
        if (target) target->priority_now = known_priority(target->priority_now, record->detail);
        break;
    case EVENT_REQUEST:
        thread->asked = record->time;
        break;
    case EVENT_CEILING:
        thread->asked = 0;
        break;
    case EVENT_GRANTED:
    case EVENT_FAILED:
        if (thread->asked != IS_TOLD) look_at_wait(of, thread, record->value);
        thread->asked = 0;
        break;
    case EVENT_EXIT:
        thread->has_exit = true;
        break;
    case EVENT_END:
        if (thread->process != of->process) end_process(of, thread->process);
        break;
    default:
        break;
    }
}

void ring_look(struct ring *of, const struct record *chunk, unsigned from, unsigned to) {
    struct ring_thread *thread = ring_thread_of(of, chunk);
    if (!thread) return;
    for (unsigned i = from ? from : 1; i < to; i++) look_at(of, thread, &chunk[i]);
}

void ring_look_at_time(struct ring *of, uint64_t now) {
    if (of->limit == UINT64_MAX) return;
    for (struct ring_thread *it = of->first[LIVE]; it; it = it->after) {
        if (it->asked <= IS_TOLD || now < it->asked) continue;
        if (look_at_wait(of, it, now - it->asked)) it->asked = IS_TOLD;
    }
}

/* ---- chunks ---- */

/* Returns the thread that is to lose a chunk. There is a chunk. */
static struct ring_thread *fullest(const struct ring *of) {
    struct ring_thread *found = NULL;
    uint64_t oldest = UINT64_MAX;
    uint32_t most = of->ended_chunks ? of->ended_chunks + 1 : 1;
    for (struct ring_thread *it = of->first[LIVE]; it; it = it->after) {
        if (it->count < most) continue;
        uint64_t first = of->chunks[it->first][1].number;
        if (it->count == most && first > oldest) continue;
        found = it;
        most = it->count;
        oldest = first;
    }
    return found ? found : of->first[ENDED];
}

static void free_chunk(struct ring *of, int32_t chunk) {
    of->next[chunk] = of->free;
    of->free = chunk;
}

/* Drops the oldest chunk of a thread. What is needed of it is kept. */
static void drop_oldest(struct ring *of, struct ring_thread *thread) {
    int32_t chunk = thread->first;
    const struct chunk_head *head = (const struct chunk_head *)of->chunks[chunk];
    thread->is_cut = true;
    thread->next_index = head->index + 1;
    thread->first = of->next[chunk];
    if (thread->first == NO_CHUNK) thread->last = NO_CHUNK;
    thread->count--;
    if (thread->list == ENDED) of->ended_chunks--;
    known_keep(of, thread, of->chunks[chunk], of->used[chunk]);
    free_chunk(of, chunk);
    if (thread->list != LIVE) move_thread(of, thread, true);
    ring_forget_empty(of, thread);
}

static int32_t take_chunk(struct ring *of) {
    if (of->free == NO_CHUNK && of->taken < of->room) return (int32_t)of->taken++;
    if (of->free == NO_CHUNK) drop_oldest(of, fullest(of));
    int32_t chunk = of->free;
    of->free = of->next[chunk];
    return chunk;
}

static uint32_t index_in(const struct ring *of, int32_t chunk) {
    return ((const struct chunk_head *)of->chunks[chunk])->index;
}

/* Links a chunk in the order of the indexes. Nearly always it is the last one. */
static void link_chunk(struct ring *of, struct ring_thread *thread, int32_t chunk) {
    int32_t *place = &thread->first;
    if (thread->last != NO_CHUNK && index_in(of, thread->last) < index_in(of, chunk))
        place = &of->next[thread->last];
    while (*place != NO_CHUNK && index_in(of, *place) < index_in(of, chunk))
        place = &of->next[*place];
    of->next[chunk] = *place;
    if (*place == NO_CHUNK) thread->last = chunk;
    *place = chunk;
    thread->count++;
    if (thread->list == ENDED) of->ended_chunks++;
}

void ring_add(struct ring *of, const struct record *chunk, unsigned used, bool is_closed) {
    struct ring_thread *thread = ring_thread_of(of, chunk);
    if (!thread || used <= 1) return; /* there is no memory, or no record */
    move_thread(of, thread, false);
    if (((const struct chunk_head *)chunk)->index < thread->next_index) {
        known_keep(of, thread, chunk, used); /* a later one is dropped already */
    } else {
        int32_t place = take_chunk(of);
        memcpy(of->chunks[place], chunk, used * sizeof *chunk);
        of->used[place] = (uint16_t)used;
        link_chunk(of, thread, place);
    }
    move_thread(of, thread, is_closed || thread->has_exit);
    ring_forget_empty(of, thread);
}
