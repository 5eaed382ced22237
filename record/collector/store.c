#define _GNU_SOURCE
#include "store.h"

#include "files.h"

#include <errno.h>
#include <fcntl.h>
#include <sched.h>
#include <stdio.h>
#include <stdlib.h>
#include <string.h>
#include <sys/mman.h>
#include <sys/resource.h>
#include <sys/stat.h>
#include <sys/uio.h>
#include <time.h>
#include <unistd.h>

#ifndef MFD_NOEXEC_SEAL
#define MFD_NOEXEC_SEAL 8u
#endif

enum { MOST_LOGS = 10000, BLOCK = 4096 /* of the disk */, IS_ADDED = UINT16_MAX };

static const uint64_t NO_END = UINT64_C(1) << 62; /* chunks of a ring, which takes more for ever */

/* ---- making ---- */

static int open_new(struct store *made, const char *name, uint32_t process) {
    for (int attempt = process ? 1 : 0; attempt < (process ? MOST_LOGS : 1); attempt++) {
        int length;
        if (attempt == 0)
            length = snprintf(made->path, sizeof made->path, "%s", name);
        else if (attempt == 1)
            length = snprintf(made->path, sizeof made->path, "%s.%u", name, process);
        else
            length = snprintf(made->path, sizeof made->path, "%s.%u.%d", name, process, attempt);
        errno = ENAMETOOLONG;
        if (length < 0 || (size_t)length >= sizeof made->path) return -1;
        int file = open(made->path, O_RDWR | O_CREAT | O_EXCL | O_CLOEXEC, 0600);
        if (file >= 0 || errno != EEXIST) return file;
    }
    return -1;
}

/* Puts for how many chunks the memory has room. The limit of a file is also that of the memory.
 * Returns whether it allows the log's file. */
static bool limit_slots(struct store *of) {
    struct rlimit limit;
    of->slots = of->chunks < MOST_SLOTS ? of->chunks : MOST_SLOTS;
    if (getrlimit(RLIMIT_FSIZE, &limit) != 0) return true;
    if (limit.rlim_cur >= shared_bytes(of->slots)) return true;
    if (limit.rlim_cur < of->bytes || limit.rlim_cur < shared_bytes(1)) return false;
    of->slots = (limit.rlim_cur - sizeof(struct shared)) / CHUNK_BYTES;
    return true;
}

/* A file longer than the limit couldn't take all records, nor can each file system have one as
 * long. It grows as it is written. The magic comes first: so what is left by a recorder that is
 * killed meanwhile is a log, too, which the next recording replaces. The disk has room for the
 * places then, whatever else it takes. */
const char *store_make_file(struct store *made, const char *name, uint32_t process,
                            const struct room *room) {
    const char *why = NULL;
    *made = (struct store){ .memory = -1, .bytes = room->bytes, .header = LOG_MAGIC };
    made->chunks = room->is_last ? NO_END : (room->bytes - HEADER_BYTES) / CHUNK_BYTES;
    bool is_allowed = limit_slots(made);
    made->file = open_new(made, name, process);
    if (made->file < 0) return strerror(errno);
    if (!is_allowed)
        why = "the log is longer than the limit of a file (ulimit -f)";
    else if (!write_all(made->file, made->header, HEADER_BYTES, 0) ||
             ftruncate(made->file, (off_t)room->bytes) != 0 ||
             ftruncate(made->file, HEADER_BYTES) != 0)
        why = strerror(errno);
    uint32_t chunks = (uint32_t)(room->bytes / CHUNK_BYTES);
    if (!why && room->is_last && !(made->ring = ring_make(chunks, room->trigger)))
        why = strerror(errno);
    if (why) store_remove(made);
    return why;
}

/* Locks what the program has touched, where the limit of locked memory allows it. */
static void lock_memory(struct store *of) {
    uint64_t touched = atomic_load(&of->view->next_slot);
    if (touched > MANY_SLOTS) touched = MANY_SLOTS;
    if (touched <= of->locked) return;
    (void)!mlock(of->view, sizeof *of->view + touched * CHUNK_BYTES);
    of->locked = touched;
}

/* Maps the memory for reading by a descriptor that can't write, so that store_is_over doesn't
 * count the mapping. */
static bool map_view(struct store *of, size_t bytes) {
    char path[64];
    snprintf(path, sizeof path, "/proc/self/fd/%d", of->memory);
    int readable = open(path, O_RDONLY | O_CLOEXEC);
    if (readable < 0) return false;
    void *view = mmap(NULL, bytes, PROT_READ, MAP_SHARED, readable, 0);
    close(readable);
    if (view == MAP_FAILED) return false;
    of->view = view;
    return true;
}

/* Maps what isn't a slot for writing, for as long as a caller needs it. */
static struct shared *map_shared(const struct store *of) {
    const int rights = PROT_READ | PROT_WRITE;
    void *mapped = mmap(NULL, sizeof(struct shared), rights, MAP_SHARED, of->memory, 0);
    return mapped == MAP_FAILED ? NULL : mapped;
}

static int make_memory_file(void) {
    int memory = memfd_create("pim-record", MFD_CLOEXEC | MFD_ALLOW_SEALING | MFD_NOEXEC_SEAL);
    if (memory >= 0 || errno != EINVAL) return memory;
    return memfd_create("pim-record", MFD_CLOEXEC | MFD_ALLOW_SEALING); /* before Linux 6.3 */
}

bool store_make_memory(struct store *made) {
    size_t bytes = shared_bytes(made->slots);
    made->memory = make_memory_file();
    made->written = calloc(made->slots, sizeof *made->written);
    made->found = calloc(made->slots, sizeof *made->found);
    if (made->memory < 0 || !made->written || !made->found) return false;
    if (ftruncate(made->memory, (off_t)bytes) != 0) return false;
    if (fcntl(made->memory, F_ADD_SEALS, F_SEAL_SHRINK | F_SEAL_GROW) != 0) return false;
    if (!map_view(made, bytes)) return false;
    struct shared *shared = map_shared(made);
    if (!shared) return false;
    shared->header.chunks = made->chunks;
    munmap(shared, sizeof *shared);
    return true;
}

/* ---- the file ---- */

/* What is to be written of a chunk, without the heads. */
struct written {
    uint64_t count, first, last; /* the numbers of the first record and of the last one */
};

static struct written count_written(const struct record *chunk, unsigned from, unsigned to) {
    struct written counted = { .count = 0 };
    for (unsigned i = from; i < to; i++) {
        uint64_t number = atomic_load_explicit(&chunk[i].number, memory_order_relaxed);
        if (number == CHUNK_MARK) continue;
        if (counted.count++ == 0) counted.first = number;
        counted.last = number;
    }
    return counted;
}

/* Counts records as lost. */
static void lose(struct store *of, const struct written *lost) {
    if (lost->count == 0) return;
    if (of->first_lost == 0 || lost->first < of->first_lost) of->first_lost = lost->first;
    of->lost += lost->count;
}

/* Writes what is new of the table of places, before a chunk with the numbers of those. */
static void write_places(struct store *of) {
    const unsigned char *table = (const unsigned char *)&of->view->header;
    unsigned char page[BLOCK];
    for (size_t at = FIELDS_BYTES; at < HEADER_BYTES; at += BLOCK) {
        if (memcmp(table + at, of->header + at, BLOCK) == 0) continue;
        memcpy(page, table + at, BLOCK);
        if (write_all(of->file, page, BLOCK, at)) memcpy(of->header + at, page, BLOCK);
    }
}

/* Writes what is new of a chunk, up to `to` records with the head. */
static void write_chunk(struct store *of, uint64_t slot, uint64_t place, unsigned to) {
    const struct record *chunk = of->view->slots[slot];
    unsigned from = of->written[slot];
    uint64_t offset = HEADER_BYTES + (place - 1) * CHUNK_BYTES + from * sizeof(struct record);
    unsigned char bytes[CHUNK_BYTES];
    if (from >= to || place == 0 || place > of->chunks) return;
    write_places(of);
    memcpy(bytes, chunk + from, (to - from) * sizeof(struct record));
    if (from == 0) ((struct chunk_head *)bytes)->place = 0;
    bool is_written = of->lost == 0 &&
                      write_all(of->file, bytes, (to - from) * sizeof(struct record), offset);
    struct written counted = count_written(chunk, from, to);
    if (is_written)
        of->records += counted.count;
    else
        lose(of, &counted);
    if (counted.last >= of->next_number) of->next_number = counted.last + 1;
    of->written[slot] = (uint16_t)to;
}

/* Makes the file as long as the chunks that were taken, of which some may not be written yet. A
 * reader of the header finds them all. Returns false where it can't. */
static bool cover(struct store *of, const struct header *header) {
    uint64_t chunks = header->next_chunk < of->chunks ? header->next_chunk : of->chunks;
    uint64_t length = HEADER_BYTES + chunks * CHUNK_BYTES;
    if (length <= of->length) return true;
    if (ftruncate(of->file, (off_t)length) != 0) return false;
    of->length = length;
    return true;
}

/* Returns a number above those of all records, which are times, and of the first lost one. */
static uint64_t end_of(const struct store *of, uint64_t first_lost) {
    uint64_t end = of->next_number ? of->next_number : 1;
    return first_lost < end ? end : first_lost + 1;
}

/* Writes the header's fields, if they are new. */
static void write_header(struct store *of) {
    struct header header;
    if (atomic_load(&of->view->header.next_number) == 0) return; /* the program hasn't filled it */
    memcpy(&header, &of->view->header, FIELDS_BYTES);
    header.chunks = of->chunks;
    header.ended = of->ended;
    if (!cover(of, &header)) return;
    header.lost += of->lost;
    uint64_t first_lost = header.first_lost;
    if (of->first_lost && (first_lost == 0 || of->first_lost < first_lost))
        header.first_lost = of->first_lost;
    header.records = of->records;
    if (header.contents & HAS_TIMES) header.next_number = end_of(of, header.first_lost);
    if (memcmp(&header, of->header, FIELDS_BYTES) == 0) return;
    if (write_all(of->file, &header, FIELDS_BYTES, 0)) memcpy(of->header, &header, FIELDS_BYTES);
}

/* ---- collecting ---- */

/* A chunk that is done before it is full takes less of the disk: the file gets room for more of
 * them, until those that are written take what they may. */
static void save(struct store *of, unsigned written) {
    unsigned used = (written * (unsigned)sizeof(struct record) + BLOCK - 1) / BLOCK * BLOCK;
    of->saved += CHUNK_BYTES - used;
}

static void make_room(struct store *of, struct shared *shared) {
    if (atomic_load(&shared->header.next_chunk) < of->chunks / 2) return;
    uint64_t chunks = (of->bytes - HEADER_BYTES + of->saved) / CHUNK_BYTES;
    if (chunks == of->chunks) return;
    of->chunks = chunks;
    atomic_store(&shared->header.chunks, chunks);
}

/* Gives a slot back, with zeros. */
static void give_back(struct store *of, struct shared *shared, uint64_t slot, unsigned used) {
    static const unsigned char zeros[CHUNK_BYTES];
    uint64_t offset = sizeof(struct shared) + slot * CHUNK_BYTES;
    if (!write_all(of->memory, zeros, used * sizeof(struct record), offset)) return;
    of->written[slot] = 0;
    uint64_t bit = UINT64_C(1) << slot % 64;
    atomic_fetch_or_explicit(&shared->free[slot / 64], bit, memory_order_release);
}

static uint64_t number_of(const struct record *record) {
    return atomic_load_explicit(&record->number, memory_order_acquire);
}

static bool is_slot_done(const struct record *chunk) {
    const struct chunk_head *head = (const struct chunk_head *)chunk;
    bool is_full = number_of(&chunk[CHUNK_RECORDS - 1]) != 0;
    return is_full || atomic_load_explicit(&head->place, memory_order_acquire) & ~CHUNK_PLACE;
}

/* Finds the chunks that are to be written: those that are done, or all. Returns how many. */
static size_t find_chunks(struct store *of, bool is_with_begun) {
    uint64_t used = atomic_load(&of->view->next_slot);
    size_t count = 0;
    if (used > of->slots) used = of->slots;
    for (uint64_t slot = 0; slot < used; slot++) {
        const struct record *chunk = of->view->slots[slot];
        const struct chunk_head *head = (const struct chunk_head *)chunk;
        uint64_t free = atomic_load_explicit(&of->view->free[slot / 64], memory_order_acquire);
        if (free >> slot % 64 & 1) continue;
        if (atomic_load_explicit(&head->mark, memory_order_acquire) != CHUNK_MARK) continue;
        bool is_done = is_slot_done(chunk);
        if (!is_done && !is_with_begun) continue;
        uint64_t place = atomic_load(&head->place) & CHUNK_PLACE;
        of->found[count++] = (struct found){ .place = place, .slot = slot, .is_done = is_done };
    }
    return count;
}

static int by_place(const void *one, const void *other) {
    uint64_t a = ((const struct found *)one)->place, b = ((const struct found *)other)->place;
    return (a > b) - (a < b);
}

/* Returns how many records a chunk has by now, with its head. */
static unsigned count_records(const struct record *chunk, unsigned from) {
    unsigned to = from ? from : 1;
    while (to < CHUNK_RECORDS && number_of(&chunk[to])) to++;
    return to;
}

/* Adds a chunk to the ring once it is done. One that couldn't be given back was added before. */
static void collect_into_ring(struct store *of, struct shared *shared, const struct found *found) {
    const struct record *chunk = of->view->slots[found->slot];
    uint16_t *looked_at = &of->written[found->slot];
    bool is_done = is_slot_done(chunk); /* also if it wasn't as it was found */
    unsigned to = count_records(chunk, *looked_at == IS_ADDED ? 0 : *looked_at);
    if (*looked_at != IS_ADDED) {
        ring_look(of->ring, chunk, *looked_at, to);
        *looked_at = (uint16_t)to;
        if (!is_done) return;
        bool is_closed = atomic_load(&((const struct chunk_head *)chunk)->place) & CHUNK_IS_CLOSED;
        ring_add(of->ring, chunk, to, is_closed);
        *looked_at = IS_ADDED;
    }
    if (shared) give_back(of, shared, found->slot, to);
}

static void collect_into_file(struct store *of, struct shared *shared, const struct found *found) {
    unsigned to = count_records(of->view->slots[found->slot], of->written[found->slot]);
    write_chunk(of, found->slot, found->place, to);
    if (!found->is_done || !shared) return;
    save(of, to);
    give_back(of, shared, found->slot, to);
}

/* Puts the level of a thread that couldn't ask for it, under a seccomp filter, if it is there. */
static void put_level(const struct store *of, uint64_t slot) {
    const struct record *chunk = of->view->slots[slot], *first = &chunk[1];
    const struct chunk_head *head = (const struct chunk_head *)chunk;
    struct sched_param param = { .sched_priority = 0 };
    bool is_wanted = of->sees_threads && head->index == 0 && number_of(first) &&
                     first->event == EVENT_THREAD && first->detail == POLICY_KEPT;
    int policy = is_wanted ? sched_getscheduler((pid_t)head->task) : -1;
    if (policy < 0 || sched_getparam((pid_t)head->task, &param) != 0) return;
    uint16_t detail = (uint16_t)(((unsigned)policy & 15) | (unsigned)param.sched_priority << 8);
    uint64_t offset = sizeof(struct shared) + slot * CHUNK_BYTES + sizeof *chunk;
    (void)!write_all(of->memory, &detail, sizeof detail, offset + offsetof(struct record, detail));
}

/* Takes chunks in the order of their places, so that a file that takes no more lacks no chunk
 * of a thread before one that it has. Without `shared` no slot is given back. Returns whether a
 * chunk was done. */
static bool collect_chunks(struct store *of, struct shared *shared, bool is_with_begun) {
    size_t count = find_chunks(of, is_with_begun || of->ring);
    if (of->ring) of->ring->process = of->view->header.process;
    bool is_any_done = false;
    qsort(of->found, count, sizeof *of->found, by_place);
    for (size_t i = 0; i < count; i++) {
        put_level(of, of->found[i].slot);
        if (of->ring)
            collect_into_ring(of, shared, &of->found[i]);
        else
            collect_into_file(of, shared, &of->found[i]);
        is_any_done = is_any_done || of->found[i].is_done;
    }
    return is_any_done;
}

bool store_collect(struct store *of, bool is_with_begun) {
    lock_memory(of);
    struct shared *shared = map_shared(of);
    bool is_any_done = collect_chunks(of, shared, is_with_begun);
    if (shared && of->lost)
        atomic_store(&shared->header.chunks, 0); /* no more records come */
    else if (shared && !of->ring)
        make_room(of, shared);
    if (shared) munmap(shared, sizeof *shared);
    if (of->ring && is_with_begun) ring_look_at_time(of->ring, clock_time());
    if (!of->ring && (is_any_done || is_with_begun)) write_header(of);
    return is_any_done;
}

/* ---- loss ---- */

enum loss store_loss(const struct store *of) {
    const struct header *header = &of->view->header;
    if (of->lost) return LOSS_DISK;
    if (atomic_load(&header->first_lost) == 0) return NO_LOSS;
    return atomic_load(&header->next_chunk) < of->chunks ? LOSS_MEMORY : LOSS_SIZE;
}

uint64_t store_lost(const struct store *of) {
    return of->lost + atomic_load(&of->view->header.lost);
}

/* ---- snapshots ---- */

/* Copies the chunks that aren't in the ring. */
static bool copy_begun(struct store *of) {
    size_t count = find_chunks(of, true);
    qsort(of->found, count, sizeof *of->found, by_place);
    of->begun = malloc((count + 1) * sizeof *of->begun);
    of->begun_count = 0;
    for (size_t i = 0; of->begun && i < count; i++) {
        const struct record *chunk = of->view->slots[of->found[i].slot];
        if (of->written[of->found[i].slot] == IS_ADDED) continue;
        struct begun *copy = &of->begun[of->begun_count++];
        copy->used = count_records(chunk, 0);
        memcpy(copy->records, chunk, copy->used * sizeof *chunk);
    }
    return of->begun != NULL;
}

/* Records that take a number from now on aren't all there: the chunks are copied one by one. */
bool store_prepare_snapshot(struct store *of) {
    of->ended = clock_time();
    of->end = atomic_load(&of->view->header.next_number);
    if (of->end && of->view->header.contents & HAS_TIMES) of->end = of->ended;
    store_collect(of, true);
    return copy_begun(of);
}

static bool write_ring(const struct store *of, int file) {
    struct header header;
    memcpy(&header, &of->view->header, sizeof header);
    header.ended = of->ended;
    return extract(of->ring, of->begun, of->begun_count, of->end, &header, file);
}

/* It has its name once it is whole. */
bool store_write_snapshot(const struct store *of, unsigned number) {
    if (of->end == 0) return true; /* the program hasn't filled the header */
    char path[PATH_MAX], part[PATH_MAX];
    int length = snprintf(path, sizeof path, "%s.snapshot.%u", of->path, number);
    if (length < 0 || (size_t)length + sizeof ".part" > sizeof part) return false;
    strcat(strcpy(part, path), ".part");
    int file = open(part, O_RDWR | O_CREAT | O_EXCL | O_CLOEXEC, 0600);
    if (file < 0) return false;
    bool is_written = write_ring(of, file) && rename(part, path) == 0;
    close(file);
    if (!is_written) unlink(part);
    return is_written;
}

void store_leave_snapshot(struct store *of) {
    free(of->begun);
    of->begun = NULL;
    of->begun_count = 0;
}

/* Writes the ring to the log's file. */
static void end_ring(struct store *of) {
    of->end = NO_END;
    bool has_log = atomic_load(&of->view->header.next_number) != 0; /* else it isn't filled */
    if (has_log && copy_begun(of)) (void)!write_ring(of, of->file);
    store_leave_snapshot(of);
}

/* ---- the end ---- */

/* A seal against writing can't be set while a mapping that may write is there. */
bool store_is_over(const struct store *of) {
    return fcntl(of->memory, F_ADD_SEALS, F_SEAL_WRITE) == 0;
}

void store_leave(struct store *of) {
    if (of->view) munmap((void *)of->view, shared_bytes(of->slots));
    if (of->memory >= 0) close(of->memory);
    close(of->file);
    ring_free(of->ring);
    free(of->written);
    free(of->found);
}

/* Removes the file, unless another recording has made one of this name meanwhile. */
static void remove_file(const struct store *of) {
    struct stat own, found;
    bool is_there = fstat(of->file, &own) == 0 && lstat(of->path, &found) == 0;
    if (is_there && own.st_dev == found.st_dev && own.st_ino == found.st_ino) unlink(of->path);
}

void store_end(struct store *ended) {
    ended->ended = clock_time();
    collect_chunks(ended, NULL, true);
    if (ended->ring)
        end_ring(ended);
    else
        write_header(ended);
    if (atomic_load(&ended->view->is_unused)) remove_file(ended);
}

void store_remove(struct store *removed) {
    remove_file(removed);
    store_leave(removed);
}
