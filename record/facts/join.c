/* Makes one log of several: FORMAT.md, 'Several programs'. Each record has another number,
 * and is where it was in its chunk. What each log counts by itself has other numbers, too: threads,
 * processes, places. */
#define _GNU_SOURCE
#include "join.h"

#include <stdlib.h>
#include <string.h>

enum { MOST_PLACE = UINT16_MAX }; /* has the bits of an object that its address hasn't */

/* A log, and how far it is read. */
struct source {
    struct log log;
    uint64_t number, end, clock; /* of the next record; the clock is the latest time up to it */
    uint32_t first_chunk, first_head, first_place, place_count;
};

struct joining {
    struct source *sources;
    uint32_t count, begun; /* all records of those before `begun` are put */
    char *bytes;
    struct header *header;
    struct joined *joined;
    struct table threads, processes; /* by source and number of its own */
    struct table executed; /* by process the thread that became another program, or NONE */
    bool *has_head;        /* by head */
    uint32_t thread_count, process_count, head_count;
};

/* Returns the next record of a source. */
static const struct record *next_of(const struct source *source) {
    return (const struct record *)slot_at(&source->log, source->log.slots[source->number]);
}

/* Goes to the next record of a source. Returns whether there is one. */
static bool go_on(struct source *source) {
    source->number++;
    if (source->number >= source->end) return false;
    const struct record *record = next_of(source);
    if (record->event != EVENT_TEXT && record->time > source->clock) source->clock = record->time;
    return true;
}

/* Returns the number of a thread of a source: that of the thread which became its program. */
static uint32_t thread_of(struct joining *all, uint32_t source, const struct chunk_head *head) {
    uint32_t before = NONE, *number = table_at(&all->threads, source, head->thread);
    if (*number == NONE && head->task == head->process)
        before = table_get(&all->executed, head->process, 0);
    if (*number == NONE) *number = before == NONE ? ++all->thread_count : before;
    return *number;
}

static uint32_t process_of(struct joining *all, uint32_t source, uint32_t process) {
    uint32_t *number = table_at(&all->processes, source, process);
    if (*number != NONE) return *number;
    struct joined *joined = all->joined;
    joined->part_of = with_room(joined->part_of, all->process_count + 1, sizeof(uint32_t));
    *number = ++all->process_count;
    joined->part_of[*number] = source;
    return *number;
}

/* Notes whether a thread of its process's number becomes another program. */
static void note_program(struct joining *all, const struct chunk_head *head, uint8_t event,
                         uint32_t thread) {
    bool is_known = table_get(&all->executed, head->process, 0) != NONE;
    if (head->task != head->process || event == EVENT_TEXT) return;
    if (event == EVENT_EXEC || is_known)
        *table_at(&all->executed, head->process, 0) = event == EVENT_EXEC ? thread : NONE;
}

/* Gives a record the numbers of the joined log. */
static void renumber(struct joining *all, uint32_t source, struct record *record) {
    const struct source *of = &all->sources[source];
    if (record->event == EVENT_CHILD) {
        uint32_t parent = table_get(&all->threads, source, record->value);
        record->value = parent == NONE ? 0 : parent;
    }
    if (record->event < EVENT_REQUEST) return;
    uint64_t place = record->object >> PLACE_SHIFT;
    uint64_t number = of->first_place + place;
    bool is_there = place && place <= of->place_count;
    record->object &= (UINT64_C(1) << PLACE_SHIFT) - 1;
    if (is_there && number <= MOST_PLACE) record->object |= number << PLACE_SHIFT;
    all->header->unplaced += is_there && number > MOST_PLACE;
}

/* Puts the head of a thread. The first one of its chunk is there, too, also if no record of that
 * counts. */
static void put_head(struct record *records, uint32_t slot, uint32_t process, uint32_t thread) {
    struct chunk_head *its = (struct chunk_head *)&records[slot];
    struct chunk_head *first = (struct chunk_head *)&records[slot & ~(CHUNK_RECORDS - 1u)];
    for (struct chunk_head *head = its; head->mark == 0; head = first) {
        head->mark = CHUNK_MARK;
        head->process = process;
        head->thread = thread;
    }
    its->process = process;
    its->thread = thread;
}

/* Puts the next record of a source. */
static void put(struct joining *all, uint32_t source) {
    const struct source *of = &all->sources[source];
    uint32_t slot = of->log.slots[of->number], at = head_of(&of->log, slot);
    uint32_t head_slot = of->log.heads[at].slot;
    const struct chunk_head *head = (const struct chunk_head *)slot_at(&of->log, head_slot);
    char *into = all->bytes + HEADER_BYTES + (size_t)of->first_chunk * CHUNK_BYTES;
    struct record *records = (struct record *)into, *record = &records[slot];
    uint32_t thread = thread_of(all, source, head);
    note_program(all, head, record->event, thread);
    record->number = all->header->next_number++;
    if (record->event != EVENT_TEXT) renumber(all, source, record);
    if (all->has_head[of->first_head + at]) return;
    all->has_head[of->first_head + at] = true;
    put_head(records, head_slot, process_of(all, source, head->process), thread);
}

/* Returns the source whose next record is the first by the clocks. One that begins later than that
 * isn't looked at, nor any behind it. */
static uint32_t first_of(const struct joining *all) {
    uint32_t first = all->begun;
    for (uint32_t i = all->begun + 1; i < all->count; i++) {
        const struct source *source = &all->sources[i], *best = &all->sources[first];
        bool is_there = source->number < source->end;
        if (is_there && source->clock < best->clock) first = i;
        if (source->log.header.began_monotonic > all->sources[first].clock) break;
    }
    return first;
}

static void put_all(struct joining *all) {
    for (uint32_t i = 0; i < all->count; i++) go_on(&all->sources[i]);
    while (true) {
        while (all->begun < all->count &&
               all->sources[all->begun].number >= all->sources[all->begun].end)
            all->begun++;
        if (all->begun == all->count) break;
        uint32_t first = first_of(all);
        put(all, first);
        go_on(&all->sources[first]);
    }
}

/* Copies the chunks of a source, in which no record has a number yet. */
static void copy(struct joining *all, const struct source *source) {
    size_t bytes = (size_t)source->log.chunks * CHUNK_BYTES;
    char *into = all->bytes + HEADER_BYTES + (size_t)source->first_chunk * CHUNK_BYTES;
    memcpy(into, source->log.bytes + HEADER_BYTES, bytes);
    for (size_t at = 0; at < bytes; at += sizeof(struct record)) memset(into + at, 0, 8);
}

/* Reads a log by itself, and counts what is its. */
static void open_source(struct joining *all, const struct part *part) {
    struct source *source = &all->sources[all->count++];
    struct joined *joined = all->joined;
    source->end = log_index(&source->log, part->path, part->bytes, part->length);
    const struct header *header = &source->log.header;
    source->clock = header->began_monotonic;
    source->first_place = joined->place_count;
    for (uint32_t i = 0; i < PLACE_SLOTS; i++)
        if (header->places[i]) source->place_count = i + 1;
    joined->places = resized(joined->places, (joined->place_count + source->place_count) *
                                                 sizeof *joined->places);
    memcpy(joined->places + joined->place_count, header->places,
           source->place_count * sizeof *joined->places);
    joined->first_place[all->count - 1] = joined->place_count;
    joined->place_count += source->place_count;
    joined->missing += log_missing(&source->log);
}

/* Sets the counts that each log adds to. An atomic field takes an assignment of its own. */
static void clear_counts(struct header *header) {
    header->contents &= ~(uint32_t)HAS_TIMES;
    header->lost = 0;
    header->first_lost = 0;
    header->left_out = 0;
    header->dropped = 0;
    header->unplaced = 0;
    header->next_chunk = 0;
    header->next_number = 1;
    header->next_thread = 1;
}

/* Adds what the header of a log counts to that of all. */
static void add_header(struct joining *all, struct source *source) {
    const struct header *header = &source->log.header;
    source->first_chunk = (uint32_t)all->header->next_chunk;
    source->first_head = all->head_count;
    all->head_count += source->log.first_head[source->log.chunks];
    all->header->next_chunk += source->log.chunks;
    all->header->next_thread += header->next_thread;
    if (header->ended > all->header->ended) all->header->ended = header->ended;
    all->header->known &= header->known;
    all->header->left_out += header->left_out;
    all->header->dropped += header->dropped;
    all->header->unplaced += header->unplaced;
}

void log_join(struct log *log, const struct part *parts, uint32_t count) {
    static struct joined joined;
    struct joining all = { .joined = &joined };
    joined = (struct joined){ .first_place = resized(NULL, count * sizeof(uint32_t)),
                              .part_of = with_room(NULL, 0, sizeof(uint32_t)) };
    joined.part_of[0] = 0;
    all.sources = memset(resized(NULL, count * sizeof *all.sources), 0,
                         count * sizeof *all.sources);
    for (uint32_t i = 0; i < count; i++) open_source(&all, &parts[i]);
    struct header header = all.sources[0].log.header;
    all.header = &header;
    clear_counts(&header);
    for (uint32_t i = 0; i < count; i++) add_header(&all, &all.sources[i]);
    header.chunks = header.next_chunk;
    size_t length = HEADER_BYTES + header.chunks * CHUNK_BYTES;
    all.bytes = resized(NULL, length);
    all.has_head = memset(resized(NULL, all.head_count), 0, all.head_count);
    for (uint32_t i = 0; i < count; i++) copy(&all, &all.sources[i]);
    put_all(&all);
    memcpy(all.bytes, &header, HEADER_BYTES);
    log_read(log, parts[0].path, all.bytes, length, &joined);
}
