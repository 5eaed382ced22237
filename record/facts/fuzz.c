/* Converts what a fuzzer makes: `make fuzz-facts` in record/. The first byte of an input says what
 * the others are: LOG.places, or the records of a log, or bytes to change in it and its records, or
 * the kernel's events, or a log whose numbers are times, with several heads in a chunk.
 */
#define _GNU_SOURCE
#include "order.h"

#include "../library/shared.h"

#include <fcntl.h>
#include <setjmp.h>
#include <stdio.h>
#include <stdlib.h>
#include <string.h>

enum { PLACES, RECORDS, CHANGES, EVENTS, TIMES, WAYS };
enum { CHUNKS = 4, THREADS = 8, RECORD_SEED = 12, CHANGE_SEED = 4, HEAD_SEED = 240 };

jmp_buf refused;

int LLVMFuzzerTestOneInput(const uint8_t *data, size_t size);

/* What is behind a log: LOG.places, LOG.kernel. */
struct beside {
    const char *places, *events;
    size_t places_length, events_length;
};

static void convert(const char *bytes, size_t length, struct beside beside) {
    static struct log log;
    static struct names names;
    static struct text text;
    static struct told told;
    static struct kernel kernel;
    if (text.file == 0) text.file = open("/dev/null", O_WRONLY | O_CLOEXEC);
    if (setjmp(refused) == 0) {
        told = (struct told){ .log = &log };
        text.used = 0;
        log_read(&log, "log", bytes, length, NULL);
        names_begin(&names, &log);
    names_read(&names, 0, beside.places, beside.places_length);
        find_requests(&told);
        find_waits(&told);
        list_facts(&told);
        mark_order(&told);
        kernel = (struct kernel){ 0 };
        if (beside.events)
            kernel_read(&kernel, &told, "kernel", beside.events, beside.events_length);
        write_facts(&told, &kernel, &names, &text);
    }
    free_all();
}

static struct chunk_head made_head(uint32_t thread, uint32_t index) {
    return (struct chunk_head){ .mark = CHUNK_MARK,
                                .process = 7 + thread / 3,
                                .task = 10 + thread,
                                .thread = thread + 1,
                                .index = index };
}

/* Makes a header and the chunks of a few threads. */
static struct header *make_log(size_t length) {
    struct header *header = aligned_alloc(FIELDS_BYTES, length);
    memset(header, 0, length);
    memcpy(header->magic, (char[8])LOG_MAGIC, sizeof header->magic);
    header->version = LOG_VERSION;
    header->byte_order = LOG_BYTE_ORDER;
    header->header_bytes = HEADER_BYTES;
    header->record_bytes = sizeof(struct record);
    header->chunk_records = CHUNK_RECORDS;
    header->chunks = header->next_chunk = CHUNKS;
    header->next_thread = THREADS + 1;
    header->next_number = 1;
    header->began_monotonic = 1000;
    for (uint64_t i = 0; i < 16; i++) header->places[i] = 0x401000 + i;
    for (uint32_t i = 0; i < CHUNKS; i++)
        *(struct chunk_head *)((char *)header + HEADER_BYTES + i * CHUNK_BYTES) = made_head(i, 0);
    return header;
}

/* Returns the record that some bytes stand for. Most of them are locks of a few mutexes. */
static struct record record_of(const uint8_t *seed) {
    static const uint16_t details[] = { 0, 4, 0x24, 0x5a44, 5, 0x84, 0x14, 0x1e44 };
    static const uint32_t values[] = { 0, 10, 11, 12, 13, 50, 5000, UINT32_MAX };
    uint8_t event = seed[1] % 32;
    bool has_place = event >= EVENT_REQUEST;
    uint64_t object = (seed[2] & 7) * 64u + 0x500;
    if (seed[2] & 128) object = seed[3];
    if (has_place) object |= (uint64_t)(seed[4] % 18) << PLACE_SHIFT;
    uint16_t detail = seed[5] & 128 ? (uint16_t)(seed[5] << 8 | seed[6]) : details[seed[5] & 7];
    return (struct record){ .object = object,
                            .value = values[seed[7] & 7],
                            .detail = detail,
                            .event = event,
                            .how = seed[8] & 128 ? seed[9] : seed[8] % 5 };
}

/* Makes the time of a record its number, or one more than its thread's last one. */
static void number_by_time(struct header *header, struct record *record, uint64_t *last) {
    record->number = record->time > *last ? record->time : *last + 1;
    *last = record->number;
    if (record->number >= header->next_number) header->next_number = record->number + 1;
}

/* Fills the chunks with records, and with the heads of other threads if numbers are times. */
static void fill(struct header *header, const uint8_t *data, size_t size) {
    uint32_t used[CHUNKS] = { 0 };
    uint64_t now = 1000, last[CHUNKS] = { 0 };
    for (; size >= RECORD_SEED; data += RECORD_SEED, size -= RECORD_SEED) {
        uint32_t chunk = data[0] % CHUNKS;
        if (++used[chunk] >= CHUNK_RECORDS) break;
        struct record *record = (struct record *)((char *)header + HEADER_BYTES +
                                                  chunk * CHUNK_BYTES) +
                                used[chunk];
        if (header->contents & HAS_TIMES && data[1] >= HEAD_SEED) {
            *(struct chunk_head *)record = made_head(data[2] % THREADS, data[3] % 2);
            last[chunk] = 0;
            continue;
        }
        *record = record_of(data);
        record->time = now += data[10] * 16u;
        if (data[11] & 128) record->time = now - data[11];
        record->number = header->next_number++;
        if (header->contents & HAS_TIMES) number_by_time(header, record, &last[chunk]);
        if (record->event == EVENT_TEXT) record->how = data[9] % 24;
    }
}

/* Changes bytes of a log, most of them of the fields of its header or of the heads of chunks. */
static size_t change(char *log, size_t length, const uint8_t *data, size_t size) {
    size_t count = size ? data[0] % 8 : 0, done = 1;
    for (; count > 0 && done + CHANGE_SEED <= size; count--, done += CHANGE_SEED) {
        const uint8_t *seed = data + done;
        size_t at = seed[0] & 1 ? seed[1] : HEADER_BYTES + (size_t)seed[1] * 64 + seed[2] % 64;
        if (seed[0] & 2) at = HEADER_BYTES + seed[1] % CHUNKS * CHUNK_BYTES + seed[2] % 32;
        log[at % length] = (char)seed[3];
    }
    return done < size ? done : size;
}

/* Makes lines of the kernel's events, each of 8 bytes, or has the bytes themselves behind a head.
 */
static char *make_events(const uint8_t *data, size_t size, size_t *length) {
    static const char head[] =
        "pim-kernel 2\nkernel 6 x\nclock mono\nprocess 10\nbegan 900\ncpus 2\n";
    static const char *const states[] = { "S", "R", "R+", "D", "X", "S", "S", "0x5" };
    size_t room = sizeof head + size * 16 + 64;
    char *events = malloc(room), *at = events + sprintf(events, "%s", head);
    uint64_t now = 900;
    for (; size >= 8 && !(data[0] & 128); data += 8, size -= 8) {
        now += data[1] * 4u;
        at += sprintf(at, "%lu %d %d ", (unsigned long)now, data[2] & 1, 10 + data[2] / 2 % 5);
        switch (data[0] % 6) {
        case 0:
        case 1:
            at += sprintf(at, "switch %d %s %d %d\n", data[3] % 142 - 1, states[data[4] & 7],
                          data[5] % 6 ? 9 + data[5] % 6 : 0, data[6] % 141);
            break;
        case 2: at += sprintf(at, "wait 0x%x private\n", data[3] & 3); break;
        case 3: at += sprintf(at, "return %d\n", data[3] & 1 ? 0 : -(int)data[4]); break;
        case 4: at += sprintf(at, "wake %d\n", 10 + data[3] % 5); break;
        default:
            at += data[3] & 1
                      ? sprintf(at, "lost %d %lu\n", data[4], (unsigned long)now - data[5] % 100)
                      : sprintf(at, "setprio %d 89 %d\n", 10 + data[4] % 5, data[5] % 141);
        }
    }
    memcpy(at, data, size);
    *length = (size_t)(at - events) + size;
    return events;
}

int LLVMFuzzerTestOneInput(const uint8_t *data, size_t size) {
    const size_t length = HEADER_BYTES + CHUNKS * CHUNK_BYTES;
    if (size == 0) return 0;
    uint8_t way = data[0] % WAYS;
    struct header *header = make_log(length);
    if (way == TIMES) header->contents = HAS_TIMES;
    if (way == TIMES && size > 1 && data[1] & 1) header->lost = header->first_lost = 1 + data[1];
    size_t behind = way == CHANGES ? 1 + change((char *)header, length, data + 1, size - 1) : 1;
    if (way != PLACES) fill(header, data + behind, size - behind);
    if (way == CHANGES) change((char *)header, length, data + 1, size - 1);
    char *events = NULL;
    struct beside beside = { .places = "" };
    if (way == PLACES) {
        beside.places = (const char *)data + 1;
        beside.places_length = size - 1;
    } else if (way == EVENTS) {
        beside.events = events = make_events(data + 1, size - 1, &beside.events_length);
    }
    convert((char *)header, length, beside);
    free(events);
    free(header);
    return 0;
}
