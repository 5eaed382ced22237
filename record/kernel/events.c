#define _GNU_SOURCE
#include "events.h"

#include <errno.h>
#include <inttypes.h>
#include <stdio.h>
#include <stdlib.h>
#include <string.h>

enum { FORMAT_BYTES = 8192 };

static const struct {
    const char *name;
    const char *fields[MOST_FIELDS];
} RECORDED[KINDS] = {
    [SET_PRIORITY] = { "sched/sched_pi_setprio", { "pid", "oldprio", "newprio" } },
    [SWITCH] = { "sched/sched_switch",
                 { "prev_prio", "prev_state", "next_pid", "next_prio", "prev_comm", "next_comm" } },
    [CALL] = { "syscalls/sys_enter_futex", { "op", "uaddr" } },
    [RETURN] = { "syscalls/sys_exit_futex", { "ret" } },
    [WAKING] = { "sched/sched_waking", { "pid" } },
};

/* ---- the layout ---- */

/* Finds a field in the text of a format: "field:int prev_prio;\toffset:28;\tsize:4;", and with
 * "[16]" behind the name of an array. */
static bool find_field(const char *format, const char *name, struct field *found) {
    size_t length = strlen(name);
    for (const char *at = format; (at = strstr(at, name)); at += length) {
        const char *behind = at + length;
        if (at == format || at[-1] != ' ' || (*behind != ';' && *behind != '[')) continue;
        const char *place = strstr(behind, "offset:");
        return place && sscanf(place, "offset:%u; size:%u;", &found->at, &found->bytes) == 2;
    }
    return false;
}

static bool read_layout(const char *format, const char *const *names, struct layout *layout) {
    const char *number = strstr(format, "ID: ");
    if (!number || sscanf(number, "ID: %u", &layout->number) != 1) return false;
    for (int i = 0; i < MOST_FIELDS && names[i]; i++) {
        struct field *field = &layout->fields[i];
        bool is_name = i >= 4;
        if (!find_field(format, names[i], field)) return false;
        if (is_name ? field->bytes != NAME_BYTES : field->bytes != 4 && field->bytes != 8)
            return false;
        if (field->at + field->bytes > layout->least_bytes)
            layout->least_bytes = field->at + field->bytes;
    }
    return true;
}

static bool read_page_layout(const char *format, struct layouts *layouts) {
    struct field commit = { 0 }, data = { 0 };
    bool is_known = find_field(format, "commit", &commit) && find_field(format, "data", &data);
    layouts->data_at = data.at;
    layouts->page_bytes = data.at + data.bytes;
    return is_known && commit.at == sizeof(uint64_t) && commit.bytes == sizeof(long);
}

const char *turn_on_events(const struct instance *of, struct layouts *layouts) {
    static char format[FORMAT_BYTES], path[128];
    errno = 0;
    if (!read_setting(of, "events/header_page", format, sizeof format) ||
        !read_page_layout(format, layouts))
        return "events/header_page";
    for (int kind = 0; kind < KINDS; kind++) {
        snprintf(path, sizeof path, "events/%s/format", RECORDED[kind].name);
        if (!read_setting(of, path, format, sizeof format)) return path;
        errno = 0;
        if (!read_layout(format, RECORDED[kind].fields, &layouts->of[kind])) return path;
        if (!find_field(format, "common_type", &layouts->number)) return path;
        if (!find_field(format, "common_pid", &layouts->task)) return path;
        snprintf(path, sizeof path, "events/%s/enable", RECORDED[kind].name);
        if (!put_setting(of, path, "1")) return path;
    }
    return NULL;
}

/* ---- the queue ---- */

/* Puts an event at the end. Returns NULL if out of memory. */
static struct event *queue_event(struct queue *queue) {
    if (queue->count == queue->room && queue->next > queue->room / 2) {
        queue->count -= queue->next;
        memmove(queue->events, queue->events + queue->next, queue->count * sizeof *queue->events);
        queue->next = 0;
    }
    if (queue->count == queue->room) {
        size_t room = queue->room ? 2 * queue->room : 1024;
        struct event *events = realloc(queue->events, room * sizeof *events);
        if (!events) queue->unheld++;
        if (!events) return NULL;
        queue->events = events;
        queue->room = room;
    }
    struct event *event = &queue->events[queue->count++];
    *event = (struct event){ .cpu = queue->cpu };
    return event;
}

/* ---- a page of the kernel's buffer: events/header_page and events/header_event ---- */

/* Behind the time of a page: the length of its data, and whether events are missing before it.
 * Their count follows the data if there was room. */
static const unsigned long LENGTH = (1UL << 27) - 1, MISSED_STORED = 1UL << 30, MISSED = 1UL << 31;

struct head {
    uint32_t type : 5, time_delta : 27;
};

static const uint64_t TOP_BITS = ~0ULL << 59; /* which a TIME_STAMP doesn't have */

enum { LONG_DATA = 0, PADDING = 29, TIME_EXTEND = 30, TIME_STAMP = 31, TIME_BITS = 27, WORD = 4 };

/* Returns the number behind a name, which begins a line. */
static uint64_t number_of(const char *text, const char *name) {
    uint64_t number = 0;
    size_t length = strlen(name);
    for (const char *line = text; line; line = strchr(line, '\n')) {
        line += *line == '\n';
        if (strncmp(line, name, length) != 0 || line[length] != ':') continue;
        sscanf(line + length + 1, "%" SCNu64, &number);
        return number;
    }
    return 0;
}

uint64_t lost_by_stats(const char *stats) {
    return number_of(stats, "overrun") + number_of(stats, "commit overrun") +
           number_of(stats, "dropped events");
}

uint64_t time_of_page(const unsigned char *page) {
    uint64_t time;
    memcpy(&time, page, sizeof time);
    return time;
}

static unsigned long commit_of(const unsigned char *page) {
    unsigned long commit;
    memcpy(&commit, page + sizeof(uint64_t), sizeof commit);
    return commit;
}

int64_t missed_before(const struct layouts *layouts, const unsigned char *page) {
    unsigned long commit = commit_of(page), count;
    if (!(commit & MISSED)) return 0;
    if (!(commit & MISSED_STORED)) return MISSED_UNKNOWN;
    memcpy(&count, page + layouts->data_at + (commit & LENGTH), sizeof count);
    return (int64_t)count;
}

void queue_lost(struct queue *queue, uint64_t count, uint64_t from, uint64_t to) {
    struct event *event = queue_event(queue);
    queue->lost += count;
    if (!event) return;
    event->kind = LOST;
    event->time = to;
    event->values[0] = (int64_t)count;
    event->values[1] = (int64_t)from;
}

static int64_t value(const unsigned char *data, struct field field) {
    uint16_t two;
    int32_t four;
    int64_t eight;
    switch (field.bytes) {
    case sizeof two: return memcpy(&two, data + field.at, sizeof two), two;
    case sizeof four: return memcpy(&four, data + field.at, sizeof four), four;
    default: return memcpy(&eight, data + field.at, sizeof eight), eight;
    }
}

static void queue_data(const struct layouts *layouts, const unsigned char *data, size_t bytes,
                       uint64_t time, struct queue *queue) {
    int kind = 0;
    if (bytes < layouts->task.at + layouts->task.bytes) return;
    unsigned number = (unsigned)value(data, layouts->number);
    while (kind < KINDS && layouts->of[kind].number != number) kind++;
    if (kind == KINDS || bytes < layouts->of[kind].least_bytes) return;
    const struct field *fields = layouts->of[kind].fields;
    struct event *event = queue_event(queue);
    if (!event) return;
    event->kind = (enum kind)kind;
    event->time = time;
    event->task = (int)value(data, layouts->task);
    for (int i = 0; i < 4; i++)
        if (fields[i].bytes) event->values[i] = value(data, fields[i]);
    for (int i = 0; kind == SWITCH && i < 2; i++)
        memcpy(event->names[i], data + fields[4 + i].at, NAME_BYTES);
}

/* Puts the event at a place of a page. Returns the place of the next one. */
static const unsigned char *queue_next(const struct layouts *layouts, const unsigned char *at,
                                       const unsigned char *end, uint64_t *time,
                                       struct queue *queue) {
    struct head head;
    uint32_t word = 0;
    memcpy(&head, at, WORD);
    if (end - at >= 2 * WORD) memcpy(&word, at + WORD, WORD);
    uint64_t long_time = ((uint64_t)word << TIME_BITS) | head.time_delta;
    bool is_long = head.type == LONG_DATA || head.type == PADDING;
    size_t bytes = is_long ? word : (size_t)head.type * WORD; /* behind the head */
    if (head.type == PADDING && head.time_delta == 0) return end;
    if (head.type == TIME_EXTEND) *time += long_time;
    if (head.type == TIME_STAMP) *time = (*time & TOP_BITS) | long_time;
    if (head.type == TIME_EXTEND || head.type == TIME_STAMP) return at + 2 * WORD;
    if (bytes > (size_t)(end - at - WORD) || bytes < WORD) return end;
    if (head.type != PADDING) {
        size_t skipped = is_long ? WORD : 0;
        *time += head.time_delta;
        queue_data(layouts, at + WORD + skipped, bytes - skipped, *time, queue);
    }
    return at + WORD + bytes;
}

void queue_page(const struct layouts *layouts, const unsigned char *page, struct queue *queue) {
    uint64_t time = time_of_page(page);
    size_t length = commit_of(page) & LENGTH;
    const unsigned char *at = page + layouts->data_at;
    if (length > layouts->page_bytes - layouts->data_at) return;
    const unsigned char *end = at + length;
    while (end - at >= WORD) at = queue_next(layouts, at, end, &time, queue);
    queue->last_time = time;
}
