/* Reads the kernel's events: FORMAT.md, 'The kernel's events'. */
#define _GNU_SOURCE
#include "events.h"

#include <inttypes.h>
#include <string.h>

enum { HEAD_LINES = 6, DIGITS = 20, FIFO_LEVELS = 99, LEAST_PRIORITY = -1, MOST_PRIORITY = 140 };

/* A line that is read from left to right. What isn't there makes it wrong. */
struct line {
    const char *at, *end;
    bool is_wrong;
};

static bool is_next(const struct line *line, const char *word) {
    size_t length = strlen(word);
    return (size_t)(line->end - line->at) >= length && memcmp(line->at, word, length) == 0;
}

static bool take(struct line *line, const char *word) {
    bool is_there = is_next(line, word);
    if (is_there) line->at += strlen(word);
    return is_there;
}

static void demand(struct line *line, const char *word) {
    if (!take(line, word)) line->is_wrong = true;
}

static uint64_t number(struct line *line) {
    const char *begin = line->at;
    uint64_t value = 0;
    for (; line->at < line->end && *line->at >= '0' && *line->at <= '9'; line->at++)
        if (__builtin_mul_overflow(value, 10, &value) ||
            __builtin_add_overflow(value, (uint64_t)(*line->at - '0'), &value))
            line->is_wrong = true;
    size_t digits = (size_t)(line->at - begin);
    if (digits == 0 || digits > DIGITS || (digits > 1 && *begin == '0')) line->is_wrong = true;
    return value;
}

static uint64_t next_number(struct line *line) {
    demand(line, " ");
    return number(line);
}

/* Returns a task or a CPU. None has a number that has no room. */
static uint32_t small(struct line *line) {
    uint64_t value = next_number(line);
    return value < NONE ? (uint32_t)value : NONE;
}

static int64_t signed_number(struct line *line) {
    demand(line, " ");
    bool is_negative = take(line, "-");
    uint64_t value = number(line);
    if (value > INT64_MAX || (is_negative && value == 0)) line->is_wrong = true;
    return is_negative ? -(int64_t)(value & INT64_MAX) : (int64_t)(value & INT64_MAX);
}

/* Returns the level of a kernel's priority. */
static uint8_t level(struct line *line) {
    int64_t priority = signed_number(line);
    if (priority < LEAST_PRIORITY || priority > MOST_PRIORITY) line->is_wrong = true;
    if (priority < 0) return FIFO_LEVELS + 1;
    return (uint8_t)(priority < FIFO_LEVELS ? FIFO_LEVELS - priority : 0);
}

static uint64_t hexadecimal(struct line *line) {
    uint64_t value = 0;
    demand(line, "0x");
    const char *begin = line->at;
    for (; line->at < line->end && strchr("0123456789abcdef", *line->at) && *line->at; line->at++)
        value = value << 4 | (uint64_t)(*line->at <= '9' ? *line->at - '0' : *line->at - 'a' + 10);
    if (line->at == begin || line->at - begin > 16) line->is_wrong = true;
    return value;
}

static void read_state(struct line *line, struct kernel_event *event) {
    demand(line, " ");
    if (line->at < line->end && *line->at && strchr("RSDTtXZPI", *line->at)) {
        event->state[0] = *line->at++;
        event->state[1] = take(line, "+") ? '+' : 0;
    } else {
        hexadecimal(line);
    }
}

/* Reads a name, each byte of which is visible, or `\x` and two digits. */
static void read_name(struct line *line) {
    int length = 0;
    demand(line, " ");
    for (; line->at < line->end; length++) {
        if (*line->at < 33 || *line->at > 126) line->is_wrong = true;
        if (*line->at++ != '\\') continue;
        bool is_whole = line->end - line->at >= 3 && *line->at == 'x' &&
                        strspn(line->at + 1, "0123456789abcdef") >= 2;
        if (!is_whole) line->is_wrong = true;
        line->at += is_whole ? 3 : 0;
    }
    if (length > 16) line->is_wrong = true;
}

static void read_call(struct line *line, struct kernel_event *event, enum event_what what) {
    event->what = (uint8_t)what;
    demand(line, " ");
    event->value = hexadecimal(line);
    if (!take(line, " private")) demand(line, " shared");
}

/* Reads what is behind the task of a line. */
static void read_event(struct line *line, struct kernel_event *event, const char *bytes,
                       bool is_first) {
    if (take(line, " switch")) {
        event->what = SWITCH;
        event->level = level(line);
        read_state(line, event);
        event->other = small(line);
        event->other_level = level(line);
    } else if (take(line, " setprio")) {
        event->what = SETPRIO;
        event->other = small(line);
        level(line);
        event->other_level = level(line);
    } else if (take(line, " return")) {
        event->what = RETURN;
        event->result = signed_number(line);
    } else if (!is_first && take(line, " wake")) {
        event->what = WOKEN;
        event->other = small(line);
    } else if (take(line, " name")) {
        event->what = NAMED;
        event->other = small(line);
        event->value = (uint64_t)(line->at - bytes) + 1;
        read_name(line);
    } else if (take(line, " lost")) {
        event->what = LOSS;
        event->value = next_number(line);
        event->since = next_number(line);
    } else if (take(line, " lock2") || take(line, " lock")) {
        read_call(line, event, LOCK_CALL);
    } else if (take(line, " unlock") || take(line, " trylock")) {
        read_call(line, event, CALL);
    } else if (!is_first && take(line, " wait")) {
        read_call(line, event, WAIT_CALL);
    } else {
        line->is_wrong = true;
    }
}

_Noreturn static void refuse_line(const struct events *events, uint64_t number, const char *why) {
    refuse(events->path, "line %" PRIu64 ": %s", number, why);
}

static bool is_word(struct line *line) {
    const char *begin = line->at;
    while (line->at<line->end && * line->at> 32 && *line->at < 127) line->at++;
    return line->at > begin;
}

/* Reads a line of the head. Returns what is wrong with it, or NULL. */
static const char *head_fault(struct events *events, struct line *line, int which,
                              bool *is_first) {
    static const char *const begins[HEAD_LINES] = { "pim-kernel ", "kernel ", "clock ",
                                                    "process ",    "began ",  "cpus " };
    bool is_begun = take(line, begins[which]), is_mono, is_known;
    uint64_t value;
    const char *fault = "it isn't the line that the head has there";
    switch (which) {
    case 0:
        if (!is_begun) return "it isn't a recording of the kernel's events";
        *is_first = is_next(line, "1");
        is_known = (take(line, "1") || take(line, "2")) && line->at == line->end;
        return is_known ? NULL : "its version isn't known";
    case 1:
        is_begun = is_begun && is_word(line) && take(line, " ") && is_word(line);
        return is_begun && line->at == line->end ? NULL : fault;
    case 2:
        is_mono = take(line, "mono") && line->at == line->end;
        if (!is_begun || (!is_mono && !(is_word(line) && line->at == line->end))) return fault;
        return is_mono ? NULL : "its clock isn't that of the log";
    default:
        value = number(line);
        if (which == 4) events->began = value;
        return is_begun && !line->is_wrong && line->at == line->end ? NULL : fault;
    }
}

/* Reads a line behind the head. Returns what is wrong with it, or NULL. */
static const char *line_fault(struct events *events, struct line line, bool is_first,
                              bool *has_ended) {
    struct kernel_event event = { 0 };
    if (*has_ended) return "it follows the end";
    if (take(&line, "end")) {
        *has_ended = true;
        event.time = next_number(&line);
        next_number(&line);
        next_number(&line);
    } else {
        event.time = number(&line);
        event.cpu = small(&line);
        event.task = small(&line);
        read_event(&line, &event, events->bytes, is_first);
    }
    if (line.is_wrong || line.at != line.end)
        return is_first ? "it has no form of version 1" : "it has no form of version 2";
    bool is_lost = event.what == LOSS && !*has_ended;
    bool is_stretch = event.since >= events->began && event.since <= event.time;
    if (event.time < events->ended || (is_lost && !is_stretch)) return "its time is out of order";
    events->ended = event.time;
    if (*has_ended) return NULL;
    events->list = with_room(events->list, events->count, sizeof *events->list);
    events->list[events->count++] = event;
    return NULL;
}

void events_read(struct events *events, const char *path, const char *bytes, size_t length) {
    const char *end = bytes + length;
    bool is_first = false, has_ended = false;
    uint64_t count = 0;
    *events = (struct events){ .path = path, .bytes = bytes };
    for (const char *newline;
         bytes < end && (newline = memchr(bytes, '\n', (size_t)(end - bytes)));
         bytes = newline + 1, count++) {
        struct line line = { bytes, newline, false };
        const char *fault = count < HEAD_LINES ? head_fault(events, &line, (int)count, &is_first)
                                               : line_fault(events, line, is_first, &has_ended);
        if (fault) refuse_line(events, count + 1, fault);
        if (count + 1 == HEAD_LINES) events->ended = events->began;
    }
    if (count < HEAD_LINES) refuse(path, "its head isn't whole");
    events->is_whole = has_ended;
}
