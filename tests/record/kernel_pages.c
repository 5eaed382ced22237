/* Reads pages of the kernel's buffer that are made here by events/header_page and
 * events/header_event, and prints their events: time, task and values. */
#include <inttypes.h>
#include <stdio.h>
#include <string.h>

#include "../../record/kernel/events.h"

enum { PAGE = 4096, DATA = 16, PADDING = 29, TIME_EXTEND = 30, TIME_STAMP = 31 };

static const struct layouts layouts = {
    .page_bytes = PAGE,
    .data_at = DATA,
    .number = { 0, 2 },
    .task = { 4, 4 },
    .of = { [SET_PRIORITY] = { 7, 20, { { 8, 4 }, { 12, 4 }, { 16, 4 } } },
            [SWITCH] = { 9, 64,
                         { { 8, 4 }, { 16, 8 }, { 12, 4 }, { 24, 4 }, { 28, 16 }, { 44, 16 } } },
            [CALL] = { 11, 24, { { 8, 8 }, { 16, 8 } } },
            [RETURN] = { 13, 16, { { 8, 8 } } },
            [WAKING] = { 15, 28, { { 24, 4 } } } },
};

static unsigned char page[2 * PAGE]; /* the rest is never to be read */
static size_t used;

static void begin(uint64_t time) {
    memset(page, 0xee, sizeof page);
    memcpy(page, &time, sizeof time);
    used = 0;
}

static void put_word(uint32_t word) {
    memcpy(page + DATA + used, &word, sizeof word);
    used += sizeof word;
}

static void put_head(uint32_t type, uint32_t delta) {
    struct {
        uint32_t type : 5, delta : 27;
    } head = { type & 31, delta & 0x7ffffff };
    uint32_t word;
    memcpy(&word, &head, sizeof word);
    put_word(word);
}

static void put_priority(uint32_t task, uint32_t of, uint32_t old, uint32_t new) {
    const uint32_t words[] = { 7, task, of, old, new };
    for (int i = 0; i < 5; i++) put_word(words[i]);
}

/* Ends the page with `missed` as the kernel's flags, and prints what is read of it. */
static void show(const char *name, unsigned long flags) {
    struct queue queue = { .cpu = 3, .last_time = 5 };
    unsigned long commit = used | flags;
    memcpy(page + 8, &commit, sizeof commit);
    printf("%s: missed %" PRId64 "\n", name, missed_before(&layouts, page));
    queue_page(&layouts, page, &queue);
    for (size_t i = 0; i < queue.count; i++) {
        const struct event *event = &queue.events[i];
        printf("%" PRIu64 " cpu %d task %d kind %d:", event->time, event->cpu, event->task,
               event->kind);
        for (int value = 0; value < 4; value++) printf(" %" PRId64, event->values[value]);
        if (event->kind == SWITCH) printf(" %s %s", event->names[0], event->names[1]);
        printf("\n");
    }
    printf("last %" PRIu64 "\n", queue.last_time);
}

static void times(void) {
    begin(1000);
    put_head(5, 10);
    put_priority(21, 22, 89, (uint32_t)-1);
    put_head(TIME_EXTEND, 5);
    put_word(2);
    put_head(0, 1);
    put_word(24);
    put_priority(31, 32, 49, 48);
    put_head(PADDING, 1);
    put_word(8);
    put_word(0);
    put_head(TIME_STAMP, 7);
    put_word(3);
    put_head(5, 0);
    put_priority(41, 42, 1, 2);
    put_head(PADDING, 3); /* a discarded event */
    put_word(24);
    put_priority(71, 72, 1, 2);
    put_head(5, 1);
    put_priority(81, 82, 1, 2);
    put_head(0, 1); /* one that is too short */
    put_word(20);
    for (int i = 0; i < 4; i++) put_word(7);
    put_head(PADDING, 0);
    put_head(5, 0);
    put_priority(51, 52, 1, 2);
    show("times", 0);
    begin((1ULL << 59) + 1);
    put_head(TIME_STAMP, 9);
    put_word(1);
    put_head(5, 2);
    put_priority(61, 62, 1, 2);
    show("a time beyond 59 bits", 0);
}

static void kinds(void) {
    const uint32_t words[] = { 9, 21, 89, 22, 0x101, 0, 69 };
    begin(1);
    put_head(0, 1);
    put_word(4 + 64);
    for (int i = 0; i < 7; i++) put_word(words[i]);
    for (int i = 0; i < 9; i++) put_word(0);
    memcpy(page + DATA + used - 36, "stops", 6);
    memcpy(page + DATA + used - 20, "runs-next-12345", 16);
    put_head(6, 1);
    const uint32_t call[] = { 11, 21, 134, 0, 0x5000, 0x7f };
    for (int i = 0; i < 6; i++) put_word(call[i]);
    put_head(4, 1);
    const uint32_t back[] = { 13, 21, (uint32_t)-35, (uint32_t)-1 };
    for (int i = 0; i < 4; i++) put_word(back[i]);
    put_head(7, 1);
    const uint32_t waking[] = { 15, 21, 1, 2, 3, 4, 22 };
    for (int i = 0; i < 7; i++) put_word(waking[i]);
    put_head(5, 1);
    put_priority(21, 22, 89, 88);
    page[DATA + used - 20] = 8; /* an event of another number */
    put_head(4, 1);
    for (int i = 0; i < 4; i++) put_word(i == 0 ? 7 : 1); /* one that is too short */
    show("kinds", 0);
}

static void cut(void) {
    begin(1);
    put_head(5, 1);
    put_priority(21, 22, 89, 88);
    used -= 4;
    show("an event that the end cuts", 0);
    begin(1);
    put_head(0, 1);
    put_word(4000000);
    show("an event that is too long", 0);
    begin(1);
    put_head(0, 1);
    put_word(0);
    show("an event without a length", 0);
    begin(1);
    put_head(5, 1);
    put_priority(21, 22, 89, 88);
    used = PAGE - DATA + 1;
    show("a page that is too long", 0);
}

static void missed(void) {
    unsigned long count = 42;
    begin(70);
    put_head(5, 1);
    put_priority(21, 22, 89, 88);
    memcpy(page + DATA + used, &count, sizeof count);
    show("missed and stored", 3UL << 30);
    show("missed", 1UL << 31);
}

/* Events are taken from the front while others come in behind. */
static void many(void) {
    struct queue queue = { .cpu = 1 };
    uint64_t wanted = 0;
    for (uint64_t round = 0; round < 5000; round++) {
        for (int i = 0; i < 3; i++) queue_lost(&queue, 1, round, 3 * round + (uint64_t)i);
        for (int i = 0; i < 2; i++)
            if (queue.events[queue.next++].time == wanted) wanted++;
    }
    for (; queue.next < queue.count; queue.next++)
        if (queue.events[queue.next].time == wanted) wanted++;
    printf("many: %" PRIu64 " in order, %" PRIu64 " lost\n", wanted, queue.lost);
}

/* The file of a CPU, as a kernel writes it, with the three numbers that count. */
static void stats(const char *name, const char *overrun, const char *commit, const char *dropped) {
    char text[512];
    snprintf(text, sizeof text,
             "entries: 7\n%s%s%sbytes: 140\noldest event ts:  2.5\nnow ts:  3.5\n%s%s%sread events: 9\n",
             overrun ? "overrun: " : "", overrun ? overrun : "", overrun ? "\n" : "",
             commit ? "commit overrun: " : "", commit ? commit : "", commit ? "\n" : "");
    if (dropped) strcat(strcat(strcat(text, "dropped events: "), dropped), "\n");
    printf("%s: %" PRIu64 "\n", name, lost_by_stats(text));
}

static void lost(void) {
    stats("overwritten", "300", "0", "0");
    stats("at a full page", "0", "20", "0");
    stats("dropped", "0", "0", "1");
    stats("of all kinds", "18446744073709551000", "20", "1");
    stats("not told", NULL, NULL, NULL);
}

int main(void) {
    lost();
    times();
    kinds();
    cut();
    missed();
    many();
    return 0;
}
