#include "text.h"

enum { MAX_WORDS = 6 }; /* in a line; others are recorded replies, which nobody reads */

struct line {
    int count;
    struct word {
        const char *at;
        int length;
    } word[MAX_WORDS];
};

/* Returns the words of the line at `at`, which is moved to the next one. */
static struct line read_line(const char **at, const char *end) {
    struct line line = { 0 };
    while (*at < end && **at != '\n') {
        const char *from = *at;
        while (*at < end && **at != ' ' && **at != '\n') ++*at;
        struct word word = { from, (int)(*at - from) };
        if (line.count < MAX_WORDS) line.word[line.count++] = word;
        if (*at < end && **at == ' ') ++*at;
    }
    if (*at < end) ++*at;
    return line;
}

static bool is_word(const struct line *line, int number, const char *text) {
    int i = 0;
    if (number >= line->count) return false;
    const struct word *word = &line->word[number];
    while (i < word->length && text[i] == word->at[i]) i++;
    return i == word->length && text[i] == '\0';
}

/* Returns the number that a word is, 0 if the line has no such word. */
static uint16_t number_at(const struct line *line, int number) {
    uint16_t value = 0;
    if (number >= line->count) return 0;
    const struct word *word = &line->word[number];
    for (int i = 0; i < word->length; i++) value = (uint16_t)(10 * value + (word->at[i] - '0'));
    return value;
}

static const char *add_task(struct text *text, const struct line *line) {
    if (text->tasks == MAX_THREADS) return "too many tasks";
    text->bases[text->tasks++] = number_at(line, 2);
    return NULL;
}

static const char *add_mutex(struct text *text, const struct line *line) {
    if (text->mutexes == MAX_MUTEXES) return "too many mutexes";
    struct pim_protocol protocol = { PIM_INHERIT, 0 };
    if (is_word(line, 2, "none")) protocol.kind = PIM_NONE;
    if (is_word(line, 3, "recursive")) protocol.kind = PIM_INHERIT_RECURSIVE;
    if (is_word(line, 2, "protect")) {
        protocol.kind = PIM_PROTECT;
        protocol.ceiling = number_at(line, 3);
    }
    text->protocols[text->mutexes++] = protocol;
    return NULL;
}

static const char *add_step(struct text *text, const struct line *line) {
    static const char *const names[] = {
        "lock", "try", "unlock", "release", "cancel", "base", "ceil"
    };
    if (text->steps == MAX_STEPS) return "too many steps";
    for (int request = LOCK; request <= CEIL; request++) {
        if (!is_word(line, 1, names[request])) continue;
        text->step[text->steps++] = (struct step){
            .request = (enum request)request,
            .actor = number_at(line, 0),
            .first = request == RELEASE ? 0 : number_at(line, 2),
            .second = request == BASE || request == CEIL ? number_at(line, 3) : 0,
        };
        return NULL;
    }
    return "an unknown step";
}

const char *text_read(struct text *text, const char **at, const char *end) {
    const char *why = NULL;
    struct line line = read_line(at, end);
    if (!is_word(&line, 0, "pim")) why = "a text begins with 'pim'";
    text->tasks = text->mutexes = 0;
    text->steps = 0;
    while (*at < end && **at != 'p') {
        line = read_line(at, end);
        if (why) continue;
        if (is_word(&line, 0, "task")) why = add_task(text, &line);
        else if (is_word(&line, 0, "mutex")) why = add_mutex(text, &line);
        else why = add_step(text, &line);
    }
    return why;
}
