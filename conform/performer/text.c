#include "text.h"

#include <stdlib.h>
#include <string.h>

static char fault[80];

static const char *wrong(int line, const char *why) {
    snprintf(fault, sizeof fault, "line %d%s", line, why);
    return fault;
}

/* Each form has a number for every part of the request. */
static const struct form {
    const char *words;
    enum request request;
    int numbers, version;
} forms[] = {
    { "%d lock %d%n", LOCK, 2, 1 },        { "%d try %d%n", TRY, 2, 1 },
    { "%d unlock %d%n", UNLOCK, 2, 1 },    { "%d cancel %d%n", CANCEL, 2, 1 },
    { "%d release%n", RELEASE, 1, 1 },     { "%d base %d %d%n", BASE, 3, 1 },
    { "%d ceil %d %d%n", CEIL, 3, 2 },
};

/* Whether the line is of this form, to its last byte. */
static bool has_form(const char *line, const struct form *form, int number[3]) {
    int end = 0, *n = number;
    if (form->numbers == 1) sscanf(line, form->words, &n[0], &end);
    if (form->numbers == 2) sscanf(line, form->words, &n[0], &n[1], &end);
    if (form->numbers == 3) sscanf(line, form->words, &n[0], &n[1], &n[2], &end);
    return end > 0 && line[end] == '\0';
}

static bool is_priority(int priority) { return priority >= 1 && priority <= TOP_PRIORITY; }

/* What a step says of the mutexes and tasks that it names. */
static void note_step(struct text *text, const struct step *step) {
    if (step->request == CANCEL && step->first >= 1 && step->first <= text->tasks)
        text->last_cancel[step->first] = text->steps;
    if (step->request == CEIL && step->first >= 1 && step->first <= text->mutexes)
        text->mutex[step->first].has_ceil = true;
}

static const char *read_step(struct text *text, char *line, int at) {
    struct step *step = &text->step[text->steps];
    char *reply = strstr(line, " = ");
    int number[3] = { 0 };
    if (reply) *reply = '\0';
    if (text->steps == MAX_STEPS || strlen(line) >= STEP_BYTES) return wrong(at, "");
    for (size_t i = 0; i < sizeof forms / sizeof *forms; i++) {
        if (forms[i].version > text->version || !has_form(line, &forms[i], number)) continue;
        step->request = forms[i].request;
        step->actor = number[0], step->first = number[1], step->second = number[2];
        strcpy(step->words, line);
        /* 99 is a priority, but the controller's: 100 and more are for the system to refuse. */
        if (forms[i].numbers == 3 && number[2] == TOP_PRIORITY + 1)
            return wrong(at, ": priority 99 is the controller's, so it can't be performed");
        note_step(text, step);
        text->steps++;
        return NULL;
    }
    return wrong(at, "");
}

static const char *declare(struct text *text, const char *line, int at) {
    int number, value = 1, end = 0;
    char word[12] = "";
    struct declared *mutex = &text->mutex[text->mutexes + 1];
    if (sscanf(line, "task %d %d%n", &number, &value, &end) == 2) {
        if (text->tasks == MAX_TASKS || number != text->tasks + 1) return wrong(at, "");
        text->last_cancel[++text->tasks] = -1;
        text->base[number] = value;
    } else if (sscanf(line, "mutex %d %11s%n", &number, word, &end) == 2) {
        if (text->mutexes == MAX_MUTEXES || number != text->mutexes + 1) return wrong(at, "");
        text->mutexes++;
        if (strcmp(word, "protect") == 0) sscanf(line, "mutex %*d protect %d%n", &value, &end);
        mutex->is_recursive = text->version > 1 && strcmp(line + end, " recursive") == 0;
        end += mutex->is_recursive ? (int)strlen(" recursive") : 0;
        mutex->ceiling = value;
        mutex->protocol = *word == 'n' ? NONE : *word == 'i' ? INHERIT : PROTECT;
    }
    if (end == 0 || line[end] != '\0') return wrong(at, "");
    if (value == TOP_PRIORITY + 1) return wrong(at, ": priority 99 is the controller's");
    return is_priority(value) ? NULL : wrong(at, "");
}

const char *text_read(struct text *text, FILE *input) {
    char line[200];
    const char *why = NULL;
    *text = (struct text){ .step = calloc(MAX_STEPS + 1, sizeof *text->step) };
    if (!text->step) return "memory";
    for (int at = 1; fgets(line, sizeof line, input); at++) {
        line[strcspn(line, "\n")] = '\0';
        bool is_step = line[0] >= '0' && line[0] <= '9';
        if (at == 1) {
            if (sscanf(line, "pim %d", &text->version) != 1) return wrong(at, "");
            if (text->version < 1 || text->version > 2) return wrong(at, "");
        } else
            why = is_step ? read_step(text, line, at) : declare(text, line, at);
        if (why) return why;
    }
    return text->version ? NULL : wrong(1, "");
}
