/* The names and places of mutexes and objects: FORMAT.md, 'Threads, mutexes, levels'. */
#define _GNU_SOURCE
#include "names.h"

#include <stdio.h>
#include <stdlib.h>
#include <string.h>

enum {
    MOST_PARENTS = 16, /* processes in which a file is looked for that a process was forked with */
    INIT_BYTES = 48,   /* of the place in a mutex's name */
    ANY_PROCESS = 0,
};

static char visible(char byte) {
    return byte > 32 && byte < 127 ? byte : '_';
}

/* Adds visible bytes to a name, as far as there is room. */
static void add(struct name *name, const char *bytes, size_t length) {
    for (size_t i = 0; i < length && name->length < NAME_BYTES; i++)
        name->bytes[name->length++] = visible(bytes[i]);
}

static struct name hexadecimal(uint64_t address) {
    struct name name = { 0 };
    char digits[2 + 16 + 1];
    int length = snprintf(digits, sizeof digits, "%#lx", (unsigned long)address);
    if (address == 0) length = snprintf(digits, sizeof digits, "0x0");
    add(&name, digits, (size_t)length);
    return name;
}

/* ---- LOG.places ---- */

/* Returns a text such as `map.c:12 (main)` as one word. What would be no place has a _ before it.
 */
static struct name word_of(const char *text, size_t length) {
    static const char *const others[] = { "by", "failed", "of", "timed-out" };
    struct name word = { 0 };
    for (size_t i = 0; i < 4; i++)
        if (length == strlen(others[i]) && memcmp(text, others[i], length) == 0)
            add(&word, "_", 1);
    for (size_t i = 0; i < length; i++) {
        bool is_bracket = text[i] == ' ' && i + 1 < length && text[i + 1] == '(';
        if (!is_bracket) add(&word, text + i, 1);
    }
    return word;
}

/* Returns the number of a line's place, or 0 where it begins with `-`, or -1 if no such line does.
 */
static int place_number(const char **at, const char *end) {
    int number = 0;
    const char *digit = *at;
    if (digit < end && *digit == '-') {
        *at = digit + 1;
        return 0;
    }
    while (digit < end && *digit >= '0' && *digit <= '9' && number <= PLACE_SLOTS)
        number = 10 * number + (*digit++ - '0');
    bool is_number = digit > *at && **at != '0' && number <= PLACE_SLOTS;
    *at = digit;
    return is_number ? number : -1;
}

/* Reads ` 0xADDRESS `. Returns whether it is there. */
static bool read_address(const char **at, const char *end, uint64_t *address) {
    const char *digit = *at;
    if (end - digit < 3 || memcmp(digit, " 0x", 3) != 0) return false;
    const char *begin = digit += 3;
    for (*address = 0; digit < end && digit - begin <= 16; digit++) {
        bool is_letter = *digit >= 'a' && *digit <= 'f';
        if (!is_letter && (*digit < '0' || *digit > '9')) break;
        *address = *address << 4 | (uint64_t)(is_letter ? *digit - 'a' + 10 : *digit - '0');
    }
    *at = digit + 1;
    return digit > begin && digit - begin <= 16 && digit < end && *digit == ' ';
}

static void read_line(struct names *names, uint32_t part, const char *line, const char *end) {
    uint64_t address;
    int number = place_number(&line, end);
    if (number < 0 || !read_address(&line, end, &address)) return;
    struct name word = word_of(line, (size_t)(end - line));
    if (word.length == 0) return;
    if (number > 0) {
        uint32_t first = names->log->joined ? names->log->joined->first_place[part] : 0;
        if (first + (uint32_t)number > UINT16_MAX) return;
        names->numbered[first + (uint32_t)number] = word;
        names->has_numbered = true;
        return;
    }
    uint32_t *known = table_at(&names->by_address, address, part);
    if (*known == NONE) {
        names->texts = with_room(names->texts, names->text_count, sizeof *names->texts);
        *known = names->text_count++;
    }
    names->texts[*known] = word;
}

void names_read(struct names *names, uint32_t part, const char *places, size_t length) {
    const char *end = places + length;
    while (places < end) {
        const char *newline = memchr(places, '\n', (size_t)(end - places));
        const char *behind = newline ? newline : end;
        read_line(names, part, places, behind);
        places = behind + 1;
    }
}

/* ---- files that are loaded ---- */

/* The module that the log has first counts as the nearer one of two with one begin. */
static int by_begin(const void *one, const void *other) {
    const struct module *a = one, *b = other;
    if (a->process != b->process) return a->process < b->process ? -1 : 1;
    if (a->begin != b->begin) return a->begin < b->begin ? -1 : 1;
    return a->name < b->name ? 1 : -1;
}

static void sort_modules(struct names *names) {
    const struct log *log = names->log;
    size_t bytes = log->module_count * sizeof *names->modules;
    names->modules = resized(NULL, bytes);
    names->shared = resized(NULL, bytes);
    if (bytes == 0) return;
    memcpy(names->modules, log->modules, bytes);
    memcpy(names->shared, log->modules, bytes);
    for (uint32_t i = 0; i < log->module_count; i++) names->shared[i].process = ANY_PROCESS;
    qsort(names->modules, log->module_count, sizeof *names->modules, by_begin);
    qsort(names->shared, log->module_count, sizeof *names->shared, by_begin);
}

/* Returns the last module of a process that begins at an address or before, or NULL. */
static const struct module *nearest(const struct module *modules, uint32_t count, uint32_t process,
                                    uint64_t address) {
    uint32_t least = 0,
             most = count; /* those before `least` are before it, those from `most` on behind */
    while (least < most) {
        uint32_t middle = least + (most - least) / 2;
        const struct module *one = &modules[middle];
        bool is_before = one->process != process ? one->process < process : one->begin <= address;
        if (is_before)
            least = middle + 1;
        else
            most = middle;
    }
    const struct module *last = least ? &modules[least - 1] : NULL;
    return last && last->process == process ? last : NULL;
}

/* Returns the nearer one of two modules, each of which may be NULL. */
static const struct module *nearer(const struct module *one, const struct module *other) {
    if (!one || !other) return one ? one : other;
    if (one->begin != other->begin) return one->begin > other->begin ? one : other;
    return one->name < other->name ? one : other;
}

/* Returns a module that begins at an address or before, or NULL where it ends before it. */
static const struct module *if_in_it(const struct module *module, uint64_t address) {
    return module && address - module->begin < module->length ? module : NULL;
}

/* Returns the module at an address of a process, or of those that forked it, or NULL. */
static const struct module *module_at(const struct names *names, uint32_t process,
                                      uint64_t address) {
    const struct log *log = names->log;
    const struct module *found = NULL;
    for (int i = 0; i <= MOST_PARENTS && process != NONE; i++) {
        found = nearer(found, nearest(names->modules, log->module_count, process, address));
        process = table_get(&log->parents, process, 0);
    }
    return if_in_it(found, address);
}

/* Returns a file and the offset in it, of which the end is kept, or the address. */
static struct name in_module(const struct names *names, const struct module *module,
                             uint64_t address) {
    struct name name = { 0 };
    if (!module) return hexadecimal(address);
    const struct name *file = &names->log->names[module->name];
    struct name offset = hexadecimal(address - module->begin);
    size_t room = NAME_BYTES - 1u - offset.length;
    size_t cut = file->length > room ? file->length - room : 0;
    add(&name, file->bytes + cut, file->length - cut);
    add(&name, "+", 1);
    add(&name, offset.bytes, offset.length);
    return name;
}

/* ---- what is asked ---- */

void names_begin(struct names *names, struct log *log) {
    memset(names, 0, sizeof *names);
    names->log = log;
    sort_modules(names);
}

/* Returns 1 + the number of the word of a place in a process. */
static uint32_t find_word(struct names *names, uint32_t place, uint32_t process) {
    uint32_t *word = table_at(&names->by_process, place, process);
    if (*word == NONE) {
        uint64_t address = names->log->places[place - 1] - 1;
        names->words = with_room(names->words, names->word_count, sizeof *names->words);
        names->words[*word = names->word_count++] =
            in_module(names, module_at(names, process, address), address);
    }
    names->last[place] = (struct word){ *word + 1, process };
    return *word + 1;
}

const struct name *name_of_place(struct names *names, uint32_t record) {
    static const struct name nothing;
    uint32_t place = place_of(names->log, record_at(names->log, record));
    if (place == 0) return &nothing;
    if (names->has_numbered && names->numbered[place].length) return &names->numbered[place];
    uint32_t process = chunk_at(names->log, record)->process;
    struct word last = names->last[place];
    bool is_known = last.number && last.process == process;
    uint32_t number = is_known ? last.number : find_word(names, place, process);
    return &names->words[number - 1];
}

/* Returns which text the address of a process has, or NONE. */
static uint32_t text_at(const struct names *names, uint32_t process, uint64_t address) {
    return table_get(&names->by_address, address, part_of(names->log, process));
}

struct name name_of_address(struct names *names, uint32_t process, uint64_t address) {
    uint32_t text = text_at(names, process, address);
    if (text != NONE) return names->texts[text];
    return in_module(names, module_at(names, process, address), address);
}

/* Returns where a mutex is. */
static struct name where(struct names *names, const struct mutex *mutex) {
    if (!mutex->is_shared || text_at(names, mutex->process, mutex->address) != NONE)
        return name_of_address(names, mutex->process, mutex->address);
    const struct module *module = nearest(names->shared, names->log->module_count, ANY_PROCESS,
                                          mutex->address);
    return in_module(names, if_in_it(module, mutex->address), mutex->address);
}

/* Returns where a mutex was initialised, which is empty if it isn't known. */
static struct name where_made(struct names *names, const struct mutex *mutex) {
    struct log *log = names->log;
    struct name nothing = { 0 };
    uint32_t after = mutex->init == NONE ? NONE : log->next[mutex->init];
    if (after == NONE) return nothing;
    const struct record *place = record_at(log, after);
    if (place->event != EVENT_PLACE || place->object == 0) return nothing;
    uint32_t process = chunk_at(log, after)->process;
    uint32_t text = text_at(names, process, place->object);
    if (text != NONE) return names->texts[text];
    return in_module(names, module_at(names, process, place->object - 1), place->object - 1);
}

struct name name_of_mutex(struct names *names, const struct mutex *mutex) {
    struct name name = where(names, mutex), made = where_made(names, mutex);
    for (size_t i = 0; i < name.length; i++)
        if (name.bytes[i] == '@') name.bytes[i] = '_';
    if (made.length == 0) return name;
    if (made.length > INIT_BYTES) made.length = INIT_BYTES;
    size_t room = NAME_BYTES - 1u - made.length;
    if (name.length > room) name.length = (uint8_t)room;
    add(&name, "@", 1);
    add(&name, made.bytes, made.length);
    return name;
}

struct name name_of_thread(const struct log *log, const struct thread *thread) {
    struct name name = { 0 };
    if (thread->name != NONE)
        add(&name, log->names[thread->name].bytes, log->names[thread->name].length);
    if (name.length == 0) add(&name, "-", 1);
    return name;
}
