#define _GNU_SOURCE
#include "known.h"

#include <stdlib.h>
#include <string.h>

/* ---- mutexes ---- */

struct mutex *known_make_mutexes(void) {
    return calloc(MUTEX_PLACES, sizeof(struct mutex));
}

/* Returns the place of a mutex in a table, or a free one. */
static struct mutex *place_of(struct mutex *table, uint32_t process, uint64_t address) {
    uint64_t hash = (address ^ (uint64_t)process << 40) * UINT64_C(0x9e3779b97f4a7c15);
    size_t place = (size_t)(hash >> 40) % MUTEX_PLACES;
    while (table[place].process &&
           (table[place].process != process || table[place].address != address))
        place = (place + 1) % MUTEX_PLACES;
    return &table[place];
}

/* Leaves out the mutexes that were destroyed. */
static void tidy(struct ring *of) {
    struct mutex *table = known_make_mutexes();
    if (!table) return;
    of->mutex_count = of->destroyed_count = 0;
    for (size_t i = 0; i < MUTEX_PLACES; i++) {
        const struct mutex *it = &of->mutexes[i];
        if (!it->process || it->is_destroyed) continue;
        *place_of(table, it->process, it->address) = *it;
        of->mutex_count++;
    }
    free(of->mutexes);
    of->mutexes = table;
}

/* Says who put what is kept. A thread isn't forgotten before that. */
static void set_by(struct ring *of, struct ring_thread **place, struct ring_thread *by) {
    struct ring_thread *before = *place;
    *place = by;
    if (by) by->remarks++;
    if (!before) return;
    before->remarks--;
    ring_forget_empty(of, before);
}

/* Keeps an INIT, or that a mutex was destroyed. Chunks are dropped in the order of each thread's
 * alone: of one address the record with the highest number holds. */
static void keep_mutex(struct ring *of, struct ring_thread *thread, const struct record *record,
                       uint64_t place) {
    bool is_destroyed = record->event == EVENT_DESTROY;
    struct mutex *mutex = place_of(of->mutexes, thread->process, record->object);
    if (!mutex->process && of->mutex_count >= MOST_MUTEXES) {
        if (of->destroyed_count < MOST_MUTEXES / 8) return;
        tidy(of);
        mutex = place_of(of->mutexes, thread->process, record->object);
        if (of->mutex_count >= MOST_MUTEXES) return;
    }
    if (mutex->process && mutex->number > record->number) return;
    if (!mutex->process) of->mutex_count++;
    of->destroyed_count += (uint32_t)is_destroyed - (uint32_t)mutex->is_destroyed;
    mutex->process = thread->process;
    mutex->address = record->object;
    mutex->detail = record->detail;
    mutex->number = record->number;
    mutex->time = record->time;
    mutex->place = place;
    mutex->is_destroyed = is_destroyed;
    set_by(of, &mutex->by, is_destroyed ? NULL : thread);
}

/* ---- what is said of threads ---- */

/* Returns whether a record says what holds behind the dropped records. Keeps that it does. */
static bool holds(struct ring *of, struct said *before, const struct record *record,
                  struct ring_thread *by) {
    if (before->number > record->number) return false;
    before->number = record->number;
    before->time = record->time;
    set_by(of, &before->by, by);
    return true;
}

uint16_t known_priority(uint16_t before, uint16_t set) {
    return (set & 15) == POLICY_KEPT ? (uint16_t)((before & 15) | (set & 0xff00)) : set;
}

static void keep_priority(struct ring *of, struct ring_thread *thread,
                          const struct record *record) {
    struct ring_thread *target = ring_target(of, thread, record);
    if (!target) return;
    if (holds(of, &target->priority_said, record, target == thread ? NULL : thread))
        target->priority = known_priority(target->priority, record->detail);
}

static void keep_name(struct ring *of, struct ring_thread *thread, const struct record *record) {
    struct ring_thread *named = ring_target(of, thread, record);
    if (!named || !holds(of, &named->name_said, record, named == thread ? NULL : thread)) return;
    memset(named->name, 0, sizeof named->name);
    thread->named = named->number;
}

static void begin_thread(struct ring *of, struct ring_thread *thread,
                         const struct record *record) {
    thread->self = record->object;
    if (holds(of, &thread->priority_said, record, NULL)) thread->priority = record->detail;
}

/* ---- texts ---- */

static void keep_module(struct ring *of, struct ring_thread *thread, const struct record *record) {
    struct module *module = malloc(sizeof *module + record->value);
    if (!module) return;
    *module = (struct module){ .process = thread->process,
                               .address = record->object,
                               .number = record->number,
                               .time = record->time,
                               .detail = record->detail,
                               .how = record->how,
                               .room = record->value };
    *(of->last_module ? &of->last_module->next : &of->modules) = module;
    of->last_module = module;
    thread->module = module;
}

/* Adds a part of a text to what was kept last. */
static void keep_text(struct ring *of, struct ring_thread *thread,
                      const struct text_record *part) {
    struct module *module = thread->module;
    if (module && part->length <= module->room - module->length) {
        memcpy(module->path + module->length, part->text, part->length);
        module->length += part->length;
    }
    struct ring_thread *named = thread->named ? ring_find(of, thread->named) : NULL;
    if (named && part->length < NAME_ROOM) memcpy(named->name, part->text, part->length);
}

void known_forget_thread(struct ring *of, struct ring_thread *thread) {
    set_by(of, &thread->priority_said.by, NULL);
    set_by(of, &thread->name_said.by, NULL);
}

/* ---- a chunk ---- */

static void keep_record(struct ring *of, struct ring_thread *thread, const struct record *record,
                        uint64_t place) {
    bool is_text = record->event == EVENT_TEXT;
    if (!is_text) thread->module = NULL;
    if (!is_text) thread->named = 0;
    switch (record->event) {
    case EVENT_THREAD: begin_thread(of, thread, record); break;
    case EVENT_PRIORITY: keep_priority(of, thread, record); break;
    case EVENT_NAME: keep_name(of, thread, record); break;
    case EVENT_MODULE: keep_module(of, thread, record); break;
    case EVENT_TEXT: keep_text(of, thread, (const struct text_record *)record); break;
    case EVENT_INIT: keep_mutex(of, thread, record, place); break;
    case EVENT_DESTROY: keep_mutex(of, thread, record, 0); break;
    case EVENT_GRANTED:
    case EVENT_FAILED: of->dropped_calls++; break;
    default: break;
    }
}

/* Returns the record behind one of a chunk, which may be in the thread's next chunk, or NULL. */
static const struct record *behind(const struct ring *of, const struct ring_thread *thread,
                                   const struct record *chunk, unsigned at, unsigned used) {
    if (at + 1 < used) return &chunk[at + 1];
    if (thread->first == NO_CHUNK) return NULL;
    const struct record *next = of->chunks[thread->first];
    bool is_next = ((const struct chunk_head *)next)->index ==
                   ((const struct chunk_head *)chunk)->index + 1;
    return is_next ? &next[1] : NULL;
}

void known_keep(struct ring *of, struct ring_thread *thread, const struct record *chunk,
                unsigned used) {
    for (unsigned i = 1; i < used; i++) {
        const struct record *next = behind(of, thread, chunk, i, used);
        keep_record(of, thread, &chunk[i], next && next->event == EVENT_PLACE ? next->object : 0);
        if (chunk[i].event != EVENT_TEXT && chunk[i].time > of->dropped_until)
            of->dropped_until = chunk[i].time;
    }
    of->dropped += used - 1;
}
