/* Replays a trace through libpim, and prints the report that `pim` prints of it:
 *
 * replay [-check] < TRACE
 *
 * The trace is a valid one, as `pim` takes it. With -check it also asks every getter after each
 * step, and sees that what they say hangs together. Status 0 accepted, 1 rejected, 2 out of memory
 * or not a trace, 3 a getter is wrong. */
#include "pim.h"
#include "pim_names.h"

#include <stdio.h>
#include <stdlib.h>
#include <string.h>

static struct pim_handle locks = PIM_HANDLE_INIT;
static uint16_t bases[PIM_MAX_TASKS + 1];
static struct pim_protocol protocols[PIM_MAX_MUTEXES + 1];
static size_t tasks, mutexes;
static uint16_t listed[PIM_MAX_TASKS + 1];   /* the priority of each task, as the lists alone tell it */
static uint16_t counts[PIM_MAX_MUTEXES + 1]; /* how often each mutex is locked, as the answers tell it */
static unsigned long number;                 /* of the step */

/* ---- what the getters say hangs together ----------------------------------------------------- */

static void must(int holds, const char *what) {
    if (holds) return;
    fprintf(stderr, "replay: step %lu: %s\n", number, what);
    exit(3);
}

static void check_unknown_task(uint16_t task) {
    must(pim_effective_prio(&locks, task) == 0 && pim_base_prio(&locks, task) == 0, "priority of an unknown task");
    must(pim_waits_for(&locks, task) == PIM_UNKNOWN, "wait of an unknown task");
    must(pim_task_reason(&locks, task).kind == PIM_OF_NOTHING, "reason of an unknown task");
}

static void check_task(uint16_t task) {
    uint16_t prio = pim_effective_prio(&locks, task), base = pim_base_prio(&locks, task);
    struct pim_reason why = pim_task_reason(&locks, task);
    struct pim_protocol protocol = pim_mutex_protocol(&locks, why.mutex);
    must(prio == listed[task], "a change was not listed");
    must(prio >= base && base == bases[task - 1], "base priority");
    if (why.kind == PIM_OF_BASE) {
        must(prio == base && why.task == 0 && why.mutex == 0, "reason base");
        return;
    }
    must(prio > base && pim_owner(&locks, why.mutex) == task, "reason of a mutex of another task");
    if (why.kind == PIM_OF_CEILING) {
        must(protocol.kind == PIM_PROTECT && protocol.ceiling == prio, "reason ceiling");
        return;
    }
    must(why.kind == PIM_OF_WAITER, "reason waiter");
    must(protocol.kind == PIM_INHERIT || protocol.kind == PIM_INHERIT_RECURSIVE, "reason waiter of a mutex that passes on no priority");
    must(pim_waits_for(&locks, why.task) == why.mutex && pim_effective_prio(&locks, why.task) == prio, "the reason's waiter");
}

static size_t check_queue(uint16_t mutex) {
    static struct pim_waiter waiters[PIM_MAX_TASKS];
    size_t count = pim_waiters(&locks, mutex, waiters, PIM_MAX_TASKS);
    must(count == 0 || pim_owner(&locks, mutex) != 0, "a free mutex has waiters");
    for (size_t i = 0; i < count; i++) {
        const struct pim_waiter *one = &waiters[i], *next = &waiters[i + 1];
        must(pim_waits_for(&locks, one->task) == mutex && pim_effective_prio(&locks, one->task) == one->prio, "waiter");
        must(one->ticket < pim_next_ticket(&locks), "ticket");
        if (i + 1 == count) continue;
        must(one->prio > next->prio || (one->prio == next->prio && one->ticket < next->ticket), "order of a queue");
    }
    return count;
}

static void check_mutex(uint16_t mutex) {
    struct pim_protocol protocol = pim_mutex_protocol(&locks, mutex);
    must(protocol.kind == protocols[mutex - 1].kind, "protocol");
    must(protocol.ceiling == (protocol.kind == PIM_PROTECT ? protocols[mutex - 1].ceiling : 0), "ceiling");
    must(pim_lock_count(&locks, mutex) == counts[mutex], "count");
    must((counts[mutex] == 0) == (pim_owner(&locks, mutex) == 0), "count of a free mutex");
    must(counts[mutex] <= (protocol.kind == PIM_INHERIT_RECURSIVE ? PIM_MAX_COUNT : 1), "count above the most");
}

static void check_all(void) {
    size_t waiting = 0, queued = 0;
    must(pim_task_count(&locks) == tasks && pim_mutex_count(&locks) == mutexes, "counts");
    check_unknown_task(0);
    check_unknown_task((uint16_t)(tasks + 1));
    must(pim_owner(&locks, 0) == PIM_UNKNOWN && pim_owner(&locks, (uint16_t)(mutexes + 1)) == PIM_UNKNOWN, "owner of an unknown mutex");
    must(pim_lock_count(&locks, 0) == PIM_UNKNOWN && pim_lock_count(&locks, (uint16_t)(mutexes + 1)) == PIM_UNKNOWN, "count of an unknown mutex");
    must(pim_mutex_protocol(&locks, 0).kind == PIM_UNKNOWN, "protocol of an unknown mutex");
    for (uint16_t task = 1; task <= tasks; task++) {
        check_task(task);
        waiting += pim_waits_for(&locks, task) != 0;
    }
    for (uint16_t mutex = 1; mutex <= mutexes; mutex++) {
        check_mutex(mutex);
        queued += check_queue(mutex);
    }
    must(waiting == queued, "as many wait as are in queues");
}

/* ---- the report ------------------------------------------------------------------------------ */

static void print_answer(char *to, size_t room, struct pim_answer answer) {
    if (answer.kind == PIM_HANDED || answer.kind == PIM_RELEASED)
        snprintf(to, room, "%s %u", pim_answer_name(answer.kind), (unsigned)answer.number);
    else if (answer.kind == PIM_REFUSED)
        snprintf(to, room, "refused %s", pim_refusal_name(answer.refusal));
    else
        snprintf(to, room, "%s", pim_answer_name(answer.kind));
}

/* The tasks without their reasons are the same. */
static void check_prios(const struct pim_changed_task *changed, size_t count) {
    static struct pim_changed_prio prios[PIM_MAX_TASKS];
    must(pim_changed_prios(&locks, prios, PIM_MAX_TASKS) == count, "as many changed priorities as tasks");
    for (size_t i = 0; i < count; i++)
        must(prios[i].task == changed[i].task && prios[i].prio == changed[i].prio, "the same changed priorities");
}

/* Each mutex that was handed over is its new owner's: one after an unlock that hands it over, none after
 * any other step but a release. */
static void check_handed(struct pim_answer answer) {
    static struct pim_handed handed[PIM_MAX_MUTEXES];
    size_t count = pim_handed(&locks, handed, PIM_MAX_MUTEXES);
    for (size_t i = 0; i < count; i++) {
        must(i == 0 || handed[i - 1].mutex < handed[i].mutex, "handed mutexes in ascending order");
        must(pim_owner(&locks, handed[i].mutex) == handed[i].task, "the new owner of a handed mutex");
    }
    if (answer.kind == PIM_HANDED) must(count == 1 && handed[0].task == answer.number, "who was handed the mutex");
    else must(answer.kind == PIM_RELEASED ? count <= answer.number : count == 0, "few handed mutexes");
}

static void print_changes(struct pim_answer answer) {
    check_handed(answer);
    static struct pim_changed_task changed[PIM_MAX_TASKS];
    size_t count = pim_changed(&locks, changed, PIM_MAX_TASKS);
    must(answer.changed == count, "the answer's number of changed tasks");
    check_prios(changed, count);
    for (size_t i = 0; i < count; i++) {
        struct pim_reason why = changed[i].reason;
        listed[changed[i].task] = changed[i].prio;
        printf("  task %u at %u ", (unsigned)changed[i].task, (unsigned)changed[i].prio);
        if (why.kind == PIM_OF_BASE) printf("base\n");
        else if (why.kind == PIM_OF_CEILING) printf("ceiling %u\n", (unsigned)why.mutex);
        else printf("waiter %u mutex %u\n", (unsigned)why.task, (unsigned)why.mutex);
    }
}

/* ---- the trace ------------------------------------------------------------------------------- */

static int read_task(const char *line) {
    unsigned task, base;
    if (tasks == PIM_MAX_TASKS || sscanf(line, "task %u %u", &task, &base) != 2) return 0;
    bases[tasks++] = (uint16_t)base;
    listed[tasks] = (uint16_t)base;
    return 1;
}

static uint16_t kind_of(const char *word, const char *next) {
    if (strcmp(word, "protect") == 0) return PIM_PROTECT;
    if (strcmp(word, "inherit") != 0) return PIM_NONE;
    return strcmp(next, "recursive") == 0 ? PIM_INHERIT_RECURSIVE : PIM_INHERIT;
}

static int read_mutex(const char *line) {
    unsigned mutex;
    char word[16], next[16] = "";
    if (mutexes == PIM_MAX_MUTEXES || sscanf(line, "mutex %u %15s %15s", &mutex, word, next) < 2) return 0;
    protocols[mutexes++] = (struct pim_protocol){ kind_of(word, next), (uint16_t)strtoul(next, NULL, 10) };
    return 1;
}

/* Counts what an answer says of a mutex. */
static struct pim_answer counted(uint16_t mutex, struct pim_answer answer) {
    if (answer.kind == PIM_GRANTED) counts[mutex]++;
    if (answer.kind == PIM_KEPT || answer.kind == PIM_FREED) counts[mutex]--;
    return answer;
}

static struct pim_answer release_all(uint16_t task) {
    int owned[PIM_MAX_MUTEXES + 1];
    for (uint16_t mutex = 1; mutex <= mutexes; mutex++) owned[mutex] = pim_owner(&locks, mutex) == task;
    struct pim_answer answer = pim_release_all(&locks, task);
    if (answer.kind != PIM_RELEASED) return answer;
    for (uint16_t mutex = 1; mutex <= mutexes; mutex++)
        if (owned[mutex]) counts[mutex] = pim_owner(&locks, mutex) != 0;
    return answer;
}

static struct pim_answer set_base(uint16_t task, uint16_t target, uint16_t prio) {
    struct pim_answer answer = pim_set_base(&locks, task, target, prio);
    if (answer.kind == PIM_SET) bases[target - 1] = prio;
    return answer;
}

static struct pim_answer set_ceiling(uint16_t task, uint16_t mutex, uint16_t ceiling) {
    struct pim_answer answer = pim_set_ceiling(&locks, task, mutex, ceiling);
    if (answer.kind == PIM_SET) protocols[mutex - 1].ceiling = ceiling;
    return answer;
}

/* Makes the step of a line; PIM_NO_MANAGER where it is none. */
static struct pim_answer step(const char *line) {
    struct pim_answer none = { PIM_NO_MANAGER, 0, 0, 0, 0 };
    unsigned actor, first = 0, second = 0;
    char op[16];
    if (sscanf(line, "%u %15s %u %u", &actor, op, &first, &second) < 2) return none;
    uint16_t task = (uint16_t)actor, target = (uint16_t)first;
    if (strcmp(op, "lock") == 0) return counted(target, pim_lock(&locks, task, target));
    if (strcmp(op, "try") == 0) return counted(target, pim_try(&locks, task, target));
    if (strcmp(op, "unlock") == 0) return counted(target, pim_unlock(&locks, task, target));
    if (strcmp(op, "release") == 0) return release_all(task);
    if (strcmp(op, "cancel") == 0) return pim_cancel(&locks, task, target);
    if (strcmp(op, "base") == 0) return set_base(task, target, (uint16_t)second);
    if (strcmp(op, "ceil") == 0) return set_ceiling(task, target, (uint16_t)second);
    return none;
}

/* Makes the step of a line, and prints its lines of the report. Returns 0, or the status to end
 * with. */
static int answer_line(char *line, int checks) {
    char text[64];
    char *recorded = strstr(line, " = ");
    if (recorded) *recorded = 0, recorded += 3;
    number++;
    struct pim_answer answer = step(line);
    if (answer.kind == PIM_NO_MANAGER) return 2;
    print_answer(text, sizeof text, answer);
    if (recorded && strcmp(text, recorded) != 0) {
        printf("%lu %s but recorded %s\nrejected %lu\n", number, text, recorded, number);
        return 1;
    }
    printf("%lu %s\n", number, text);
    print_changes(answer);
    if (checks) check_all();
    return 0;
}

int main(int argc, char **argv) {
    static char line[256], out[1 << 16];
    int checks = argc > 1 && strcmp(argv[1], "-check") == 0, status = 0;
    setvbuf(stdout, out, _IOFBF, sizeof out);
    if (!fgets(line, sizeof line, stdin)) return 2;
    line[strcspn(line, "\n")] = 0;
    if (strcmp(line, "pim 1") != 0 && strcmp(line, "pim 2") != 0) return 2;
    while (status == 0 && fgets(line, sizeof line, stdin)) {
        line[strcspn(line, "\n")] = 0;
        if (line[0] == 't') status = read_task(line) ? 0 : 2;
        else if (line[0] == 'm') status = read_mutex(line) ? 0 : 2;
        else if (locks.at == NULL && pim_make(&locks, bases, tasks, protocols, mutexes) != PIM_MADE) status = 2;
        else status = answer_line(line, checks);
    }
    pim_drop(&locks);
    if (status == 0) printf("accepted %lu\n", number);
    return status;
}
