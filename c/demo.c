/* Three tasks on one processor, under a scheduler that runs the ready task with the highest
 * effective priority. It runs them twice: over a NONE mutex, where the medium task holds up the
 * high one, and over an INHERIT mutex, where it can't.
 *
 * low 10 arrives at 0: works 1, holds the mutex for 4, works 1
 * medium 50 arrives at 3: works 8
 * high 90 arrives at 2: works 1, holds the mutex for 2, works 1 */
#include "pim.h"

#include <stdint.h>
#include <stdio.h>
#include <stdlib.h>
#include <string.h>

enum { TASKS = 3, MUTEX = 1, END = 24 };

enum act { WORK, TAKE, GIVE, LEAVE };

struct plan {
    const char *name;
    int arrives;
    uint16_t base;
    enum act acts[16];
};

static const struct plan PLANS[TASKS + 1] = {
    { "", 0, 0, { LEAVE } },
    { "low   ", 0, 10, { WORK, TAKE, WORK, WORK, WORK, WORK, GIVE, WORK, LEAVE } },
    { "medium", 3, 50, { WORK, WORK, WORK, WORK, WORK, WORK, WORK, WORK, LEAVE } },
    { "high  ", 2, 90, { WORK, TAKE, WORK, WORK, GIVE, WORK, LEAVE } },
};

struct task {
    const enum act *next;
    int is_blocked;
    int left;      /* when, or -1 */
    uint16_t prio; /* what the scheduler goes by: it knows it from the manager's lists alone */
    char line[END + 1];
};

static struct task tasks[TASKS + 1];

/* Puts those whose priority the last step changed elsewhere in the ready queue, which here is a
 * number. */
static void queue_anew(struct pim_handle *locks, int now) {
    struct pim_changed_task changed[TASKS];
    size_t count = pim_changed(locks, changed, TASKS);
    for (size_t i = 0; i < count; i++) {
        const struct pim_changed_task *c = &changed[i];
        tasks[c->task].prio = c->prio;
        printf("  t=%-2d  %s executes at %u", now, PLANS[c->task].name, (unsigned)c->prio);
        if (c->reason.kind == PIM_OF_WAITER) printf(", because %s waits", PLANS[c->reason.task].name);
        printf("\n");
    }
}

/* Returns the ready task with the highest priority, or 0. */
static int pick(int now) {
    int best = 0;
    for (int t = 1; t <= TASKS; t++) {
        int is_ready = PLANS[t].arrives <= now && !tasks[t].is_blocked && tasks[t].left < 0;
        if (is_ready && (best == 0 || tasks[t].prio > tasks[best].prio)) best = t;
    }
    return best;
}

/* One tick of the task's work, with what the others do meanwhile. */
static void work(struct pim_handle *locks, int t, int now) {
    tasks[t].line[now] = pim_owner(locks, MUTEX) == t ? '#' : '=';
    for (int u = 1; u <= TASKS; u++)
        if (tasks[u].is_blocked) tasks[u].line[now] = '.';
}

static void take(struct pim_handle *locks, int t, int now) {
    struct pim_answer answer = pim_lock(locks, (uint16_t)t, MUTEX);
    tasks[t].is_blocked = answer.kind == PIM_QUEUED;
    queue_anew(locks, now);
}

static void give(struct pim_handle *locks, int t, int now) {
    struct pim_answer answer = pim_unlock(locks, (uint16_t)t, MUTEX);
    if (answer.kind == PIM_HANDED) tasks[answer.number].is_blocked = 0;
    queue_anew(locks, now);
}

static void start(struct pim_handle *locks, uint16_t kind) {
    const struct pim_protocol protocol = { kind, 0 };
    uint16_t bases[TASKS];
    for (int t = 1; t <= TASKS; t++) {
        tasks[t] = (struct task){ PLANS[t].acts, 0, -1, PLANS[t].base, "" };
        memset(tasks[t].line, ' ', END);
        bases[t - 1] = PLANS[t].base;
    }
    if (pim_make(locks, bases, TASKS, &protocol, 1) != PIM_MADE) abort();
}

/* Runs the tasks over a mutex of this kind, and returns when the high one left. */
static int run(uint16_t kind) {
    struct pim_handle locks = PIM_HANDLE_INIT;
    start(&locks, kind);
    for (int now = 0, t; now < END && (t = pick(now)) != 0;) {
        enum act act = *tasks[t].next++;
        if (act == WORK) work(&locks, t, now++);
        if (act == TAKE) take(&locks, t, now);
        if (act == GIVE) give(&locks, t, now);
        if (*tasks[t].next == LEAVE) tasks[t].left = now;
    }
    for (int t = TASKS; t >= 1; t--) printf("  %s |%s| leaves at %d\n", PLANS[t].name, tasks[t].line, tasks[t].left);
    pim_drop(&locks);
    return tasks[TASKS].left;
}

int main(void) {
    printf("= works, # works with the mutex, . waits for it\n\nNONE\n");
    int suffered = run(PIM_NONE);
    printf("\nINHERIT\n");
    int avoided = run(PIM_INHERIT);
    printf("\nThe high task leaves at %d over the NONE mutex, and at %d over the INHERIT one.\n", suffered, avoided);
    return avoided < suffered ? 0 : 1;
}
