/* Performs traces: each task is a thread of this kernel, and makes its steps. Prints each answer
 * and each changed priority, as pim's report does.
 *
 * The controller is the idle thread. It gives a step to the thread of the step's task, and
 * continues only when no thread is ready, so that all are parked or blocked. It prints what the
 * threads' calls returned, which waiters continued, and the priorities at which threads are
 * scheduled. It asks libpim only why a thread has its priority, and about steps that no thread
 * can make: those of tasks that wait or aren't there. libpim must refuse these.
 *
 * The file may have several traces, one after another. */
#include "text.h"

#include "pim_names.h"

enum { FILE_BYTES = 2 << 20 };

static char file[FILE_BYTES];
static struct text text;

/* A task and its thread. */
static struct performer {
    const struct step *step; /* the step that it is to make or makes, or NULL */
    int result;              /* what its last call returned */
    uint16_t waits_for;      /* the mutex, while its lock hasn't returned, or 0 */
    uint8_t printed;         /* the priority that was printed last */
} performers[MAX_THREADS + 1];

/* ---- what a task's thread does ---- */

static int perform(const struct step *step) {
    switch (step->request) {
    case LOCK: return mutex_timedlock(step->first, NEVER - 1);
    case TRY: return mutex_trylock(step->first);
    case UNLOCK: return mutex_unlock(step->first);
    case RELEASE: return mutex_unlock_all();
    case CANCEL: return mutex_withdraw(step->first);
    case BASE: return thread_set_priority(step->first, step->second);
    case CEIL: return mutex_set_ceiling(step->first, step->second);
    }
    panic("an unknown request");
}

static void perform_steps(void *unused) {
    struct performer *me = &performers[current->number];
    (void)unused;
    for (;;) {
        thread_park();
        me->result = perform(me->step);
        me->step = NULL;
    }
}

/* ---- a step ---- */

static bool is_task(uint16_t number) {
    return number >= 1 && number <= text.tasks;
}

/* Asks libpim about a step that no thread can make. Returns the result of a call that is
 * refused. */
static int refused_by_libpim(const struct step *step) {
    struct pim_handle *locks = mutexes_manager();
    uint16_t actor = step->actor, first = step->first, second = step->second;
    struct pim_answer answer = { 0 };
    kernel_enter();
    switch (step->request) {
    case LOCK: answer = pim_lock(locks, actor, first); break;
    case TRY: answer = pim_try(locks, actor, first); break;
    case UNLOCK: answer = pim_unlock(locks, actor, first); break;
    case RELEASE: answer = pim_release_all(locks, actor); break;
    case CANCEL: answer = pim_cancel(locks, actor, first); break;
    case BASE: answer = pim_set_base(locks, actor, first, second); break;
    case CEIL: answer = pim_set_ceiling(locks, actor, first, second); break;
    }
    kernel_leave();
    if (answer.kind != PIM_REFUSED) panic("libpim let a task that waits make a step");
    return -answer.refusal;
}

/* Lets the deadline of the thread's wait pass, and returns when its call has returned. */
static void time_out(uint16_t task) {
    thread_expire(&threads[task]);
    while (performers[task].step) wait_for_interrupt();
}

/* Lets the step be made. Returns what its call returned, 0 if it blocks. */
static int make(const struct step *step) {
    uint16_t actor = step->actor;
    struct performer *performer = is_task(actor) ? &performers[actor] : NULL;
    if (performer && !performer->step) {
        performer->step = step;
        thread_unpark(&threads[actor]);
        if (!performer->step) return performer->result;
        performer->waits_for = step->first;
        return 0;
    }
    bool is_time_out = performer && step->request == CANCEL && step->first == actor;
    if (!is_time_out) return refused_by_libpim(step);
    time_out(actor);
    return 0;
}

/* ---- what is printed ---- */

/* The waiters whose lock has returned since the step began. */
struct continued {
    uint16_t new_owner; /* of the mutex that was unlocked, or 0 */
    bool is_withdrawn;  /* the target of the step, without the mutex */
    uint16_t stray;     /* one that shouldn't have continued, or 0 */
};

static bool was_withdrawn(int result) {
    return result == MUTEX_TIMED_OUT || result == MUTEX_WITHDRAWN;
}

static struct continued find_continued(const struct step *step) {
    struct continued found = { 0 };
    for (uint16_t t = 1; t <= text.tasks; t++) {
        struct performer *it = &performers[t];
        if (!it->waits_for || it->step) continue;
        bool is_owner = it->result == 0;
        bool is_handed = is_owner && step->request == UNLOCK && it->waits_for == step->first;
        bool is_target = was_withdrawn(it->result) && step->request == CANCEL && t == step->first;
        if (is_handed && !found.new_owner) found.new_owner = t;
        else if (is_target) found.is_withdrawn = true;
        else if (!is_owner || step->request != RELEASE) found.stray = t;
        it->waits_for = 0;
    }
    return found;
}

static void print_reply(const struct step *step, int result, struct continued continued) {
    enum request request = step->request;
    bool is_waiting = is_task(step->actor) && performers[step->actor].step;
    const char *of_cancel = continued.is_withdrawn ? "withdrawn" : "not withdrawn";
    if (result < 0 && -result <= PIM_REFUSED_NO_PROTOCOL)
        print("refused %s\n", pim_refusal_name((unsigned)-result));
    else if (result < 0) print("error %d\n", result);
    else if (request == CANCEL) print("%s\n", of_cancel);
    else if (is_waiting) print("%s\n", request == LOCK ? "queued" : "blocked");
    else if (request == LOCK || request == TRY) print("granted\n");
    else if (request == BASE || request == CEIL) print("set\n");
    else if (request == RELEASE) print("released %d\n", result);
    else if (result == MUTEX_KEPT) print("kept\n");
    else if (continued.new_owner) print("handed %u\n", continued.new_owner);
    else print("freed\n");
}

static void print_changes(void) {
    for (uint16_t t = 1; t <= text.tasks; t++) {
        if (threads[t].prio == performers[t].printed) continue;
        performers[t].printed = threads[t].prio;
        struct pim_reason reason = pim_task_reason(mutexes_manager(), t);
        print("  task %u at %u", t, threads[t].prio);
        if (reason.kind == PIM_OF_BASE) print(" base\n");
        else if (reason.kind == PIM_OF_CEILING) print(" ceiling %u\n", reason.mutex);
        else print(" waiter %u mutex %u\n", reason.task, reason.mutex);
    }
}

/* Prints a line for whatever is wrong after the step. */
static void print_faults(struct continued continued) {
    uint16_t stray = continued.stray;
    if (stray) print("  ! task %u left its wait with %d\n", stray, performers[stray].result);
    if (!sched_is_sound()) print("  ! the ready queues aren't sound\n");
    for (uint16_t t = 1; t <= text.tasks; t++)
        if (threads[t].state != (performers[t].step ? LOCKING : PARKED))
            print("  ! task %u is neither parked nor waits\n", t);
}

/* ---- the program ---- */

static void perform_text(void) {
    threads_reset();
    if (mutexes_start(text.bases, text.tasks, text.protocols, text.mutexes) != PIM_MADE)
        panic("no manager");
    for (uint16_t t = 1; t <= text.tasks; t++) {
        uint8_t base = (uint8_t)text.bases[t - 1];
        performers[t] = (struct performer){ .printed = base };
        thread_start(t, base, perform_steps, NULL);
    }
    for (uint32_t number = 0; number < text.steps; number++) {
        const struct step *step = &text.step[number];
        int result = make(step);
        struct continued continued = find_continued(step);
        print("%u ", number + 1);
        print_reply(step, result, continued);
        print_changes();
        print_faults(continued);
    }
    print("performed %u\n", text.steps);
}

void program(void) {
    long bytes = host_read(file, sizeof file);
    if (bytes < 0) panic("the traces can't be read, or have more than 2 MB");
    for (const char *at = file; at < file + bytes;) {
        const char *why = text_read(&text, &at, file + bytes);
        print("kernel %s, interrupts %s, fast path %s\n", PIM_VERSION,
              INTERRUPTS_OFF ? "off" : "on", FAST_PATH ? "on" : "off");
        if (why) print("can't be performed: %s\n", why);
        else perform_text();
    }
}
