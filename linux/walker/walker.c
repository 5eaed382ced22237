/* walker [SWITCHES | ORDERS SEED]: executes the rt-mutex of a Linux source in user space. It is
 * linked with kernel/locking/rtmutex_api.c; kernel.h has what that needs. linux/race builds it.
 *
 * Actors perform calls, one for each task and one for each CPU that sets priorities. One executes
 * at a time. Another may go on before each lock that an actor takes, and between the reading and
 * the writing of a priority. The calls of a text come one after the other. If more calls are given,
 * they are performed behind it in every order in which an actor that could go on gives way at most
 * SWITCHES times, or in so many random orders.
 *
 * It reads numbers: a count of tasks and their priorities; a count of mutexes; the calls of the
 * text; a count of CPUs, and the calls of each. Calls are a count, and for each its kind, a task,
 * and the mutex or the priority. It prints the state behind each call of the text, or else how many
 * orders there are, how many end with a wrong priority, and the first such end. A state has, for
 * each task, the priority in force and the mutex that it waits for, and the owner of each mutex. */
#include "rtmutex_common.h"
#include <ucontext.h>

enum { MOST = 24, MOST_CALLS = 256, MOST_CHOICES = 4096, STACK = 65536, TOP = 99 };
enum kind { LOCK, TRY, UNLOCK, CANCEL, BASE };

struct call { int kind, task, number; };
struct calls { struct call all[MOST_CALLS]; int count; };

static struct actor {
    ucontext_t context;
    struct task_struct *task; /* as which it executes */
    struct calls calls;
    int next;                      /* of these */
    raw_spinlock_t *wants, *tried; /* that it waits for; that it couldn't get, and tries again */
    bool is_idle, is_asleep, can_time_out;
    struct hrtimer_sleeper timer;
} actors[2 * MOST], *now;

static char stacks[2 * MOST][STACK];
static struct task_struct tasks[MOST], of_cpus[MOST];
static struct rt_mutex_base mutexes[MOST];
static int priorities[MOST], task_count, mutex_count, cpu_count;
static struct calls text, given[MOST];
static ucontext_t scheduler;
static bool is_sequential;

void broken(const char *what, const char *file, int line) {
    printf("%s:%d: %s\n", file, line, what);
    exit(1);
}

/* ---- what the kernel calls */

/* Before the first that it is less than. */
void rb_add_cached(struct rb_node *node, struct rb_root_cached *tree, rb_less *less) {
    struct rb_node *last = NULL, *next = tree->rb_leftmost;
    for (; next && !less(node, next); next = next->next) last = next;
    node->last = last, node->next = next;
    if (next) next->last = node;
    if (last) last->next = node;
    else tree->rb_root.rb_node = tree->rb_leftmost = node;
}

void rb_erase_cached(struct rb_node *node, struct rb_root_cached *tree) {
    if (node->next) node->next->last = node->last;
    if (node->last) node->last->next = node->next;
    else tree->rb_root.rb_node = tree->rb_leftmost = node->next;
}

static void stop(void) { swapcontext(&now->context, &scheduler); }
static void yield(void) { if (!is_sequential) stop(); }

struct task_struct *current_task(void) { return now->task; }
bool is_held(const raw_spinlock_t *lock) { return lock->holder == now; }

static void wait_while_held(raw_spinlock_t *lock) {
    for (now->wants = lock; lock->holder;) stop();
    now->wants = NULL;
}

void raw_spin_lock(raw_spinlock_t *lock) {
    BUG_ON(is_held(lock));
    yield();
    if (now->tried) wait_while_held(now->tried);
    now->tried = NULL;
    wait_while_held(lock);
    lock->holder = now;
}

bool raw_spin_trylock(raw_spinlock_t *lock) {
    if (!lock->holder) lock->holder = now;
    else now->tried = lock;
    return is_held(lock);
}

void raw_spin_unlock(raw_spinlock_t *lock) {
    BUG_ON(!is_held(lock));
    lock->holder = NULL;
}

void rt_mutex_schedule(void) {
    while (current->state != TASK_RUNNING) {
        now->is_asleep = true;
        stop();
    }
    now->is_asleep = false;
}

void wake_up_state(struct task_struct *task, unsigned state) {
    if (task->state & state) task->state = TASK_RUNNING;
}

void wake_q_add(struct wake_q_head *queue, struct task_struct *task) {
    BUG_ON(queue->count == MOST_WOKEN);
    queue->tasks[queue->count++] = task;
}

void wake_up_q(struct wake_q_head *queue) {
    for (int k = 0; k < queue->count; k++) wake_up_state(queue->tasks[k], TASK_NORMAL);
}

/* The kernel's priorities fall as they rise. */
static int effective(const struct task_struct *pi_task, int prio) {
    return pi_task && pi_task->prio < prio ? pi_task->prio : prio;
}

/* As in kernel/sched/core.c, for SCHED_FIFO. */
void rt_mutex_setprio(struct task_struct *task, struct task_struct *pi_task) {
    int prio = effective(pi_task, task->normal_prio);
    lockdep_assert_held(&task->pi_lock);
    if (task->pi_top_task == pi_task && task->prio == prio) return;
    yield();
    task->pi_top_task = pi_task;
    task->prio = prio;
}

/* As __sched_setscheduler in kernel/sched/syscalls.c. */
static void set_scheduler(struct task_struct *task, int prio) {
    raw_spin_lock(&task->pi_lock);
    int new = effective(task->pi_top_task, prio);
    yield();
    task->normal_prio = prio;
    task->prio = new;
    raw_spin_unlock(&task->pi_lock);
    rt_mutex_adjust_pi(task);
}

/* ---- the calls, as kernel/futex/pi.c makes them */

#ifdef HAS_WAKE_Q
#define start_proxy_lock __rt_mutex_start_proxy_lock
#else
#define start_proxy_lock(mutex, waiter, task, queue) \
    __rt_mutex_start_proxy_lock(mutex, waiter, task)
#endif

static void lock_mutex(struct rt_mutex_base *mutex) {
    struct rt_mutex_waiter waiter = { 0 };
    DEFINE_WAKE_Q(queue);
    if (rt_mutex_owner(mutex) == current) return;
    rt_mutex_init_waiter(&waiter);
    raw_spin_lock_irq(&mutex->wait_lock);
    int status = start_proxy_lock(mutex, &waiter, current, &queue);
    raw_spin_unlock_irq(&mutex->wait_lock);
    wake_up_q(&queue);
    if (status == 1) return;
    now->timer.task = current;
    now->can_time_out = true;
    if (status == 0) status = rt_mutex_wait_proxy_lock(mutex, &now->timer, &waiter);
    now->can_time_out = false;
    if (status) rt_mutex_cleanup_proxy_lock(mutex, &waiter);
    current->state = TASK_RUNNING;
}

static void try_mutex(struct rt_mutex_base *mutex) {
    if (!rt_mutex_owner(mutex)) rt_mutex_futex_trylock(mutex);
}

static void unlock_mutex(struct rt_mutex_base *mutex) {
    DEFINE_RT_WAKE_Q(queue);
    if (rt_mutex_owner(mutex) != current) return;
    raw_spin_lock_irq(&mutex->wait_lock);
    bool has_woken = __rt_mutex_futex_unlock(mutex, &queue);
    raw_spin_unlock_irq(&mutex->wait_lock);
    if (has_woken) rt_mutex_postunlock(&queue);
}

static void act(void) {
    for (;;) {
        for (now->is_idle = true; now->next == now->calls.count;) stop();
        now->is_idle = false;
        struct call call = now->calls.all[now->next++];
        if (call.kind == LOCK) lock_mutex(&mutexes[call.number]);
        if (call.kind == TRY) try_mutex(&mutexes[call.number]);
        if (call.kind == UNLOCK) unlock_mutex(&mutexes[call.number]);
        if (call.kind == BASE) set_scheduler(&tasks[call.task], TOP - call.number);
    }
}

/* ---- who goes on */

/* Of this run: what was chosen, of how many, where more than one could go on. The first `depth` are
 * those that the run before has left. */
static int choices[MOST_CHOICES], options[MOST_CHOICES], depth, chosen;
static int switches, most_switches;
static unsigned seed; /* or 0 */

static bool times_out(const struct actor *actor) {
    return actor->is_asleep && actor->can_time_out && actor->task->state != TASK_RUNNING &&
           actor->next < actor->calls.count && actor->calls.all[actor->next].kind == CANCEL;
}

static bool can_go_on(const struct actor *actor) {
    if (actor->wants) return !actor->wants->holder;
    if (actor->is_asleep) return actor->task->state == TASK_RUNNING || times_out(actor);
    return !actor->is_idle || actor->next < actor->calls.count;
}

/* Returns the next choice of so many. */
static int choose(int count) {
    enum { LUCK = 4 };
    if (count == 1 || is_sequential) return 0;
    if (seed) return rand_r(&seed) % LUCK ? 0 : rand_r(&seed) % count;
    BUG_ON(chosen == MOST_CHOICES);
    if (chosen == depth) choices[depth++] = 0;
    options[chosen] = count;
    return choices[chosen++];
}

/* Returns who goes on, or NULL if nobody can. The first choice is who went on last. */
static struct actor *next_actor(struct actor *last) {
    struct actor *able[2 * MOST];
    int count = 0;
    bool stays = last && can_go_on(last) && !last->is_idle;
    if (stays) able[count++] = last;
    for (struct actor *actor = actors; actor < actors + task_count + cpu_count; actor++)
        if (can_go_on(actor) && !(stays && actor == last)) able[count++] = actor;
    if (count == 0) return NULL;
    int choice = choose(stays && !seed && switches == most_switches ? 1 : count);
    switches += stays && choice > 0;
    return able[choice];
}

static void go_on(struct actor *actor) {
    if (times_out(actor)) {
        actor->next++;
        actor->timer.task = NULL;
        actor->task->state = TASK_RUNNING;
    }
    now = actor;
    swapcontext(&scheduler, &actor->context);
}

static void run_all(void) {
    enum { ENDLESS = 100000 };
    struct actor *actor = NULL;
    for (int steps = 0; (actor = next_actor(actor)); steps++) {
        BUG_ON(steps == ENDLESS);
        go_on(actor);
    }
}

/* Goes back to the last choice that has another, and takes that. Returns whether there is one. */
static bool take_next_order(void) {
    if (seed) return true;
    for (depth = chosen; depth > 0; depth--)
        if (++choices[depth - 1] < options[depth - 1]) return true;
    return false;
}

/* ---- a run */

static void start_actor(struct actor *actor, struct task_struct *task) {
    memset(actor, 0, sizeof *actor);
    actor->task = task;
    getcontext(&actor->context);
    actor->context.uc_stack.ss_sp = stacks[actor - actors];
    actor->context.uc_stack.ss_size = STACK;
    makecontext(&actor->context, act, 0);
}

static void start(void) {
    memset(tasks, 0, sizeof tasks);
    for (int t = 1; t <= task_count; t++) {
        tasks[t].prio = tasks[t].normal_prio = TOP - priorities[t];
        tasks[t].pi_waiters = RB_ROOT_CACHED;
        tasks[t].pid = t;
        start_actor(&actors[t - 1], &tasks[t]);
    }
    for (int c = 0; c < cpu_count; c++) start_actor(&actors[task_count + c], &of_cpus[c]);
    for (int m = 1; m <= mutex_count; m++) rt_mutex_base_init(&mutexes[m]);
}

/* Returns the mutex that a task waits for, or 0. */
static int wait_of(const struct task_struct *task) {
    for (int m = 1; m <= mutex_count; m++)
        if (task->pi_blocked_on && task->pi_blocked_on->lock == &mutexes[m]) return m;
    return 0;
}

static void print_state(void) {
    for (int t = 1; t <= task_count; t++)
        printf("%d %d ", TOP - tasks[t].prio, wait_of(&tasks[t]));
    for (int m = 1; m <= mutex_count; m++) {
        struct task_struct *owner = rt_mutex_owner(&mutexes[m]);
        printf("%d ", owner ? owner->pid : 0);
    }
    printf("\n");
}

static void perform_text(bool is_printed) {
    is_sequential = true;
    for (int k = 0; k < text.count; k++) {
        struct call call = text.all[k];
        struct actor *actor = &actors[call.kind == BASE ? task_count : call.task - 1];
        bool is_refused = actor->is_asleep ? call.kind != CANCEL : call.kind == CANCEL;
        actor->calls.count = actor->next = 0;
        if (!is_refused) actor->calls.all[actor->calls.count++] = call;
        run_all();
        if (is_printed) print_state();
    }
    is_sequential = false;
}

static void perform_given(void) {
    for (int a = 0; a < task_count + cpu_count; a++) actors[a].calls.count = actors[a].next = 0;
    for (int c = 0; c < cpu_count; c++)
        for (int k = 0; k < given[c].count; k++) {
            struct call call = given[c].all[k];
            int number = call.kind == BASE ? task_count + c : call.task - 1;
            struct calls *calls = &actors[number].calls;
            calls->all[calls->count++] = call;
        }
    run_all();
    for (int m = 1; m <= mutex_count; m++) BUG_ON(mutexes[m].wait_lock.holder);
    for (int t = 1; t <= task_count; t++) BUG_ON(tasks[t].pi_lock.holder);
}

/* Whether each priority is the highest of the task's own and those that wait for what it owns. */
static bool is_right(void) {
    int should[MOST];
    for (int t = 1; t <= task_count; t++) should[t] = tasks[t].normal_prio;
    for (int rounds = 0; rounds < task_count; rounds++)
        for (int t = 1; t <= task_count; t++) {
            int m = wait_of(&tasks[t]);
            struct task_struct *owner = m ? rt_mutex_owner(&mutexes[m]) : NULL;
            if (owner && should[t] < should[owner->pid]) should[owner->pid] = should[t];
        }
    for (int t = 1; t <= task_count; t++)
        if (tasks[t].prio != should[t]) return false;
    return true;
}

/* ---- what is read */

static int read_number(int least, int most) {
    int number;
    if (scanf("%d", &number) != 1 || number < least || number > most) {
        fprintf(stderr, "walker: a number from %d to %d is missing\n", least, most);
        exit(2);
    }
    return number;
}

static void read_calls(struct calls *calls) {
    calls->count = read_number(0, MOST_CALLS);
    for (int k = 0; k < calls->count; k++) {
        int kind = read_number(LOCK, BASE), task = read_number(1, task_count);
        calls->all[k] = (struct call){ kind, task, read_number(0, TOP) };
    }
}

static void read_all(void) {
    task_count = read_number(1, MOST - 1);
    for (int t = 1; t <= task_count; t++) priorities[t] = read_number(1, TOP);
    mutex_count = read_number(0, MOST - 1);
    read_calls(&text);
    cpu_count = read_number(0, MOST);
    for (int c = 0; c < cpu_count; c++) read_calls(&given[c]);
}

int main(int count, char **arguments) {
    long runs = 0, wrong = 0, number = count > 1 ? atol(arguments[1]) : 0;
    if (count > 2) seed = (unsigned)atol(arguments[2]);
    else most_switches = (int)number;
    read_all();
    bool is_text = cpu_count == 0;
    cpu_count += is_text; /* which sets priorities */
    do {
        start();
        chosen = switches = 0;
        perform_text(is_text);
        perform_given();
        runs++;
        if (is_text) return 0;
        if (!is_right() && wrong++ == 0) print_state();
    } while (take_next_order() && !(seed && runs == number));
    printf("%ld of %ld\n", wrong, runs);
    return 0;
}
