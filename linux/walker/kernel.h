/* What kernel/locking/rtmutex_api.c of Linux needs of the kernel, for a program in user space. It
 * is included first; the headers that the file names are empty. Assertions of lockdep are checked.
 * walker.c has the functions. */
#include <errno.h>
#include <stdbool.h>
#include <stddef.h>
#include <stdint.h>
#include <stdio.h>
#include <stdlib.h>
#include <string.h>

/* ---- the compiler, and one CPU's memory: another actor executes at a yield alone */
#undef __always_inline
#define __always_inline inline __attribute__((always_inline))
#define __sched
#define __releases(lock)
#define EXPORT_SYMBOL(name)
#define EXPORT_SYMBOL_GPL(name)
#define IS_ENABLED(option) 0
#define likely(value) (value)
#define unlikely(value) (value)
#define container_of(at, type, member) ((type *)((char *)(at) - offsetof(type, member)))
#define READ_ONCE(x) (*(volatile __typeof__(x) *)&(x))
#define WRITE_ONCE(x, value) ((void)(READ_ONCE(x) = (value)))
#define xchg_acquire(at, value) \
    ({ __typeof__(*(at)) old_ = *(at); *(at) = (__typeof__(*(at)))(value); old_; })
#define try_cmpxchg_acquire(at, old, new) \
    ({ bool is_ = *(at) == *(old); if (is_) *(at) = (new); else *(old) = *(at); is_; })
#define cmpxchg_relaxed(at, old, new) \
    ({ __typeof__(*(at)) was_ = *(at); if (was_ == (old)) *(at) = (new); was_; })
#define try_cmpxchg_relaxed try_cmpxchg_acquire
#define try_cmpxchg_release try_cmpxchg_acquire
#define smp_mb__after_atomic()
#define barrier()
#define cpu_relax()

#define KERN_WARNING
_Noreturn void broken(const char *what, const char *file, int line);
#define BUG_ON(is_bad) do { if (is_bad) broken(#is_bad, __FILE__, __LINE__); } while (0)
#define WARN_ON(is_bad) ({ bool is_ = (is_bad); BUG_ON(is_); is_; })
#define WARN_ON_ONCE WARN_ON
#define WARN(is_bad, ...) WARN_ON(is_bad)
#define DEBUG_LOCKS_WARN_ON WARN_ON
#define printk(...) /* that a walk ends at the depth limit, as it goes round others' deadlock */

/* ---- trees, which are lists here */
struct rb_node { struct rb_node *next, *last; };
struct rb_root { struct rb_node *rb_node; };
struct rb_root_cached { struct rb_root rb_root; struct rb_node *rb_leftmost; };
typedef bool rb_less(struct rb_node *one, const struct rb_node *other);
#define RB_ROOT_CACHED (struct rb_root_cached){ { NULL }, NULL }
#define RB_EMPTY_ROOT(root) (!(root)->rb_node)
#define RB_CLEAR_NODE(node) ((node)->last = (node))
#define RB_EMPTY_NODE(node) ((node)->last == (node))
#define rb_first_cached(tree) ((tree)->rb_leftmost)
#define rb_entry container_of
void rb_add_cached(struct rb_node *node, struct rb_root_cached *tree, rb_less *less);
void rb_erase_cached(struct rb_node *node, struct rb_root_cached *tree);

/* ---- spinlocks */
typedef uint64_t u64;
typedef struct raw_spinlock { const void *holder; } raw_spinlock_t;
void raw_spin_lock(raw_spinlock_t *lock);
bool raw_spin_trylock(raw_spinlock_t *lock);
void raw_spin_unlock(raw_spinlock_t *lock);
bool is_held(const raw_spinlock_t *lock); /* by who executes */
#define raw_spin_lock_init(lock) ((lock)->holder = NULL)
#define raw_spin_lock_irq raw_spin_lock
#define raw_spin_unlock_irq raw_spin_unlock
#define raw_spin_lock_irqsave(lock, flags) ((void)((flags) = 0), raw_spin_lock(lock))
#define raw_spin_unlock_irqrestore(lock, flags) ((void)(flags), raw_spin_unlock(lock))
#define scoped_guard(kind, lock) \
    for (raw_spinlock_t *on_ = (raw_spin_lock(lock), (lock)); on_; raw_spin_unlock(on_), on_ = NULL)
#define lockdep_assert(is_right) BUG_ON(!(is_right))
#define lockdep_assert_held(lock) BUG_ON(!is_held(lock))
#define lockdep_init_map_wait(...)
#define lockdep_set_class(...)
#define debug_check_no_locks_freed(...)
#define mutex_acquire(...)
#define mutex_acquire_nest(...)
#define mutex_release(...)
#define might_sleep()
#define preempt_disable()
#define preempt_enable()
#define rcu_read_lock()
#define rcu_read_unlock()
struct lock_class_key { int unused; };
struct lockdep_map;

/* ---- tasks */
#define MAX_RT_PRIO 100
#define DEFAULT_PRIO 120
#define dl_prio(prio) ((prio) < 0)
#define dl_time_before(one, other) ((int64_t)((one) - (other)) < 0)
#define rt_prio(prio) ((prio) < MAX_RT_PRIO)
#define rt_or_dl_prio rt_prio
#define rt_task(task) rt_prio((task)->prio)
#define in_task() true
enum { TASK_RUNNING, TASK_INTERRUPTIBLE, TASK_UNINTERRUPTIBLE, TASK_NORMAL };
enum { TASK_KILLABLE = 0x102, TASK_RTLOCK_WAIT = 0x1000 };
struct rt_mutex_waiter;
struct task_struct {
    raw_spinlock_t pi_lock;
    struct rb_root_cached pi_waiters;
    struct task_struct *pi_top_task;
    struct rt_mutex_waiter *pi_blocked_on;
    int prio, normal_prio;
    unsigned state;
    struct { u64 deadline; } dl;
    const char *comm;
    int pid; /* its number, from 1 */
};
struct task_struct *current_task(void);
#define current current_task()
static inline struct task_struct *get_task_struct(struct task_struct *task) { return task; }
static inline void put_task_struct(struct task_struct *task) { (void)task; }
#define task_pid_nr(task) ((task)->pid)
#define set_current_state(value) (current->state = (value))
#define __set_current_state set_current_state
#define signal_pending_state(state, task) ((void)(state), (void)(task), false)
#define need_resched() false
#define rt_mutex_futex_post_schedule()
#define rt_mutex_futex_pre_schedule()
#define rt_mutex_post_schedule()
#define rt_mutex_pre_schedule()
#define schedule rt_mutex_schedule
void rt_mutex_schedule(void);
void rt_mutex_setprio(struct task_struct *task, struct task_struct *pi_task);
void rt_mutex_adjust_pi(struct task_struct *task);
void wake_up_state(struct task_struct *task, unsigned state);
enum { MOST_WOKEN = 8 };
struct wake_q_head { struct task_struct *tasks[MOST_WOKEN]; int count; };
#define WAKE_Q_HEAD_INITIALIZER(name) { .count = 0 }
#define DEFINE_WAKE_Q(name) struct wake_q_head name = WAKE_Q_HEAD_INITIALIZER(name)
#define wake_q_init(queue) ((queue)->count = 0)
#define wake_q_empty(queue) ((queue)->count == 0)
void wake_q_add(struct wake_q_head *queue, struct task_struct *task);
void wake_up_q(struct wake_q_head *queue);
#define trace_contention_begin(...)
#define trace_contention_end(...)
struct hrtimer_sleeper { struct task_struct *task; };

/* ---- mutexes */
#define CONFIG_RT_MUTEXES 1
struct rt_mutex_base {
    raw_spinlock_t wait_lock;
    struct rb_root_cached waiters;
    struct task_struct *owner;
};
struct rt_mutex { struct rt_mutex_base rtmutex; };
struct ww_mutex { struct rt_mutex base; };
struct ww_acquire_ctx { unsigned long stamp; bool is_wait_die; };
extern int max_lock_depth;
void rt_mutex_base_init(struct rt_mutex_base *mutex);
