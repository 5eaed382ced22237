/* The threads that perform the tasks' steps, and the mutexes. */
#ifndef TASK_H
#define TASK_H

#include "text.h"

#include <pthread.h>
#include <sched.h>
#include <setjmp.h>
#include <signal.h>
#include <stdatomic.h>
#include <time.h>

struct mutex {
    struct declared declared;
    pthread_mutex_t real;
    int owner, count; /* by the answers of the calls */
};

struct task {
    int number;
    pthread_t thread;
    atomic_int tid;
    atomic_uint turn, done; /* turn != done: the thread is within a step */
    const struct step *step;
    int answer;   /* what the step's call returned, once done == turn */
    int unlocked; /* how many mutexes a release has unlocked */
    bool is_kept; /* the unlock left a recursive mutex locked */
    int waits;    /* the mutex that its lock, which hasn't returned, is for; or 0 */
    bool is_timed;
    struct timespec deadline; /* far away, until the lock is withdrawn */
    sigjmp_buf escape;
    volatile sig_atomic_t may_escape;
    int stat;   /* the file /proc/self/task/TID/stat */
    int status; /* and /proc/self/task/TID/status */
    int shown;  /* the priority that was printed last */
};

extern struct task tasks[MAX_TASKS + 1];
extern struct mutex mutexes[MAX_MUTEXES + 1];
extern int task_count, mutex_count;

/* Makes the mutexes, and a thread for each task on these CPUs. Ends the program if it can't. */
void tasks_start(const struct text *text, const cpu_set_t *cpus);

bool task_is_busy(struct task *task);

/* Lets the task's thread make this step. */
void task_give(struct task *task, const struct step *step, bool is_timed);

/* Makes the lock of a waiting task time out. */
void task_withdraw(struct task *task);

/* Reads the state letter and the priority in force of the task's thread from the kernel. */
char task_read(struct task *task, int *priority);

/* Reads how often the task's thread has left the CPU, to sleep or for another. */
unsigned long task_switches(struct task *task);

/* Prints 'perform: ..' on the standard error that the program began with, and ends the program. */
_Noreturn void stop(int status, const char *form, ...) __attribute__((format(printf, 2, 3)));

enum { FAULT = 2, WATCHDOG = 3, NO_RIGHTS = 77 };

#endif
