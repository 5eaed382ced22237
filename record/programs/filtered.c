/* filtered first|thread PAIRS: gets a seccomp filter that ends it at each system call which it
 * doesn't make by itself. Then the first thread, or one that it creates now, says "ready", and at
 * each line that it reads locks and unlocks a mutex so often, and says "done". It is at
 * SCHED_BATCH, which takes no rights. */
#define _GNU_SOURCE
#include "common.h"

#include <linux/filter.h>
#include <linux/seccomp.h>
#include <stddef.h>
#include <sys/prctl.h>

static pthread_mutex_t mutex = PTHREAD_MUTEX_INITIALIZER;
static long pairs;

/* What the program calls, and then what it calls as it creates a thread, and as that ends. */
static const int allowed[] = {
    SYS_read,     SYS_write,       SYS_newfstatat, SYS_brk,        SYS_getrandom,
    SYS_futex,    SYS_exit_group,
    SYS_clone,    SYS_clone3,      SYS_mmap,       SYS_mprotect,   SYS_munmap,
    SYS_madvise,  SYS_exit,        SYS_rseq,       SYS_set_robust_list,
    SYS_rt_sigprocmask, SYS_rt_sigaction,
};

enum { ALLOWED = sizeof allowed / sizeof *allowed, WITHOUT_THREADS = 7 };

static void filter(size_t count) {
    struct sock_filter code[2 * ALLOWED + 2];
    struct sock_fprog program = { .len = (unsigned short)(2 * count + 2), .filter = code };
    size_t at = 0, number = offsetof(struct seccomp_data, nr);
    code[at++] = (struct sock_filter)BPF_STMT(BPF_LD | BPF_W | BPF_ABS, number);
    for (size_t i = 0; i < count; i++) {
        code[at++] = (struct sock_filter)BPF_JUMP(BPF_JMP | BPF_JEQ | BPF_K, allowed[i], 0, 1);
        code[at++] = (struct sock_filter)BPF_STMT(BPF_RET | BPF_K, SECCOMP_RET_ALLOW);
    }
    code[at++] = (struct sock_filter)BPF_STMT(BPF_RET | BPF_K, SECCOMP_RET_KILL_PROCESS);
    must(prctl(PR_SET_NO_NEW_PRIVS, 1, 0, 0, 0), "PR_SET_NO_NEW_PRIVS");
    must((int)syscall(SYS_seccomp, SECCOMP_SET_MODE_FILTER, 0, &program), "a filter");
}

static void say(const char *text) {
    puts(text);
    fflush(stdout);
}

static bool has_line(void) {
    char sign = 0;
    while (sign != '\n')
        if (read(STDIN_FILENO, &sign, 1) != 1) return false;
    return true;
}

static void *work(void *unused) {
    say("ready");
    while (has_line()) {
        for (long i = 0; i < pairs; i++) {
            pthread_mutex_lock(&mutex);
            pthread_mutex_unlock(&mutex);
        }
        say("done");
    }
    return unused;
}

int main(int count, char **arguments) {
    const struct sched_param param = { .sched_priority = 0 };
    if (count != 3) return 2;
    pairs = atol(arguments[2]);
    must(sched_setscheduler(0, SCHED_BATCH, &param), "SCHED_BATCH");
    bool has_thread = strcmp(arguments[1], "thread") == 0;
    filter(has_thread ? ALLOWED : WITHOUT_THREADS);
    if (has_thread)
        join(start(work, NULL));
    else
        work(NULL);
    return 0;
}
