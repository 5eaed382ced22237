#define _GNU_SOURCE
#include "real.h"

#include <dlfcn.h>
#include <stddef.h>
#include <stdio.h>
#include <string.h>
#include <sys/syscall.h>
#include <unistd.h>

struct real real;

struct symbol {
    const char *name;
    size_t place;
    const char *version; /* of a function that has an older form, too; only some machines have it */
};

/* The locks are the first, since dlsym may allocate, and an allocator may lock. */
static const struct symbol SYMBOLS[] = {
    { "pthread_mutex_lock", offsetof(struct real, mutex_lock), NULL },
    { "pthread_mutex_unlock", offsetof(struct real, mutex_unlock), NULL },
    { "pthread_mutex_trylock", offsetof(struct real, mutex_trylock), NULL },
    { "pthread_mutex_init", offsetof(struct real, mutex_init), NULL },
    { "pthread_mutex_destroy", offsetof(struct real, mutex_destroy), NULL },
    { "_exit", offsetof(struct real, exit_now), NULL },
    { "pthread_cond_wait", offsetof(struct real, cond_wait), "GLIBC_2.3.2" },
    { "pthread_cond_timedwait", offsetof(struct real, cond_timedwait), "GLIBC_2.3.2" },
    { "pthread_cond_clockwait", offsetof(struct real, cond_clockwait), NULL },
    { "pthread_mutex_timedlock", offsetof(struct real, mutex_timedlock), NULL },
    { "pthread_mutex_clocklock", offsetof(struct real, mutex_clocklock), NULL },
    { "pthread_mutex_setprioceiling", offsetof(struct real, mutex_setprioceiling), NULL },
    { "pthread_cond_init", offsetof(struct real, cond_init), "GLIBC_2.3.2" },
    { "pthread_cond_destroy", offsetof(struct real, cond_destroy), "GLIBC_2.3.2" },
    { "pthread_cond_signal", offsetof(struct real, cond_signal), "GLIBC_2.3.2" },
    { "pthread_cond_broadcast", offsetof(struct real, cond_broadcast), "GLIBC_2.3.2" },
    { "sem_wait", offsetof(struct real, sem_wait), NULL },
    { "sem_trywait", offsetof(struct real, sem_trywait), NULL },
    { "sem_timedwait", offsetof(struct real, sem_timedwait), NULL },
    { "sem_clockwait", offsetof(struct real, sem_clockwait), NULL },
    { "sem_post", offsetof(struct real, sem_post), NULL },
    { "pthread_rwlock_rdlock", offsetof(struct real, rwlock_rdlock), NULL },
    { "pthread_rwlock_tryrdlock", offsetof(struct real, rwlock_tryrdlock), NULL },
    { "pthread_rwlock_timedrdlock", offsetof(struct real, rwlock_timedrdlock), NULL },
    { "pthread_rwlock_clockrdlock", offsetof(struct real, rwlock_clockrdlock), NULL },
    { "pthread_rwlock_wrlock", offsetof(struct real, rwlock_wrlock), NULL },
    { "pthread_rwlock_trywrlock", offsetof(struct real, rwlock_trywrlock), NULL },
    { "pthread_rwlock_timedwrlock", offsetof(struct real, rwlock_timedwrlock), NULL },
    { "pthread_rwlock_clockwrlock", offsetof(struct real, rwlock_clockwrlock), NULL },
    { "pthread_rwlock_unlock", offsetof(struct real, rwlock_unlock), NULL },
    { "pthread_barrier_wait", offsetof(struct real, barrier_wait), NULL },
    { "pthread_join", offsetof(struct real, join), NULL },
    { "pthread_tryjoin_np", offsetof(struct real, tryjoin), NULL },
    { "pthread_timedjoin_np", offsetof(struct real, timedjoin), NULL },
    { "pthread_clockjoin_np", offsetof(struct real, clockjoin), NULL },
    { "pthread_create", offsetof(struct real, create), NULL },
    { "pthread_setname_np", offsetof(struct real, setname), NULL },
    { "pthread_setschedparam", offsetof(struct real, setschedparam), NULL },
    { "pthread_setschedprio", offsetof(struct real, setschedprio), NULL },
    { "sched_setscheduler", offsetof(struct real, sched_setscheduler), NULL },
    { "sched_setparam", offsetof(struct real, sched_setparam), NULL },
    { "execve", offsetof(struct real, execve), NULL },
    { "execvpe", offsetof(struct real, execvpe), NULL },
    { "fexecve", offsetof(struct real, fexecve), NULL },
    { "execveat", offsetof(struct real, execveat), NULL },
};

void real_find(void) {
    for (size_t i = 0; i < sizeof SYMBOLS / sizeof *SYMBOLS; i++) {
        const struct symbol *symbol = &SYMBOLS[i];
        void *found = symbol->version ? dlvsym(RTLD_NEXT, symbol->name, symbol->version) : NULL;
        if (!found) found = dlsym(RTLD_NEXT, symbol->name);
        if (!found) {
            dprintf(STDERR_FILENO, "pim-record: the C library lacks %s; the program was not run\n",
                    symbol->name);
            syscall(SYS_exit_group, 2);
        }
        memcpy((char *)&real + symbol->place, &found, sizeof found);
    }
}
