/* 16 tasks and 32 mutexes on a Cortex-M3 that has 8 KB of memory, without a C library. It ends with
 * status 0 where each answer is the right one, else with the number of the first that isn't. */
#include "pim_heap_given.h"

enum { TASKS = 16, MUTEXES = 32 };
enum { SYS_EXIT_EXTENDED = 0x20, STOPPED = 0x20026 };

/* ---- what libpim and the compiler call ---- */

void *memmove(void *to, const void *from, size_t n) {
    unsigned char *d = to;
    const unsigned char *s = from;
    if (d < s)
        for (size_t i = 0; i < n; i++) d[i] = s[i];
    else
        for (size_t i = n; i > 0; i--) d[i - 1] = s[i - 1];
    return to;
}

void __aeabi_memmove(void *to, const void *from, size_t n) { memmove(to, from, n); }
void __aeabi_memcpy(void *to, const void *from, size_t n) { memmove(to, from, n); }
void __aeabi_memclr(void *to, size_t n) {
    for (size_t i = 0; i < n; i++) ((unsigned char *)to)[i] = 0;
}
void __aeabi_memclr8(void *to, size_t n) { __aeabi_memclr(to, n); }

/* ---- the program ---- */

/* Task t owns mutex t, and waits for mutex t - 1.
 * So all execute at the priority of the last one. */
static int chain(struct pim_handle *locks) {
    static struct pim_changed_task changed[TASKS];
    static struct pim_changed_prio prios[TASKS];
    struct pim_handed handed;
    for (uint16_t t = 1; t <= TASKS; t++) {
        if (pim_lock(locks, t, t).kind != PIM_GRANTED) return 2;
        if (t > 1 && pim_lock(locks, t, t - 1).kind != PIM_QUEUED) return 3;
    }
    if (pim_changed(locks, changed, TASKS) != TASKS - 1) return 4;
    if (pim_changed_prios(locks, prios, TASKS) != TASKS - 1) return 4;
    if (prios[TASKS - 2].prio != 10 + TASKS) return 4;
    for (uint16_t t = 1; t < TASKS; t++)
        if (changed[t - 1].task != t || changed[t - 1].prio != 10 + TASKS) return 5;
    if (pim_lock(locks, 1, TASKS).refusal != PIM_REFUSED_DEADLOCK) return 6;
    for (uint16_t t = 1; t < TASKS; t++)
        if (pim_release_all(locks, t).kind != PIM_RELEASED || pim_owner(locks, t) != t + 1 ||
            pim_handed(locks, &handed, 1) != 1 || handed.mutex != t || handed.task != t + 1)
            return 7;
    return pim_effective_prio(locks, 1) == 11 ? 0 : 8;
}

static int run(void) {
    static _Alignas(16) unsigned char memory[PIM_MEMORY(TASKS, MUTEXES)];
    static struct pim_protocol protocols[MUTEXES];
    static uint16_t bases[TASKS];
    struct pim_handle locks = PIM_HANDLE_INIT;
    for (uint16_t t = 0; t < TASKS; t++) bases[t] = 11 + t;
    for (uint16_t m = 0; m < MUTEXES; m++) protocols[m].kind = PIM_INHERIT;
    if (pim_make_in(&locks, memory, sizeof memory, bases, TASKS, protocols, MUTEXES) != PIM_MADE)
        return 1;
    int wrong = chain(&locks);
    pim_drop(&locks);
    return wrong;
}

/* ---- the machine ---- */

extern char stack_top[];
void start(void);

__attribute__((section(".vectors"), used))
static const void *const vectors[16] = { stack_top, start };

/* Ends qemu with this status, by semihosting. */
void start(void) {
    uint32_t block[] = { STOPPED, (uint32_t)run() };
    register uint32_t operation __asm__("r0") = SYS_EXIT_EXTENDED;
    register const uint32_t *arguments __asm__("r1") = block;
    __asm__ volatile("bkpt 0xab" : "+r"(operation) : "r"(arguments) : "memory");
    for (;;) continue;
}
