/* A program without a C library, start files and a heap: the inversion in one static array. It ends
 * with status 0 where each answer is the right one, else with the number of the first that isn't.
 * For Linux on x86-64 and on 64-bit ARM:
 *
 * cc -ffreestanding -fno-stack-protector -nostdlib -static freestanding.c heap/static.c libpim.a */
#include "pim.h"

/* What the compiler and libpim may call, and a kernel has already. */
void *memmove(void *to, const void *from, size_t n) {
    unsigned char *d = to;
    const unsigned char *s = from;
    if (d < s)
        for (size_t i = 0; i < n; i++) d[i] = s[i];
    else
        for (size_t i = n; i > 0; i--) d[i - 1] = s[i - 1];
    return to;
}

void *memset(void *to, int c, size_t n) {
    unsigned char *d = to;
    for (size_t i = 0; i < n; i++) d[i] = (unsigned char)c;
    return to;
}

static int boost(struct pim_handle *locks) {
    struct pim_changed_task changed[3];
    if (pim_lock(locks, 1, 1).kind != PIM_GRANTED) return 4;
    if (pim_lock(locks, 3, 1).kind != PIM_QUEUED) return 5;
    if (pim_changed(locks, changed, 3) != 1) return 6;
    if (changed[0].task != 1 || changed[0].prio != 90 || changed[0].reason.kind != PIM_OF_WAITER) return 7;
    if (pim_unlock(locks, 1, 1).number != 3) return 8;
    if (pim_effective_prio(locks, 1) != 10) return 9;
    return pim_lock(locks, 3, 2).refusal == PIM_REFUSED_CEILING ? 0 : 10;
}

static int run(void) {
    static const uint16_t bases[] = { 10, 50, 90 };
    static const struct pim_protocol protocols[] = { { PIM_INHERIT, 0 }, { PIM_PROTECT, 60 } };
    struct pim_handle locks = PIM_HANDLE_INIT;
    if (pim_lock(&locks, 1, 1).kind != PIM_NO_MANAGER) return 1;
    if (pim_make(&locks, bases, 3, protocols, 2) != PIM_MADE) return 2;
    if (pim_make(&locks, bases, 3, protocols, 2) != PIM_FAULT_OCCUPIED) return 3;
    int wrong = boost(&locks);
    pim_drop(&locks);
    return wrong == 0 && locks.at != 0 ? 11 : wrong;
}

/* Ends the program, without a C library. */
__attribute__((noreturn)) static void leave(long status) {
#if defined(__x86_64__)
    __asm__ volatile("syscall" : : "a"(60L), "D"(status));
#elif defined(__aarch64__)
    register long number __asm__("x8") = 93;
    register long first __asm__("x0") = status;
    __asm__ volatile("svc #0" : : "r"(number), "r"(first));
#else
#error "the system call that ends a program is known for x86-64 and 64-bit ARM"
#endif
    __builtin_unreachable();
}

__attribute__((noreturn, used)) void start(void) {
    leave(run());
}

/* The stack is aligned as a function expects it. */
#if defined(__x86_64__)
__asm__(".globl _start\n_start:\n xor %ebp, %ebp\n and $-16, %rsp\n call start\n");
#else
__asm__(".globl _start\n_start:\n mov x29, xzr\n mov x30, xzr\n mov x9, sp\n"
        " and sp, x9, #-16\n bl start\n");
#endif
