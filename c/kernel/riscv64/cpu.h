/* The CPU, for board.h alone: 64-bit RISC-V, all in M-mode. */
#ifndef CPU_H
#define CPU_H

enum { TICK_INTERRUPT = 7, NO_INTERRUPT = 64 }; /* the machine timer's, as mcause has them */
enum { FRAME_WORDS = 14 };

static inline uint64_t clock_now(void) {
    uint64_t count;
    __asm__ volatile("rdtime %0" : "=r"(count));
    return count;
}

static inline uint64_t cycles_now(void) {
    uint64_t count;
    __asm__ volatile("csrr %0, mcycle" : "=r"(count));
    return count;
}

static inline void wait_for_interrupt(void) {
    __asm__ volatile("wfi" : : : "memory");
}

/* The bit MIE of mstatus. */
static inline void disable_interrupts(void) {
    __asm__ volatile("csrci mstatus, 8" : : : "memory");
}

static inline void enable_interrupts(void) {
    __asm__ volatile("csrsi mstatus, 8" : : : "memory");
}

#endif
