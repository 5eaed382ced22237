/* The CPU, for board.h alone: 64-bit ARM. */
#ifndef CPU_H
#define CPU_H

enum { TICK_INTERRUPT = 27, NO_INTERRUPT = 1020 }; /* the virtual timer's; as the GIC has them */
enum { FRAME_WORDS = 12 };

/* The virtual counter. */
static inline uint64_t clock_now(void) {
    uint64_t count;
    __asm__ volatile("isb; mrs %0, cntvct_el0" : "=r"(count));
    return count;
}

static inline uint64_t cycles_now(void) {
    uint64_t count;
    __asm__ volatile("isb; mrs %0, pmccntr_el0" : "=r"(count));
    return count;
}

static inline void wait_for_interrupt(void) {
    __asm__ volatile("wfi" : : : "memory");
}

static inline void disable_interrupts(void) {
    __asm__ volatile("msr daifset, #2" : : : "memory");
}

static inline void enable_interrupts(void) {
    __asm__ volatile("msr daifclr, #2" : : : "memory");
}

#endif
