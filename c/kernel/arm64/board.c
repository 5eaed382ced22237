#include "board.h"

/* ---- qemu's machine virt: interrupt controller GICv2, console PL011 ---- */

#define REGISTER(address) (*(volatile uint32_t *)(uintptr_t)(address))
#define GICD_CTLR REGISTER(0x08000000)
#define GICD_ISENABLER0 REGISTER(0x08000100)
#define GICC_CTLR REGISTER(0x08010000)
#define GICC_PMR REGISTER(0x08010004)
#define GICC_IAR REGISTER(0x0801000c)
#define GICC_EOIR REGISTER(0x08010010)
#define UART_DATA REGISTER(0x09000000)
#define UART_FLAGS REGISTER(0x09000018)
enum { UART_IS_FULL = 1 << 5, INTERRUPT_BITS = 1023 };

static uint64_t frequency; /* counts of the clock in a second */
static uint64_t period;    /* counts of the clock from tick to tick */
static uint64_t next_tick; /* when it is due, in counts of the clock */

void board_start(void) {
    GICD_ISENABLER0 = 1u << TICK_INTERRUPT;
    GICD_CTLR = 1;
    GICC_PMR = 0xff;
    GICC_CTLR = 1;
    __asm__("mrs %0, cntfrq_el0" : "=r"(frequency));
    period = frequency / TICKS_PER_SECOND;
    next_tick = clock_now();
    board_next_tick();
    __asm__ volatile("msr cntv_ctl_el0, %0" : : "r"(1ul));
    /* The cycle counter counts, with 64 bits, from 0. */
    __asm__ volatile("msr pmccfiltr_el0, %0" : : "r"(0ul));
    __asm__ volatile("msr pmcntenset_el0, %0" : : "r"(1ul << 31));
    __asm__ volatile("msr pmcr_el0, %0" : : "r"(1ul | 1ul << 2 | 1ul << 6));
}

uint32_t board_acknowledge(void) {
    return GICC_IAR & INTERRUPT_BITS;
}

void board_finish(uint32_t interrupt) {
    GICC_EOIR = interrupt;
}

void board_next_tick(void) {
    uint64_t now = clock_now();
    while (next_tick <= now) next_tick += period;
    __asm__ volatile("msr cntv_cval_el0, %0" : : "r"(next_tick));
}

uint64_t board_last_tick(void) {
    return next_tick - period;
}

uint64_t clock_of_us(uint64_t us) {
    return us * frequency / 1000000;
}

uint64_t us_of_clock(uint64_t count) {
    return count * 1000000 / frequency;
}

void board_put(char c) {
    while (UART_FLAGS & UART_IS_FULL) continue;
    UART_DATA = (uint32_t)c;
}
