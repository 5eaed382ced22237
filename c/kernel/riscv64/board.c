#include "board.h"

/* ---- qemu's machine virt: timer of the CLINT, console 16550 ---- */

#define MTIMECMP (*(volatile uint64_t *)0x02004000)
#define UART_DATA (*(volatile uint8_t *)0x10000000)
#define UART_STATUS (*(volatile uint8_t *)0x10000005)
enum { UART_IS_EMPTY = 1 << 5, TIMER_INTERRUPT_ENABLED = 1 << TICK_INTERRUPT };
enum { FREQUENCY = 10000000 }; /* counts of the clock in a second */

static const uint64_t period = FREQUENCY / TICKS_PER_SECOND; /* from tick to tick */
static uint64_t next_tick; /* when it is due, in counts of the clock */

void board_start(void) {
    next_tick = clock_now();
    board_next_tick();
    __asm__ volatile("csrs mie, %0" : : "r"(TIMER_INTERRUPT_ENABLED));
}

uint32_t board_acknowledge(void) {
    uint64_t cause;
    __asm__ volatile("csrr %0, mcause" : "=r"(cause));
    return (uint32_t)cause;
}

/* The timer's is pending until MTIMECMP is set. */
void board_finish(uint32_t interrupt) {
    (void)interrupt;
}

void board_next_tick(void) {
    uint64_t now = clock_now();
    while (next_tick <= now) next_tick += period;
    MTIMECMP = next_tick;
}

uint64_t board_last_tick(void) {
    return next_tick - period;
}

uint64_t clock_of_us(uint64_t us) {
    return us * FREQUENCY / 1000000;
}

uint64_t us_of_clock(uint64_t count) {
    return count * 1000000 / FREQUENCY;
}

void board_put(char c) {
    while (!(UART_STATUS & UART_IS_EMPTY)) continue;
    UART_DATA = (uint8_t)c;
}
