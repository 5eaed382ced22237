/* The machine: interrupts, clock, console, and the files of the host.
 *
 * A board is a folder, as arm64: cpu.h has TICK_INTERRUPT, NO_INTERRUPT, FRAME_WORDS and the
 * inline functions below, board.c those of interrupts, clock and console, start.S the entry, the
 * exceptions, switch_to, thread_begin and semihosting, and board.mk what make and `run` need. */
#ifndef BOARD_H
#define BOARD_H

#include "config.h"

#include <stddef.h>
#include <stdint.h>

/* Starts the interrupt controller, the clock and the tick. */
void board_start(void);

/* Stop the CPU from taking interrupts, and let it take them. */
static inline void disable_interrupts(void);
static inline void enable_interrupts(void);

/* Stops the CPU until an interrupt comes. */
static inline void wait_for_interrupt(void);

/* Acknowledges the pending interrupt. Returns its number, NO_INTERRUPT or more if none is pending.
 * The tick's is TICK_INTERRUPT. */
uint32_t board_acknowledge(void);

/* Says that an acknowledged interrupt was handled. */
void board_finish(uint32_t interrupt);

/* Sets the time of the next tick: the first multiple of the period that is still to come. */
void board_next_tick(void);

/* Returns when the last tick was due, in counts of the clock. */
uint64_t board_last_tick(void);

/* ---- time ---- */

/* Returns the clock: from 0 at the start of the machine. */
static inline uint64_t clock_now(void);

/* Convert between microseconds and counts of the clock. */
uint64_t clock_of_us(uint64_t us);
uint64_t us_of_clock(uint64_t count);

/* Returns the cycle counter. In qemu with -icount shift=0 it counts instructions. */
static inline uint64_t cycles_now(void);

/* ---- the console ---- */

void board_put(char c);

/* Prints by a form with %s, %d, %u, %x, with ll for 64 bits and a width, as %5d and %-5s. */
void print(const char *form, ...) __attribute__((format(printf, 1, 2)));

/* ---- threads ---- */

struct thread;

/* Saves FRAME_WORDS words on the stack of one thread, and its stack pointer in its first field,
 * and continues the other. Interrupts are off. */
void switch_to(struct thread *from, struct thread *to);

/* The last word of a new thread's frame: where it begins. Calls thread_main. */
void thread_begin(void);

/* ---- the host, by semihosting: host.c ---- */

/* Returns what the host answers. */
uint64_t semihosting(uint64_t operation, void *arguments);

/* Reads the host's file that the second argument of the command line names, `room` bytes at most.
 * Returns how many bytes it has, -1 if it can't be read or has more. */
long host_read(char *to, size_t room);

/* Ends the machine with this exit status. */
_Noreturn void host_exit(int status);

/* Prints why, and ends the machine with status 3. */
_Noreturn void panic(const char *why);

#include "cpu.h"

#endif
