/* Entry, exception vectors, the switch between threads, and the map of memory.
 *
 * All code runs at EL1 on one stack pointer, SP_EL1. Kernel and programs are compiled without
 * floating-point and vector registers. Only libpim uses these, by calls within which no thread is
 * switched and which no interrupt makes. So nobody saves them. */

.section .text.start, "ax"
.globl _start
_start:
    mrs     x0, mpidr_el1               /* other CPUs wait for ever */
    and     x0, x0, #0xff
    cbnz    x0, halt
    ldr     x0, =boot_stack_top
    mov     sp, x0
    mov     x29, xzr

    ldr     x0, =bss_begin              /* clear what has no initial value */
    ldr     x1, =bss_end
1:  cmp     x0, x1
    b.hs    2f
    str     xzr, [x0], #8
    b       1b

2:  mov     x0, #(3 << 20)              /* libpim may use vector registers */
    msr     cpacr_el1, x0
    ldr     x0, =vectors
    msr     vbar_el1, x0

    /* Map memory to itself, in blocks of 1 GB. libpim accesses memory unaligned, which only normal
     * memory allows. With the MMU off, all memory is device memory. */
    mov     x0, #0xff00                 /* attribute 0: device, 1: normal, write-back */
    msr     mair_el1, x0
    ldr     x0, =(25 | 1 << 8 | 1 << 10 | 3 << 12 | 1 << 23)
    msr     tcr_el1, x0                 /* addresses of 39 bits, pages of 4 KB, TTBR0 only */
    ldr     x0, =page_table
    msr     ttbr0_el1, x0
    isb
    tlbi    vmalle1
    dsb     nsh
    isb
    mrs     x0, sctlr_el1
    mov     x1, #(1 | 1 << 2 | 1 << 12) /* MMU, data cache, instruction cache */
    orr     x0, x0, x1
    bic     x0, x0, #2                  /* no alignment check */
    msr     sctlr_el1, x0
    isb
    bl      kernel_main
halt:
    wfi
    b       halt

/* ---- exceptions ---- */

/* A slot of the table has 128 bytes. */
.macro slot to
    .balign 128
    b       \to
.endm

.balign 2048
vectors:
    slot unexpected                     /* with SP_EL0 */
    slot unexpected
    slot unexpected
    slot unexpected
    slot unexpected                     /* with SP_EL1: synchronous */
    slot interrupt                      /* IRQ */
    slot unexpected
    slot unexpected
    .rept 8                             /* from lower levels, which nothing uses */
    slot unexpected
    .endr

unexpected:
    mrs     x0, esr_el1
    mrs     x1, elr_el1
    mrs     x2, far_el1
    bl      on_unexpected
    b       halt

/* Stores or loads the registers that a call may change, and the frame pointer. */
.macro caller_saved access
    \access  x0, x1, [sp]
    \access  x2, x3, [sp, #16]
    \access  x4, x5, [sp, #32]
    \access  x6, x7, [sp, #48]
    \access  x8, x9, [sp, #64]
    \access  x10, x11, [sp, #80]
    \access  x12, x13, [sp, #96]
    \access  x14, x15, [sp, #112]
    \access  x16, x17, [sp, #128]
    \access  x18, x29, [sp, #144]
.endm

/* Stores or loads those that a call keeps, and where it returns to. */
.macro callee_saved access
    \access  x19, x20, [sp]
    \access  x21, x22, [sp, #16]
    \access  x23, x24, [sp, #32]
    \access  x25, x26, [sp, #48]
    \access  x27, x28, [sp, #64]
    \access  x29, x30, [sp, #80]
.endm

/* Saves what a call may change on the stack of the interrupted thread. on_interrupt may switch to
 * another thread. It returns here when this one runs again. */
interrupt:
    sub     sp, sp, #192
    caller_saved stp
    mrs     x0, elr_el1
    mrs     x1, spsr_el1
    stp     x30, x0, [sp, #160]
    str     x1, [sp, #176]
    bl      on_interrupt
    ldr     x1, [sp, #176]
    ldp     x30, x0, [sp, #160]
    msr     elr_el1, x0
    msr     spsr_el1, x1
    caller_saved ldp
    add     sp, sp, #192
    eret

/* ---- threads ---- */

/* void switch_to(struct thread *from, struct thread *to), with interrupts off. The stack pointer
 * is the first field of a thread. In the frame of a new thread, x30 is thread_begin. */
.globl switch_to
switch_to:
    sub     sp, sp, #96
    callee_saved stp
    mov     x2, sp
    str     x2, [x0]
    ldr     x2, [x1]
    mov     sp, x2
    callee_saved ldp
    add     sp, sp, #96
    ret

.globl thread_begin
thread_begin:
    bl      thread_main
    b       halt

/* ---- semihosting ---- */

/* uint64_t semihosting(uint64_t operation, void *arguments) */
.globl semihosting
semihosting:
    hlt     #0xf000
    ret

/* ---- the memory map ---- */

.section .rodata
.balign 4096
page_table:
    .quad 0x0060000000000401            /* 0 to 1 GB: devices, never executed */
    .quad 0x0000000040000705            /* 1 to 2 GB: RAM, normal, inner shareable */
    .fill 510, 8, 0

.section .bss
.balign 16
    .skip 8192
boot_stack_top:
