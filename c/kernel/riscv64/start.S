/* Entry, exceptions, the switch between threads.
 *
 * All code runs in M-mode, at physical addresses. Kernel, programs and libpim are compiled without
 * floating-point registers, and the CPU has no vector registers. */

.section .text.start, "ax"
.globl _start
_start:
    csrr    t0, mhartid                 /* other CPUs wait for ever */
    bnez    t0, halt
    la      sp, boot_stack_top
    la      t0, bss_begin               /* clear what has no initial value */
    la      t1, bss_end
1:  bgeu    t0, t1, 2f
    sd      zero, (t0)
    addi    t0, t0, 8
    j       1b
2:  la      t0, exception
    csrw    mtvec, t0
    call    kernel_main
halt:
    wfi
    j       halt

/* ---- exceptions ---- */

/* Stores or loads the registers that a call may change, but for the stack pointer. */
.macro caller_saved access
    .set    offset, 0
    .irp    register, ra, t0, t1, t2, t3, t4, t5, t6, a0, a1, a2, a3, a4, a5, a6, a7
    \access  \register, offset(sp)
    .set    offset, offset + 8
    .endr
.endm

/* Stores or loads those that a call keeps, and where it returns to. */
.macro callee_saved access
    .set    offset, 0
    .irp    register, s0, s1, s2, s3, s4, s5, s6, s7, s8, s9, s10, s11
    \access  \register, offset(sp)
    .set    offset, offset + 8
    .endr
    \access  ra, 104(sp)
.endm

/* Saves what a call may change on the stack of the interrupted thread. on_interrupt may switch to
 * another thread. It returns here when this one runs again. */
.balign 4
exception:
    addi    sp, sp, -144
    caller_saved sd
    csrr    a0, mcause
    csrr    a1, mepc
    csrr    a2, mstatus
    sd      a1, 128(sp)
    sd      a2, 136(sp)
    bgez    a0, unexpected              /* an interrupt sets the highest bit */
    call    on_interrupt
    ld      a1, 128(sp)
    ld      a2, 136(sp)
    csrw    mepc, a1
    csrw    mstatus, a2
    caller_saved ld
    addi    sp, sp, 144
    mret

unexpected:
    csrr    a2, mtval
    call    on_unexpected
    j       halt

/* ---- threads ---- */

.globl switch_to
switch_to:
    addi    sp, sp, -112
    callee_saved sd
    sd      sp, (a0)                    /* the first field of a thread */
    ld      sp, (a1)
    callee_saved ld
    addi    sp, sp, 112
    ret

.globl thread_begin
thread_begin:
    call    thread_main
    j       halt

/* ---- semihosting ---- */

/* The host knows an ebreak by what is before and after it: 32 bits each, in one page. */
.balign 16
.option norvc
.globl semihosting
semihosting:
    slli    zero, zero, 0x1f
    ebreak
    srai    zero, zero, 7
    ret

.section .bss
.balign 16
    .skip 8192
boot_stack_top:
