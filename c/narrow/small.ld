/* 64 KB of flash at 0 and 8 KB of memory at 0x20000000, of which the stack has what is left. */
ENTRY(start)
MEMORY
{
    flash (rx) : ORIGIN = 0, LENGTH = 64K
    memory (rwx) : ORIGIN = 0x20000000, LENGTH = 8K
}
SECTIONS
{
    .text : { KEEP(*(.vectors)) *(.text .text.*) *(.rodata .rodata.*) } > flash
    .ARM.exidx : { *(.ARM.exidx*) } > flash
    .bss (NOLOAD) : { *(.bss .bss.* COMMON) } > memory
    .stack (NOLOAD) : { . = ALIGN(8); . += 1024; } > memory
    stack_top = ORIGIN(memory) + LENGTH(memory);
}
