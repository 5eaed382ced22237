/* qemu's machine mps2-an385: 4 MB of code memory at 0, 4 MB of memory at 0x20000000. */
ENTRY(start)
SECTIONS
{
    . = 0;
    .text : { KEEP(*(.vectors)) *(.text .text.*) *(.rodata .rodata.*) }
    .ARM.exidx : { *(.ARM.exidx*) }
    . = 0x20000000;
    .data : { *(.data .data.*) }
    .bss : { *(.bss .bss.* COMMON) }
    end = .;
    stack_top = 0x20400000;
}
