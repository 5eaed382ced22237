/* The image, all in RAM. The board's board.mk has the load address. */
ENTRY(_start)
PHDRS
{
    code PT_LOAD FLAGS(5);
    constants PT_LOAD FLAGS(4);
    data PT_LOAD FLAGS(6);
}
SECTIONS
{
    . = load_address;
    .text : { *(.text.start) *(.text .text.*) } :code
    .rodata : { *(.rodata .rodata.*) } :constants
    . = ALIGN(16);
    .data : { *(.data .data.*) } :data
    . = ALIGN(16);
    .bss (NOLOAD) : { bss_begin = .; *(.bss .bss.* COMMON) . = ALIGN(16); bss_end = .; } :data
    /DISCARD/ : { *(.comment) *(.note*) *(.eh_frame*) }
}
