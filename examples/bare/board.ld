/* Where the program stands in memory: addresses of the board's own. */
ENTRY(_start)
SECTIONS
{
    . = 0x80000000;
    .text : { *(.text.start) *(.text .text.*) *(.rodata .rodata.* .srodata .srodata.* .note.*) }
    . = ALIGN(4096);
    .data : { __global_pointer$ = . + 0x800; *(.data .data.* .sdata .sdata.* .got .got.*) }
    .bss : { . = ALIGN(8); zeros = .; *(.bss .bss.* .sbss .sbss.* COMMON) . = ALIGN(8); zeros_end = .; }
}
