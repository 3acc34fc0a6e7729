/* The memory of the board mps2-an386, a Cortex-M4, as qemu emulates it: it loads every section to where it is used. */
ENTRY(reset)
MEMORY
{
    code (rx) : ORIGIN = 0x00000000, LENGTH = 4M
    data (rw) : ORIGIN = 0x21000000, LENGTH = 16M
}
SECTIONS
{
    .text : { KEEP(*(.vectors)) *(.text*) *(.rodata*) } > code
    .ARM.exidx : { *(.ARM.exidx*) } > code
    .data : { *(.data*) } > data
    .bss : { *(.bss*) *(COMMON) } > data
    stack_top = ORIGIN(data) + LENGTH(data);
}
