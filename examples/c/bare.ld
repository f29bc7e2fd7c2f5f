/* A program for gemcore: code and data from RAM's first byte on, one segment, and a stack of 16 KiB behind them. */
ENTRY(_start)

PHDRS
{
    ram PT_LOAD;
}

SECTIONS
{
    . = 0x80000000;
    .text : { *(.start) *(.text .text.*) } :ram
    .rodata : { *(.rodata .rodata.* .srodata .srodata.*) } :ram
    .data : { *(.data .data.* .sdata .sdata.*) } :ram
    .bss : { *(.sbss .sbss.* .bss .bss.* COMMON) } :ram
    . = ALIGN(16);
    . += 16384;
    stack_end = .;
    /DISCARD/ : { *(.comment) *(.note .note.*) *(.eh_frame) *(.riscv.attributes) }
}
