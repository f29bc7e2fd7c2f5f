SECTIONS
{
    . = 0x80000000;
    .text : { *(.start) *(.text*) }
    .data : { *(.rodata*) *(.srodata*) *(.data*) *(.sdata*) *(.sbss*) *(.bss*) *(COMMON) }
}
