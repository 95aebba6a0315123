/* Sections with different permissions begin on pages of their own, so that PMP entries can separate them. */
ENTRY(_start)
SECTIONS
{
    . = 0x80200000;
    .text : { *(.text*) }
    . = ALIGN(0x1000);
    .rodata : { *(.rodata*) *(.srodata*) }
    . = ALIGN(0x1000);
    .data : { *(.data*) *(.sdata*) }
    .bss : { *(.bss*) *(.sbss*) }
}
