/* A host at the address at which the firmware enters it. */
ENTRY(host_entry)
SECTIONS
{
    . = 0x80200000;
    .text : { *(.text.start) *(.text .text.*) }
    .rodata : ALIGN(16) { *(.rodata .rodata.*) *(.srodata .srodata.*) }
    .data : ALIGN(16) { *(.data .data.*) *(.sdata .sdata.*) }
    .bss (NOLOAD) : ALIGN(16) { *(.sbss .sbss.*) *(.bss .bss.*) *(COMMON) }
    /DISCARD/ : { *(.comment) *(.eh_frame) *(.riscv.attributes) }
}
