/* Where the program stands: `go 84000000`. It is copied as it is, so nothing of it is written. */
ENTRY(_start)
SECTIONS
{
    . = 0x84000000;
    .text : { *(.text.start) *(.text .text.*) *(.rodata .rodata.*) *(.srodata .srodata.*) }
    .data : { *(.data .data.*) *(.sdata .sdata.*) *(.sbss .sbss.*) *(.bss .bss.*) }
    ASSERT(SIZEOF(.data) == 0, "a program for `go` has no data that it writes")
    /DISCARD/ : { *(.comment) *(.eh_frame) *(.riscv.attributes) }
}
