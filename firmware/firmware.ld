/*
 * The monitor and its firmware are at the start of the monitor's range in the platform. Code, constants and data have separate pages
 * and segments: none is both writable and executable. The hardware does not enforce this, because no entry applies to machine mode.
 */
ENTRY(_start)
PHDRS
{
    code PT_LOAD FLAGS(5);
    constants PT_LOAD FLAGS(4);
    data PT_LOAD FLAGS(6);
}
SECTIONS
{
    . = MONITOR_BASE;
    .text : { *(.text.start) *(.text .text.*) } :code
    .rodata : ALIGN(4096) { *(.rodata .rodata.*) *(.srodata .srodata.*) } :constants
    .data : ALIGN(4096) { *(.data .data.*) *(.sdata .sdata.*) } :data
    .bss (NOLOAD) : ALIGN(16) { bss_start = .; *(.sbss .sbss.*) *(.bss .bss.*) *(COMMON) . = ALIGN(8); bss_end = .; } :data
    .stack (NOLOAD) : ALIGN(16) { *(.stack) } :data
    /* The last page of the first 512 KiB, or of a smaller range, is in no segment: nothing clears it at a reset (reset.c). */
    private_ranges = MONITOR_BASE + (MONITOR_SIZE < 0x80000 ? MONITOR_SIZE : 0x80000) - 0x1000;
    ASSERT(. <= MONITOR_BASE + 0x7f000, "the monitor has the first 512 KiB, and a host's boot loader has its stack after them")
    ASSERT(. <= private_ranges, "the monitor has no room in the range that the platform gives it")
    /DISCARD/ : { *(.comment) *(.eh_frame) *(.riscv.attributes) }
}
