/*
 * An enclave: text and constants from 0 on, then variables and a stack, each in whole pages, and the shared pages 4 MiB
 * after the first. It is linked at 0 and runs at any address. PMPMON_STACK and PMPMON_SHARED_PAGES can be given with -Wl,--defsym.
 */
ENTRY(_start)
PMPMON_STACK = DEFINED(PMPMON_STACK) ? PMPMON_STACK : 8192;
PMPMON_SHARED_PAGES = DEFINED(PMPMON_SHARED_PAGES) ? PMPMON_SHARED_PAGES : 2;
PHDRS
{
    text PT_LOAD FLAGS(5);
    data PT_LOAD FLAGS(6);
    shared 0x6d706d70 FLAGS(6); /* "pmpm": of this kind of file, and no part of the image */
}
SECTIONS
{
    . = 0;
    .text : { *(.text.start) *(.text .text.*) *(.rodata .rodata.* .srodata .srodata.*) } :text
    . = ALIGN(4096);
    .data : { *(.data .data.* .sdata .sdata.*) } :data
    .bss (NOLOAD) : { *(.sbss .sbss.* .bss .bss.* COMMON) . = ALIGN(16); . += PMPMON_STACK; pmpmon_stack_end = .; . = ALIGN(4096); } :data
    ASSERT(. <= 0x400000, "an enclave has at most 1024 private pages")
    . = 0x400000; /* PMPMON_SHARED_AT */
    .shared (NOLOAD) : { pmpmon_shared = .; . += 4096 * PMPMON_SHARED_PAGES; pmpmon_shared_end = .; } :shared
    ASSERT(PMPMON_SHARED_PAGES >= 1 && PMPMON_SHARED_PAGES <= 256, "an enclave of the loader has 1 to 256 shared pages")
    /DISCARD/ : { *(.comment) *(.eh_frame) *(.riscv.attributes) *(.note.*) }
}
