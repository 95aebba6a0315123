# Stands in place of the registers that `plan --format asm` prints, at the start of tests/on_qemu/start.S: the hart plans them
# itself, on a stack of its own, and loads them as include/pmpmon.h says: addresses, configuration, fence.
    la      t0, boot_trap
    csrw    mtvec, t0
    la      sp, boot_stack_end
    la      t0, boot_stack
    li      t1, 0x5a5a5a5a5a5a5a5a
1:  sd      t1, (t0)
    addi    t0, t0, 8
    bltu    t0, sp, 1b
    call    plan_at_boot
    la      a0, planned
    .macro  address n
    ld      t0, 64 + 8 * \n(a0)
    csrw    pmpaddr\n, t0
    .endm
    .irp    n, 0, 1, 2, 3, 4, 5, 6, 7, 8, 9, 10, 11, 12, 13, 14, 15
    address \n
    .endr
    ld      t0, (a0)
    csrw    pmpcfg0, t0
    ld      t0, 8(a0)
    csrw    pmpcfg2, t0
    sfence.vma
    la      t0, trap
    csrw    mtvec, t0
    la      sp, stack_end
    j       2f

    .balign 4
boot_trap:
    csrr    a0, mcause
    csrr    a1, mepc
    call    died

    .bss
    .balign 16
    .globl  boot_stack, boot_stack_end
boot_stack:
    .skip   65536
boot_stack_end:
    .text
2:
