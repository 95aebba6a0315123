/*
 * The harts take turns: one holds the monitor until it passes it on, and waits until it gets it back.
 */
    .equ    SAVED, 14 * 8
    .macro  callee_saved what
    \what   ra, 0(sp)
    .irp    n, 0, 1, 2, 3, 4, 5, 6, 7, 8, 9, 10, 11
    \what   s\n, 8 + 8 * \n(sp)
    .endr
    .endm

    .text
    .globl  pass_monitor, enter_as_trapped
pass_monitor:
    addi    sp, sp, -SAVED
    callee_saved sd
    la      t0, passed_sp
    sd      sp, (t0)
    la      t0, turn
    fence   rw, rw
    sw      a0, (t0)
enter_as_trapped:
    csrr    t1, mhartid
    la      t0, turn
1:  lw      t2, (t0)
    bne     t1, t2, 1b
    fence   rw, rw
    la      t0, passed_sp
    ld      sp, (t0)
    callee_saved ld
    addi    sp, sp, SAVED
    ret

    .section .sbss, "aw", @nobits
    .balign 8
passed_sp:
    .skip   8
turn:
    .skip   8
