/*
 * The entry point of each hart. Hart 0 fills the stack with a mark, so that its use can be measured, and boots the monitor; the
 * others wait until there is a host for them.
 */
    .equ    OF_EARLIER, 1 << 42 | 1 << 17 | 1 << 3 # of mstatus: MDT, MPRV, MIE
    .equ    NEEDED, 1 << 12 | 1 << 2 | 1 << 0 # of misa: M, C, A
    .equ    TSELECT, 0x7a0
    .equ    TDATA1, 0x7a1
    .equ    SERIAL, 0x10000000
    .equ    FINISHER, 0x100000
    .section .text.start, "ax"
    .globl  _start
_start:
    .option norelax
    .option push
    .option norvc
    li      s0, OF_EARLIER
    csrc    mstatus, s0
/* Disables the triggers of an earlier stage, which keep their type. A hart without triggers traps. */
    la      t0, 2f
    csrw    mtvec, t0
    li      t0, 0
1:  csrw    TSELECT, t0
    csrr    t1, TSELECT
    bne     t0, t1, 2f
    csrr    t1, TDATA1
    srli    t1, t1, 60
    beqz    t1, 2f              # no further triggers
    slli    t1, t1, 60
    csrw    TDATA1, t1
    addi    t0, t0, 1
    j       1b
    .balign 4
2:  csrc    mstatus, s0
/* If misa shows that an extension is missing which the compiler assumes, hart 0 reports it and stops the board. */
    csrr    t0, misa
    li      t1, NEEDED
    and     t2, t0, t1
    beqz    t0, 6f
    beq     t1, t2, 6f
    csrr    t0, mhartid
    bnez    t0, .
    la      t0, lacking
    li      t1, SERIAL
3:  lbu     t2, (t0)
    beqz    t2, 5f
4:  lbu     t3, 5(t1)
    andi    t3, t3, 0x20
    beqz    t3, 4b
    sb      t2, (t1)
    addi    t0, t0, 1
    j       3b
5:  li      t0, FINISHER
    li      t1, 0x13333
    sw      t1, (t0)
    j       .
    .option pop
6:
    csrw    mscratch, zero
    la      t0, trap
    csrw    mtvec, t0
    csrr    t0, mhartid
    bnez    t0, other
    la      t0, bss_start
    la      t1, bss_end
1:  sd      zero, (t0)
    addi    t0, t0, 8
    bltu    t0, t1, 1b
    la      t0, stack_start
    la      sp, stack_end
    li      t1, STACK_MARK
1:  sd      t1, (t0)
    addi    t0, t0, 8
    bltu    t0, sp, 1b
    call    boot                # boot(hart, device tree)
    call    pmpmon_serve        # the proved loop: returns only if nothing can be served
    call    served              # served(result): does not return

/* harts_run is 0 at first, then the number of the platform's harts. */
other:
    li      t1, 4
    bgeu    t0, t1, .
    la      t2, arrived
    add     t2, t2, t0
    sb      t1, (t2)
    la      t1, harts_run
1:  lw      t2, (t1)
    bgeu    t0, t2, 1b
    fence   rw, rw
    j       enter_as_trapped

    .section .rodata
lacking:
    .string "monitor: a hart lacks one of the extensions M, A and C: hart 0\n"

    .section .sdata, "aw"
    .balign 8
    .globl  arrived, harts_run
arrived:
    .byte   0, 0, 0, 0
harts_run:
    .word   0

    .section .stack, "aw", @nobits
    .balign 16
    .globl  stack_start, stack_guard, stack_end
stack_start:
    .skip   8192
stack_guard:
    .skip   STACK_SIZE - 8192
stack_end:
