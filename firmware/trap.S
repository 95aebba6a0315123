/*
 * Enters a world from the monitor, and returns at a trap.
 *
 * The monitor is one thread of control with one stack. The hart that runs it holds the lock, and releases it in run_world, after
 * its PMP registers are loaded. The hart whose world traps next, or the next one to get the lock, continues the monitor where the
 * last one left it: it returns from that call of run_world, with its own struct world. A trap that does not change the monitor's
 * state is served by the hart itself, without the lock and on its own stack (serve_alone). mscratch points to the register set of the
 * running world, whose first word points to the hart's struct world, and is zero while no world runs, which distinguishes a trap of
 * the monitor itself.
 */
    .equ    PC, 32 * 8          # of a register set
    .equ    REGISTERS, 1792     # of a struct world: the end of the hart's own stack, and the pointer to its world's set
    .equ    CAUSE, REGISTERS + 8
    .equ    VALUE, REGISTERS + 16
    .equ    TICKET, REGISTERS + 24
    .equ    IS_OUT, REGISTERS + 32
    .equ    IS_WANTED, REGISTERS + 36
    .equ    CALLED, 8           # of the lock
    .equ    SLEEPERS, 16
    .equ    MONITOR_SP, 24
    .equ    SAVED, 14 * 8
    .equ    CLINT, 0x2000000    # its first words: a software interrupt for each hart

/* Saves or loads x1 to x29 in the set at x31. */
    .macro  all what
    .irp    n, 1, 2, 3, 4, 5, 6, 7, 8, 9, 10, 11, 12, 13, 14, 15, 16, 17, 18, 19, 20, 21, 22, 23, 24, 25, 26, 27, 28, 29
    \what   x\n, 8 * \n(x31)
    .endr
    .endm
    .macro  callee_saved what
    \what   ra, 0(sp)
    .irp    n, 0, 1, 2, 3, 4, 5, 6, 7, 8, 9, 10, 11
    \what   s\n, 8 + 8 * \n(sp)
    .endr
    .endm
    .macro  forget_saved        # C code would leave copies of these on the monitor's stacks
    .irp    n, 1, 2, 3, 4, 5, 6, 7, 8, 9, 10, 11
    li      s\n, 0
    .endr
    .endm
    .macro  own_world to
    csrr    \to, mhartid
    slli    \to, \to, 11
    la      t1, worlds
    add     \to, \to, t1
    .endm

/*
 * Saves the state of the monitor and releases the lock. The fence before it also orders writes to the CLINT, which a release alone
 * would not. The hart that is served next may be asleep.
 */
    .macro  leave_monitor
    addi    sp, sp, -SAVED
    callee_saved sd
    la      t0, tickets
    sd      sp, MONITOR_SP(t0)
    fence
    ld      t1, CALLED(t0)
    addi    t1, t1, 1
    sd      t1, CALLED(t0)
    fence
    lw      t2, SLEEPERS(t0)
    beqz    t2, 9f
    jal     t6, wake_called
9:
    .endm

    .text
    .globl  instructions
instructions:
    csrr    a0, minstret
    ret

    .globl  run_world
run_world:
    leave_monitor
/* From here on only this hart's own state is used: another hart may be running the monitor. */
    mv      s0, a0
enter_world:
    ld      x31, REGISTERS(s0)
    sd      s0, (x31)
    ld      t0, PC(x31)
    csrw    mepc, t0
    sc.d    zero, zero, (s0)    # to the lowest word of the hart's stack, which clears a reservation of another world
    all     ld
    ld      x30, 8 * 30(x31)
    csrw    mscratch, x31
    ld      x31, 8 * 31(x31)
    mret

/*
 * Parks: the hart releases the monitor, and is halted until another hart wakes it. It zeroes its word of the CLINT before each
 * check, so that no request is missed.
 */
    .globl  park
park:
    leave_monitor
    csrr    t4, mhartid
    slli    t4, t4, 2
    li      t1, CLINT
    add     t4, t4, t1
1:  sw      zero, (t4)
    fence
    lw      t1, IS_WANTED(a0)
    bnez    t1, 2f
    wfi
    j       1b
2:  sw      zero, IS_WANTED(a0)
    j       take_monitor

/* A hart that has not run a world yet enters like one that was parked. */
    .weak   enter_as_trapped
enter_as_trapped:
    own_world a0
    j       take_monitor

/* From the fifth instruction on, a trap counts as one of the monitor itself. */
    .balign 4
    .globl  trap
trap:
    csrrw   x31, mscratch, x31
    beqz    x31, died           # the monitor itself trapped
    sd      x30, 8 * 30(x31)
    csrrw   x30, mscratch, zero
    sd      x30, 8 * 31(x31)
    all     sd
    csrr    t0, mepc
    sd      t0, PC(x31)
    ld      s0, (x31)
    csrr    t0, mcause
    sd      t0, CAUSE(s0)
    csrr    t0, mtval
    sd      t0, VALUE(s0)
    csrr    t0, mstatus
    slli    t0, t0, 63 - 12     # no world is in machine mode (MPP 3): the monitor trapped while entering one
    bltz    t0, died
    slli    t0, t0, 1
    bltz    t0, 1f              # from supervisor mode
    forget_saved                # an enclave's
1:  addi    sp, s0, REGISTERS
    mv      a0, s0
    call    serve_alone
    bnez    a0, enter_world
    mv      a0, s0
/*
 * A ticket lock: a hart draws the next ticket, and enters when it is served, so harts enter in order of arrival. A hart holds the lock
 * while its last ticket is the one now served. a0 is the hart's struct world.
 */
take_monitor:
    fence   rw, rw
    sw      zero, IS_OUT(a0)
    la      t0, tickets
    li      t1, 1
    amoadd.d.aq t1, t1, (t0)
drawn:
    sd      t1, TICKET(a0)
    ld      t3, CALLED(t0)
    beq     t1, t3, 1f
    jal     t6, wait_for_call
1:  fence   r, rw
    ld      sp, MONITOR_SP(t0)
    callee_saved ld
    addi    sp, sp, SAVED
    ret

/* The monitor itself trapped, and may trap again. If it had drawn a ticket but not yet stored it, this stores it: others wait for it. */
    .balign 4
died:
    la      t0, died
    csrw    mtvec, t0
    csrr    a1, mepc
    la      t0, drawn
    bne     a1, t0, 1f
    sd      t1, TICKET(a0)
1:  own_world sp
    addi    sp, sp, REGISTERS
    forget_saved
    csrr    a0, mcause
    csrr    a1, mepc
    csrr    a2, mtval
    call    trapped             # does not return

/*
 * After spinning for some microseconds a waiter sets its sleep flag and sleeps until it is served, because another hart may need its
 * core. It zeroes its word of the CLINT before each check.
 */
wait_for_call:
    li      t5, 1000
1:  ld      t3, CALLED(t0)
    beq     t1, t3, 4f
    addi    t5, t5, -1
    bgtz    t5, 1b
    csrr    t5, mie
    li      t4, 1 << 3
    csrw    mie, t4             # only its software interrupt wakes it
    csrr    t4, mhartid
    andi    t2, t1, 3
    add     t2, t2, t0
    addi    t3, t4, 1
    slli    t4, t4, 2
    sb      t3, SLEEPERS(t2)
    li      t3, CLINT
    add     t4, t4, t3
2:  sw      zero, (t4)
    fence
    ld      t3, CALLED(t0)
    beq     t1, t3, 3f
    wfi
    j       2b
3:  sb      zero, SLEEPERS(t2)
    csrw    mie, t5
4:  jr      t6

/* Wakes the hart whose ticket, in t1, is served next, if its sleep flag is set. */
wake_called:
    andi    t1, t1, 3
    add     t1, t1, t0
    lbu     t2, SLEEPERS(t1)
    beqz    t2, 1f
    slli    t2, t2, 2
    li      t1, CLINT - 4
    add     t1, t1, t2
    li      t2, 1
    sw      t2, (t1)
1:  jr      t6

    .section .sdata, "aw"
    .balign 8
    .globl  tickets
/* Hart 0 holds the monitor first, with ticket 0. The words are the next ticket, the one now served, four sleep flags, each the number of
   a sleeping hart plus 1 at the index given by the last two bits of its ticket, and the monitor's stack pointer. */
tickets:
    .dword  1, 0, 0, 0
