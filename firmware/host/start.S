/*
 * A host in supervisor mode: hart 0 runs host.c, any other hart waits. A handler catches faults of loads.
 */
    .section .text.start, "ax"
    .globl  host_entry
host_entry:
    bnez    a0, idle
    la      sp, host_stack_end
    la      t0, handler
    csrw    stvec, t0
    call    host_main
idle:
    wfi
    j       idle

/*
 * long load_at(const uint64_t *at, uint64_t *value): returns the cause of a fault, or 0 with the loaded value. After a fault
 * execution continues after the load, with the cause in a0.
 */
    .globl  load_at
load_at:
    mv      t1, a0
    li      a0, 0
    .option push
    .option norvc
    ld      t0, (t1)
    .option pop
    sd      t0, (a1)
    ret

/* Any interrupt is from the timer, which is turned off and recorded. Any other trap is a fault of a load. */
    .balign 4
handler:
    csrrw   t2, sscratch, t2
    csrr    t2, scause
    bltz    t2, 1f
    mv      a0, t2
    csrr    t2, sepc
    addi    t2, t2, 4
    csrw    sepc, t2
    csrrw   t2, sscratch, t2
    sret
1:  la      t2, timer_came
    sw      sp, (t2)
    li      t2, 1 << 5
    csrc    sie, t2
    csrrw   t2, sscratch, t2
    sret

    .bss
    .balign 16
    .globl  timer_came
timer_came:
    .skip   16
    .skip   8192
host_stack_end:
