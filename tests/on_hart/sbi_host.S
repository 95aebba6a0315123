/*
 * The two harts of the host in sbi_host.c: hart 0 begins in host_main(), hart 1 is started at second_entry, which passes on what
 * it finds in its registers.
 */
    .section .text.start, "ax"
    .option norelax
    .globl  host_entry, second_entry
host_entry:
    la      sp, first_stack_end
    la      t0, handler
    csrw    stvec, t0
    call    host_main
    j       .
second_entry:
    la      sp, second_stack_end
    la      t0, handler
    csrw    stvec, t0
    csrr    a2, satp
    csrr    a3, sstatus
    csrr    a4, sip
    call    second_main         # second_main(hart, opaque, satp, sstatus, sip)
    j       .

/* long load_at(const uint64_t *at): the cause of the fault, or 0. */
    .globl  load_at
load_at:
    mv      t1, a0
    li      a0, 0
    .option push
    .option norvc
    ld      t0, (t1)
    .option pop
    ret

/* An interrupt is counted where tp points to and taken back: the software interrupt's bit, or the timer's. */
    .balign 4
handler:
    csrrw   t2, sscratch, t2
    csrr    t2, scause
    bltz    t2, 1f
    mv      a0, t2
    csrr    t2, sepc
    addi    t2, t2, 4
    csrw    sepc, t2
    csrrw   t2, sscratch, t2
    sret
1:  andi    t2, t2, 4
    beqz    t2, 2f
    li      t2, 1 << 5
    csrc    sie, t2
    ld      t2, 8(tp)
    addi    t2, t2, 1
    sd      t2, 8(tp)
    csrrw   t2, sscratch, t2
    sret
2:  csrci   sip, 2
    ld      t2, (tp)
    addi    t2, t2, 1
    sd      t2, (tp)
    csrrw   t2, sscratch, t2
    sret

    .bss
    .balign 16
    .skip   8192
first_stack_end:
    .skip   8192
second_stack_end:
