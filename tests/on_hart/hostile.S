/*
 * A host that leaves everything behind: its start, its handler, and a call of the monitor with every register as it is told.
 */
    .section .text.start, "ax"
    .option norelax
    .globl  host_entry
host_entry:
    la      sp, stack_end
    la      t0, handler
    csrw    stvec, t0
    call    host_main
    j       .

/* An exception goes on after its instruction, and is noted; an interrupt is taken back. */
    .balign 4
    .globl  handler
handler:
    csrrw   t2, sscratch, t2
    csrr    t2, scause
    bltz    t2, 1f
    csrr    t2, sepc
    addi    t2, t2, 4
    csrw    sepc, t2
    la      t2, exceptions
    sw      sp, (t2)
    csrrw   t2, sscratch, t2
    sret
1:  csrci   sip, 2
    li      t2, 1 << 5
    csrc    sie, t2
    csrrw   t2, sscratch, t2
    sret

/*
 * void call_with(uint64_t x[32]): registers x1 to x31 are loaded, and the code at x[27] is called, which is an `ecall` and a
 * return by x27. What the registers have then is left in x.
 */
    .globl  call_with
call_with:
    addi    sp, sp, -128
    .irp    n, 0, 1, 2, 3, 4, 5, 6, 7, 8, 9, 10, 11
    sd      s\n, 8 * \n(sp)
    .endr
    sd      ra, 96(sp)
    la      t0, kept
    sd      sp, (t0)
    sd      gp, 8(t0)
    sd      tp, 16(t0)
    sd      a0, 24(t0)
    mv      x27, a0
    .irp    n, 1, 2, 3, 4, 5, 6, 7, 8, 9, 10, 11, 12, 13, 14, 15, 16, 17, 18, 19, 20, 21, 22, 23, 24, 25, 26, 28, 29, 30, 31
    ld      x\n, 8 * \n(x27)
    .endr
    ld      x27, 8 * 27(x27)
    jalr    x27, (x27)
    la      x27, kept
    ld      x27, 24(x27)
    .irp    n, 1, 2, 3, 4, 5, 6, 7, 8, 9, 10, 11, 12, 13, 14, 15, 16, 17, 18, 19, 20, 21, 22, 23, 24, 25, 26, 28, 29, 30, 31
    sd      x\n, 8 * \n(x27)
    .endr
    la      t0, kept
    ld      sp, (t0)
    ld      gp, 8(t0)
    ld      tp, 16(t0)
    ld      ra, 96(sp)
    .irp    n, 0, 1, 2, 3, 4, 5, 6, 7, 8, 9, 10, 11
    ld      s\n, 8 * \n(sp)
    .endr
    addi    sp, sp, 128
    ret

/*
 * The enclave: a page of code, and after it one of data. It stores, loads and counts, stops itself, does so again, and exits
 * with 42, which it has in the upper half of a word meanwhile.
 */
    .section .rodata
    .balign 8
    .globl  enclave, enclave_end
enclave:
    lla     s0, enclave + 4096
    li      s1, 42 << 32
    sd      s1, 8(s0)
    li      s2, 3
1:  li      s3, 20000
2:  addi    s3, s3, -1
    bnez    s3, 2b
    li      a7, 0x08454E43
    li      a6, 3
    ecall
    ld      s4, 8(s0)
    bne     s4, s1, 3f
    addi    s2, s2, -1
    bnez    s2, 1b
    srli    a0, s4, 32
    slli    s4, s4, 31
    add     a0, a0, s4
    li      a6, 5
    ecall
3:  ebreak
    .balign 8
enclave_end:

    .bss
    .balign 16
kept:
    .skip   32
    .globl  exceptions
exceptions:
    .skip   16
    .skip   16384
stack_end:
