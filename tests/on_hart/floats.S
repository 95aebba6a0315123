/*
 * A series over all registers of floating point, and an enclave that computes it. FMT is d or s, for doubles or singles: each
 * number becomes the root of its product with the next plus the one after that. So none can be another without the end being so.
 */
    .option arch, +FMT_ARCH
    .altmacro
    .macro  each body
    .irp    n, 0, 1, 2, 3, 4, 5, 6, 7, 8, 9, 10, 11, 12, 13, 14, 15, 16, 17, 18, 19, 20, 21, 22, 23, 24, 25, 26, 27, 28, 29, 30, 31
    \body   \n
    .endr
    .endm

    .macro  begin_one n
    fcvt.FMT.l f\n, a0
    addi    a0, a0, 13
    .endm
    .macro  any_one n
    fmv.x.FMT t0, f\n
    or      a0, a0, t0
    .endm
    .macro  sum_one n
    fmv.x.FMT t0, f\n
    slli    t1, a0, 7
    srli    a0, a0, 57
    or      a0, a0, t1
    xor     a0, a0, t0
    .endm
    .macro  step n, next, after
    fmul.FMT f\n, f\n, f\next
    fadd.FMT f\n, f\n, f\after
    fsqrt.FMT f\n, f\n
    .endm

/* The numbers from a0 on, and fcsr a1. */
    .macro  begin
    each    begin_one
    csrw    fcsr, a1
    .endm
    .macro  round
    .set    number, 0
    .rept   32
    step    %number, %((number+1)&31), %((number+2)&31)
    .set    number, number + 1
    .endr
    .endm
/* In a0: whether anything is not zero; and a number that comes of all. */
    .macro  any
    csrr    a0, fcsr
    each    any_one
    .endm
    .macro  sum
    csrr    a0, fcsr
    each    sum_one
    .endm

    .text
    .irp    name, begin, round, any, sum
    .globl  series_\name
series_\name:
    \name
    ret
    .endr

/*
 * The enclave: it begins with zeros or exits with 0. Its second page has where its series begins, fcsr and the rounds. After each
 * round it makes a call that is refused, and after some it stops itself at once after that.
 */
    .section .rodata
    .balign 8
    .option norelax
    .globl  enclave, enclave_end
enclave:
    lla     s0, enclave + 4096
    any
    mv      s1, a0
    li      a0, 0
    bnez    s1, 3f
    ld      a0, (s0)
    ld      a1, 8(s0)
    begin
    ld      s1, 16(s0)
1:  round
    li      a7, 0x08454E43
    li      a6, 6
    ecall
    andi    t0, s1, 31
    bnez    t0, 2f
    li      a6, 3
    ecall
2:  addi    s1, s1, -1
    bnez    s1, 1b
    sum
3:  li      a7, 0x08454E43
    li      a6, 5
    ecall
    j       3b
    .balign 8
enclave_end:
