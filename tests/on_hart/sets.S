/*
 * A call with a number of its own in each register, and an enclave that has numbers of its own in each. x31 tells whose they are:
 * the others are it and their own number. a0 and a1 are an answer, a6 and a7 a call.
 */
    .equ    EXTENSION, 0x08454E43
    .equ    STOP, 3
    .equ    EXIT, 5
    .equ    HOSTS, 0x500
    .macro  each what
    .irp    n, 1, 3, 4, 5, 6, 7, 8, 9, 12, 13, 14, 15, 18, 19, 20, 21, 22, 23, 24, 25, 26, 27, 28, 29, 30
    \what   \n
    .endr
    .endm
    .macro  set n
    addi    x\n, x31, \n
    .endm
    .macro  look n              # in a1: where a register is another
    addi    a0, x31, \n
    xor     a0, a0, x\n
    or      a1, a1, a0
    .endm
    .macro  any n
    or      x2, x2, x\n
    .endm
    .macro  call function
    li      a7, EXTENSION
    li      a6, \function
    ecall
    .endm
    .macro  saved what
    .irp    n, 0, 1, 2, 3, 4, 5, 6, 7, 8, 9, 10, 11
    \what   s\n, 8 * \n(sp)
    .endr
    \what   ra, 96(sp)
    \what   gp, 104(sp)
    \what   tp, 112(sp)
    \what   a2, 120(sp)
    .endm

/* uint64_t call_with_all(uint64_t function, uint64_t id, uint64_t answer[2]): 1 where a register is another after it. */
    .text
    .globl  call_with_all
call_with_all:
    addi    sp, sp, -128
    saved   sd
    mv      a6, a0
    mv      a0, a1
    li      a7, EXTENSION
    li      x31, HOSTS
    each    set
    ecall
    addi    sp, sp, -16
    sd      a0, 0(sp)
    sd      a1, 8(sp)
    li      a1, 0
    each    look
    addi    a0, x31, -HOSTS
    or      a1, a1, a0
    ld      t0, 0(sp)
    ld      t1, 8(sp)
    addi    sp, sp, 16
    saved   ld
    sd      t0, 0(a2)
    sd      t1, 8(a2)
    addi    sp, sp, 128
    snez    a0, a1
    ret

/* It exits with 7 where a register but a0 is not zero at its first entry, and otherwise, after a stop, with 256 times its number, and
   1 more where one is another than before. */
    .section .rodata
    .balign 8
    .globl  enclave, enclave_end
enclave:
    each    any
    .irp    n, 11, 16, 17, 31
    any     \n
    .endr
    bnez    x2, 1f
    slli    x31, a0, 8
    addi    x2, x31, 2
    each    set
    call    STOP
    li      a1, 0
    each    look
    look    2
    snez    a1, a1
    add     a0, x31, a1
    call    EXIT
1:  li      a0, 7
    call    EXIT
    .balign 8
enclave_end:
