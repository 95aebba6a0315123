/*
 * The enclave: a page of code, followed by a page of data. It stores a number there, stops itself, is interrupted by the timer
 * while it counts, and exits with the number plus 1. Its second entry loads from memory of the monitor.
 */
    .equ    EXTENSION, 0x08454E43
    .equ    STOP, 3
    .equ    EXIT, 5

    .section .rodata
    .balign 8
    .option push
    .option norelax
    .globl  enclave, enclave_end, enclave_second
enclave:
    lla     s0, enclave + 4096
    li      s1, 41
    sd      s1, (s0)
    li      a7, EXTENSION
    li      a6, STOP
    ecall
    li      s2, 500000000
1:  addi    s2, s2, -1
    bnez    s2, 1b
    ld      a0, (s0)
    addi    a0, a0, 1
    li      a7, EXTENSION
    li      a6, EXIT
    ecall
enclave_second:
    li      t0, 0x80000000
    ld      t1, (t0)
    .balign 8
enclave_end:
    .option pop
