/*
 * An enclave of one page. It computes in 64 bits, stops itself, and exits with 42 when it is resumed. Entered at 0x40, it
 * loads a word of the host.
 */
    .equ    EXTENSION, 0x08454E43
    .equ    STOP, 3
    .equ    EXIT, 5
    .option norvc
    .option norelax
    .globl  _start
_start:
    li      s0, 42 << 32
    li      a7, EXTENSION
    li      a6, STOP
    ecall
    srli    a0, s0, 32
    li      a7, EXTENSION
    li      a6, EXIT
    ecall
    .balign 64
    li      t0, 0x84000000
    ld      t1, (t0)
    .balign 4096, 0
