/* The enclave of aside.c: it exits with whether a trap took its reservation while the host had it wait. */
    .section .rodata
    .balign 8
    .option norelax
    .globl  enclave, enclave_end
enclave:
    lla     s0, enclave + 4096
    li      s1, 0x86100000
    li      t0, 1
    lr.d    zero, (s0)
    sd      t0, (s1)
1:  ld      t0, 8(s1)
    beqz    t0, 1b
    sc.d    a0, zero, (s0)
    li      a7, 0x08454E43
    li      a6, 5
    ecall
    .balign 8
enclave_end:
