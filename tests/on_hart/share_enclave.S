/* The enclave of share.c: what it does stands in the first word of its second page. */
    .section .rodata
    .balign 8
    .option norelax
    .globl  enclave, enclave_end
enclave:
    lla     s0, enclave + 4096
    ld      s1, (s0)
    li      t0, 0xff
    beq     s1, t0, 2f
1:  li      a7, 0x08454E43
    mv      a6, s1
    li      a0, 77
    ecall
    j       1b
2:  addi    s2, s2, 1
    j       2b
    .balign 8
enclave_end:
