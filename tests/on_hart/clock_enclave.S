/* The enclave of clock.c: it reads the counter that its second page names, and exits with it. */
    .section .rodata
    .balign 8
    .option norelax
    .globl  enclave, enclave_end
enclave:
    lla     s0, enclave + 4096
    ld      s1, (s0)
    li      s2, 1
    beqz    s1, 1f
    beq     s1, s2, 2f
    csrr    a0, instret
    j       3f
1:  csrr    a0, time
    j       3f
2:  csrr    a0, cycle
3:  li      a7, 0x08454E43
    li      a6, 5
    ecall
    j       3b
    .balign 8
enclave_end:
