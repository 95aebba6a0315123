/* The enclave of reset.c: it writes its secret, stops itself, and then writes it for ever. */
    .section .rodata
    .balign 8
    .option norelax
    .globl  enclave, enclave_end
enclave:
    lla     s0, enclave + 4096
    li      s1, 0x5ec2e75ec2e7
    sd      s1, (s0)
    li      a7, 0x08454E43
    li      a6, 3
    ecall
1:  sd      s1, (s0)
    j       1b
    .balign 8
enclave_end:
