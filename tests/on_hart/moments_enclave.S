/* The enclave of moments.c: it exits with the first word of its second page. */
    .section .rodata
    .balign 8
    .option norelax
    .globl  enclave, enclave_end
enclave:
    lla     s0, enclave + 4096
    ld      a0, (s0)
    li      a7, 0x08454E43
    li      a6, 5
    ecall
    .balign 8
enclave_end:
