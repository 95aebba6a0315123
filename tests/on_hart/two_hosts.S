/* The enclave of two_hosts.c: it stops itself, for ever. */
    .section .rodata
    .balign 8
    .globl  enclave, enclave_end
enclave:
    li      a7, 0x08454E43
    li      a6, 3
    ecall
    j       enclave
    .balign 8
enclave_end:
