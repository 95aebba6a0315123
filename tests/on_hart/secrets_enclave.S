/* The enclave of secrets.c: numbers that nobody else has in x1 to x31 and in f0 to f31. It goes on for ever, or exits with them. */
    .option arch, +d
    .option norelax
    .equ    SECRET, 0x5ec2e75ec2e70000
    .macro  secrets
    li      x31, SECRET
    .irp    n, 0, 1, 2, 3, 4, 5, 6, 7, 8, 9, 10, 11, 12, 13, 14, 15, 16, 17, 18, 19, 20, 21, 22, 23, 24, 25, 26, 27, 28, 29, 30, 31
    addi    x1, x31, 64 + \n
    fmv.d.x f\n, x1
    .endr
    .irp    n, 1, 2, 3, 4, 5, 6, 7, 8, 9, 10, 11, 12, 13, 14, 15, 16, 17, 18, 19, 20, 21, 22, 23, 24, 25, 26, 27, 28, 29, 30
    addi    x\n, x31, \n
    .endr
    .endm
    .section .rodata
    .balign 8
    .globl  enclave, enclave_end, secrets_exit
enclave:
    secrets
1:  j       1b
secrets_exit:
    secrets
    li      a0, 1
    li      a6, 5
    li      a7, 0x08454E43
    ecall
    .balign 8
enclave_end:
