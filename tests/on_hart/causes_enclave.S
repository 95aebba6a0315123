/* The enclave of causes.c, with an entry every 16 bytes: it reads a closed counter, writes its own code, jumps to its own data, reads the
   page after its own, jumps to the host's entry, and breaks. */
    .section .rodata
    .option norelax
    .option norvc
    .balign 16
    .globl  enclave, enclave_end
enclave:
    rdtime  a0
    .balign 16
    lla     a0, enclave
    sd      a0, (a0)
    .balign 16
    lla     a0, enclave + 4096
    jr      a0
    .balign 16
    lla     a0, enclave + 8192
    ld      a0, 8(a0)
    .balign 16
    li      a0, 0x10000000
    jr      a0
    .balign 16
    ebreak
    .balign 16
enclave_end:
