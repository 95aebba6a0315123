/*
 * uint64_t set_vectors(void), same_vectors(void): the host's first vector register gets a number, and has it still. The enclave of
 * vectors.c reads a vector register.
 */
    .option arch, +v
    .text
    .globl  set_vectors, same_vectors
set_vectors:
    vsetivli zero, 2, e64, m1, ta, ma
    li      t0, 0x5ec2e7
    vmv.v.x v8, t0
    ret
same_vectors:
    vmv.x.s a0, v8
    ret
    .section .rodata
    .balign 8
    .globl  enclave, enclave_end
enclave:
    vsetivli zero, 2, e64, m1, ta, ma
    vmv.x.s a0, v8
    li      a7, 0x08454E43
    li      a6, 5
    ecall
    .balign 8
enclave_end:
