/*
 * Two harts of a host. Hart 1 reads a page in a loop without a trap while hart 0 makes an enclave of it. Once hart 0 has
 * said so, a read that is done is wrong: what hart 0 then prints is `reads on`, and otherwise `faults`.
 */
    .equ    EXTENSION, 0x08454E43
    .equ    HSM, 0x48534D
    .equ    RESET, 0x53525354
    .equ    PAGE, 0x85000000
    .equ    FLAG, 0x85100000
    .section .text.start, "ax"
    .option norelax
    .globl  host_entry
host_entry:
    la      a1, reader
    li      a0, 1
    li      a2, 0
    li      a6, 0
    li      a7, HSM
    ecall                       # hart_start(1, reader, 0)
    bnez    a0, .
    li      t0, FLAG
1:  ld      t1, 16(t0)          # hart 1 has read
    beqz    t1, 1b
    li      a0, PAGE
    li      a1, 1
    li      a2, 0
    li      a3, 0
    li      a4, 0
    li      a5, 0
    li      a6, 0
    li      a7, EXTENSION
    ecall
    fence   rw, rw
    li      t0, FLAG
    li      t1, 1
    sd      t1, (t0)
1:  ld      t1, 8(t0)
    beqz    t1, 1b
    la      a0, faults
    li      t2, 1
    beq     t1, t2, 2f
    la      a0, reads_on
2:  call    put
    li      a0, 0
    li      a1, 0
    li      a6, 0
    li      a7, RESET
    ecall
    j       .

reader:
    la      t0, faulted
    csrw    stvec, t0
    li      s1, PAGE
    li      s2, FLAG
    ld      s4, (s1)
    li      t1, 1
    sd      t1, 16(s2)
1:  ld      s3, (s2)
    fence   r, r
    ld      s4, (s1)
    beqz    s3, 1b
    li      t1, 2
    j       2f
    .balign 4
faulted:
    li      t1, 1
2:  sd      t1, 8(s2)
    j       .

    .section .rodata
faults:
    .string "faults\n"
reads_on:
    .string "reads on\n"
