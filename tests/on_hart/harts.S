/*
 * A host on up to four harts. Hart 0 begins in host_main(); another is started at second_entry with a function as its opaque
 * word, which it calls with its number. A load or store that faults answers its cause.
 */
    .section .text.start, "ax"
    .option norelax
    .globl  host_entry, second_entry
host_entry:
    la      sp, stacks_end
    la      t0, handler
    csrw    stvec, t0
    csrw    sscratch, zero
    call    host_main
    j       .
second_entry:
    la      sp, stacks_end
    slli    t0, a0, 12
    sub     sp, sp, t0
    la      t0, handler
    csrw    stvec, t0
    csrw    sscratch, zero
    jalr    a1
    j       .

/* long load_at(const uint64_t *at, uint64_t *value) */
    .globl  load_at, store_at
load_at:
    mv      t1, a0
    li      a0, 0
    .option push
    .option norvc
    ld      t0, (t1)
    .option pop
    sd      t0, (a1)
    ret
/* long word_at(uint64_t at): the same of a word of 32 bits, which is not told. */
    .globl  word_at
word_at:
    mv      t1, a0
    li      a0, 0
    .option push
    .option norvc
    lw      t0, (t1)
    .option pop
    ret
/* long store_at(uint64_t *at, uint64_t value) */
store_at:
    mv      t1, a0
    li      a0, 0
    .option push
    .option norvc
    sd      a1, (t1)
    .option pop
    ret

/* long csr_NAME(uint64_t *value): what a counter reads, or the cause of the fault. */
    .irp    name, cycle, time, instret
    .globl  csr_\name
csr_\name:
    mv      t1, a0
    li      a0, 0
    csrr    t0, \name
    sd      t0, (t1)
    ret
    .endr

/* After a fault the next instruction of four bytes is done, with the cause in a0. An interrupt is turned off. */
    .balign 4
handler:
    csrrw   t2, sscratch, t2
    csrr    t2, scause
    bltz    t2, 1f
    mv      a0, t2
    csrr    t2, sepc
    addi    t2, t2, 4
    csrw    sepc, t2
    csrrw   t2, sscratch, t2
    sret
1:  andi    t2, t2, 4
    beqz    t2, 2f
    li      t2, 1 << 5
    csrc    sie, t2
    csrrw   t2, sscratch, t2
    sret
2:  csrci   sip, 2
    csrrw   t2, sscratch, t2
    sret

    .bss
    .balign 16
    .skip   16384
stacks_end:
