/*
 * Where U-Boot's `go` begins: int entry(int argc, char **argv). The registers gp and tp are U-Boot's, and stay.
 */
    .section .text.start, "ax"
    .globl  _start
_start:
    j       entry

/*
 * long load_at(uint64_t at, uint64_t *value): the cause of the fault, or 0 and the word that was loaded. For that load the
 * trap handler is the one below, which goes on after it with the cause in a0.
 */
    .text
    .globl  load_at
load_at:
    csrr    a4, stvec
    csrr    a5, sstatus
    la      t0, handler
    csrw    stvec, t0
    mv      t1, a0
    li      a0, 0
    li      t0, 0
    .option push
    .option norvc
    ld      t0, (t1)
    .option pop
    sd      t0, (a1)
    csrw    stvec, a4
    csrw    sstatus, a5
    ret

    .balign 4
handler:
    csrr    a0, scause
    csrr    t2, sepc
    addi    t2, t2, 4
    csrw    sepc, t2
    sret
