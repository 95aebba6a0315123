/*
 * Loads and reads the entries of a hart as a struct bank. ENTRIES is their number in the platform; pmpcfg0 is 0x3a0, and pmpaddr0 0x3b0
 * (Privileged Architecture, "Physical Memory Protection CSRs").
 */
    .macro  each what, csr, step, at, many  # the highest first
    .set    n, \many
    .rept   \many
    .set    n, n - 1
    \what   (\at + 8 * n), \csr + \step * n
    .endr
    .endm
    .macro  put at, csr
    ld      t0, \at(a0)
    csrw    \csr, t0
    .endm
    .macro  get at, csr
    csrr    t0, \csr
    sd      t0, \at(a0)
    .endm

/*
 * void load_bank(const struct bank *): writes the addresses of the used entries, then the configuration, in which the others are off.
 * So no entry takes effect with the address of another; meanwhile none of them applies to machine mode, because none is locked. Then
 * flushes translations that may contain the old permissions, including those of guests if the hart has the hypervisor extension.
 */
    .text
    .globl  load_bank
load_bank:
    ld      t0, (a0)
    la      t1, 1f
    slli    t0, t0, 3           # an address takes two instructions of four bytes
    sub     t1, t1, t0
    jr      t1
    .option push
    .option norvc
    each    put, 0x3b0, 1, 72, ENTRIES
    .option pop
1:  each    put, 0x3a0, 2, 8, ENTRIES / 8
    sfence.vma
    csrr    t0, misa
    andi    t0, t0, 1 << 7      # H
    beqz    t0, 1f
    .insn   r 0x73, 0, 0x31, x0, x0, x0 # hfence.gvma
1:  ret

/* void read_bank(struct bank *): reads the registers. */
    .globl  read_bank
read_bank:
    each    get, 0x3b0, 1, 72, ENTRIES
    each    get, 0x3a0, 2, 8, ENTRIES / 8
    ret

/*
 * uint64_t clear_beyond(void): zeroes the entries beyond those of the platform, up to the first that the hart lacks, and returns the
 * bits of their configuration that are not zero.
 */
    .globl  clear_beyond
clear_beyond:
    la      t0, 1f
    csrrw   t1, mtvec, t0
    li      a0, 0
    .set    n, ENTRIES / 8
    .rept   8 - ENTRIES / 8
    csrw    0x3a0 + 2 * n, zero
    csrr    t0, 0x3a0 + 2 * n
    or      a0, a0, t0
    .set    n, n + 1
    .endr
    j       2f
    .balign 4
1:  la      t0, 2f              # returns from the trap, as Smdbltrp requires
    csrw    mepc, t0
    mret
2:  csrw    mtvec, t1
    ret
