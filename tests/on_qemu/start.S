/*
 * A firmware that loads the registers that `plan` prints, and then does accesses in supervisor and user mode.
 * Loads and stores are done from machine mode as if by these modes (mstatus.MPRV and MPP); for a fetch the hart goes there.
 */
    .equ    MPP, 3 << 11
    .equ    MPRV, 1 << 17

/* On RV32 nothing of eight bytes is loaded or stored, and of four bytes no sign is extended. */
#if __riscv_xlen == 32
#define lwu lw
#define ld  lw
#define sd  sw
#endif

    .section .jump, "ax"
    .globl  _start
_start:
    la      t0, start
    jr      t0

    .text
start:
    la      sp, stack_end
    la      t0, trap
    csrw    mtvec, t0
    .include "registers.s"
    call    run
    j       .

/*
 * struct outcome attempt(long kind, unsigned long address, unsigned long value, unsigned long mode_bits)
 * does one access: 0 to 3 load 1, 2, 4 or 8 bytes, 4 to 7 store them, 8 fetches. It answers the cause of the trap that
 * came, or -1, and what was loaded.
 */
    .globl  attempt
attempt:
    la      t0, landed
    csrw    mscratch, t0
    li      a4, -1
    li      t3, MPP
    csrc    mstatus, t3
    csrs    mstatus, a3
    slli    t2, a0, 3
    la      t1, accesses
    add     t1, t1, t2
    jr      t1
    .balign 4
    .option push
    .option norvc
accesses:
    lbu     a2, (a1)
    j       landed
    lhu     a2, (a1)
    j       landed
    lwu     a2, (a1)
    j       landed
    ld      a2, (a1)
    j       landed
    sb      a2, (a1)
    j       landed
    sh      a2, (a1)
    j       landed
    sw      a2, (a1)
    j       landed
    sd      a2, (a1)
    j       landed
    .option pop
    fence.i
    csrw    mepc, a1
    mret
landed:
    li      t3, MPRV
    csrc    mstatus, t3
    mv      a0, a4
    mv      a1, a2
    ret

    .balign 4
trap:
    csrr    a4, mcause
    csrr    t0, mscratch
    jr      t0

    .bss
    .balign 16
    .skip   4096
stack_end:
