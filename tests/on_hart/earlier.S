/* A stage before the monitor, in flash. It leaves what KIND says, and goes on with the monitor, a0 and a1 as they were. */
    .equ    ENTRY, 1            # an entry, LEFT
    .equ    MPRV, 2             # loads and stores of machine mode are those of user mode, which has no memory
    .equ    TRIGGERS, 3         # a trigger for each mode where the monitor boots, BOOT
    .equ    RULES, 4            # LEFT in mseccfg, with an entry that opens all
    .equ    INTERRUPTS, 5       # machine mode's timer, which comes after 20 microseconds
.if KIND == RULES
    .equ    OPENED, 0x1f
.else
    .equ    OPENED, LEFT
.endif
    .text
    .globl  _start
_start:
.if KIND == ENTRY || KIND == RULES
    li      t0, -1
    csrw    pmpaddr7, t0
    li      t0, OPENED << 56
    csrw    pmpcfg0, t0
.endif
.if KIND == RULES
    li      t0, LEFT
    csrw    0x747, t0
.elseif KIND == MPRV
    li      t0, 1 << 17 | 3 << 11
    csrc    mstatus, t0
    li      t0, 1 << 17
    csrs    mstatus, t0
.elseif KIND == TRIGGERS
    csrw    0x7a0, zero
    li      t0, 2 << 60 | 1 << 6 | 1 << 4 | 1 << 3 | 1 << 2 # mcontrol: machine, supervisor, user; execution
    csrw    0x7a1, t0
    li      t0, BOOT
    csrw    0x7a2, t0
.elseif KIND == INTERRUPTS
    li      t0, 0x2004000
    csrr    t1, time
    addi    t1, t1, 200
    sd      t1, (t0)
    li      t0, 1 << 7
    csrw    mie, t0
    csrsi   mstatus, 8
.endif
    li      t0, 0x80000000
    jr      t0
