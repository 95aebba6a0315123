/* Tells the registers that were loaded, then does the accesses of accesses.h and tells each outcome, on the serial line:
   `pmpaddr0 0xVALUE`, then `N ok`, `N fault CAUSE`, `N skip` where there is nothing to access, or `N wrong` where an access
   did what its outcome denies. A number has as many bits as a register of the hart. */
#include "hart.h"

struct access {
    word address;
    uint8_t kind;
    uint8_t supervisor;
    uint8_t log2_size;
};

#include "accesses.h"

#define MACHINE (3ul << 11)
#define RAM_BASE 0x80000000ul
#define CALL 0x00000073ul
#define SHORT_BREAK 0x9002ul

#define REGISTER(name)                                           \
    do {                                                         \
        word value;                                          \
        __asm__ volatile("csrr %0, " #name : "=r"(value));       \
        put_register(#name, value);                              \
    } while (0)

void put_registers(void);

void put_registers(void)
{
    REGISTER(pmpaddr0);
    REGISTER(pmpaddr1);
    REGISTER(pmpaddr2);
    REGISTER(pmpaddr3);
    REGISTER(pmpaddr4);
    REGISTER(pmpaddr5);
    REGISTER(pmpaddr6);
    REGISTER(pmpaddr7);
    REGISTER(pmpaddr8);
    REGISTER(pmpaddr9);
    REGISTER(pmpaddr10);
    REGISTER(pmpaddr11);
    REGISTER(pmpaddr12);
    REGISTER(pmpaddr13);
    REGISTER(pmpaddr14);
    REGISTER(pmpaddr15);
    REGISTER(pmpcfg0);
#if __riscv_xlen == 32
    REGISTER(pmpcfg1);
#endif
    REGISTER(pmpcfg2);
#if __riscv_xlen == 32
    REGISTER(pmpcfg3);
#endif
}

static int in_ram(word address)
{
    return address >= RAM_BASE && address - RAM_BASE < RAM_SIZE;
}

static word mode_of(const struct access *a)
{
    return (word)a->supervisor << 11;
}

/* The outcome: a cause, NONE where it is allowed, SKIP where there is nothing, WRONG where it did what it should not. */
enum { SKIP = -2, WRONG = -3 };

static sword load(const struct access *a, word there)
{
    struct outcome got = attempt(a->log2_size, a->address, 0, AS_IF | mode_of(a));
    if (got.cause == NONE && in_ram(a->address) && got.value != there)
        return WRONG;
    return got.cause;
}

static sword store(const struct access *a, word there)
{
    word mask = 8u << a->log2_size == 8 * sizeof(word) ? ~0ul : (1ul << (8 << a->log2_size)) - 1;
    word other = ~there & mask;
    sword cause = attempt(4 + a->log2_size, a->address, other, AS_IF | mode_of(a)).cause;
    if (!in_ram(a->address))
        return cause;
    word now = attempt(a->log2_size, a->address, 0, MACHINE).value;
    attempt(4 + a->log2_size, a->address, there, MACHINE);
    if (now != (cause == NONE ? other : there))
        return WRONG;
    return cause;
}

/* An instruction that traps at once is put there; that it was reached shows that it was fetched. */
static sword fetch(const struct access *a, word there)
{
    if (!in_ram(a->address))
        return SKIP;
    attempt(4 + a->log2_size, a->address, a->log2_size == 2 ? CALL : SHORT_BREAK, MACHINE);
    sword cause = attempt(8, a->address, 0, mode_of(a)).cause;
    attempt(4 + a->log2_size, a->address, there, MACHINE);
    sword reached = a->log2_size != 2 ? 3 : a->supervisor ? 9 : 8;
    return cause == reached ? NONE : cause;
}

static sword outcome_of(const struct access *a)
{
    struct outcome there = attempt(a->log2_size, a->address, 0, MACHINE);
    if (there.cause != NONE)
        return SKIP;
    switch (a->kind) {
    case LOAD:
        return load(a, there.value);
    case STORE:
        return store(a, there.value);
    default:
        return fetch(a, there.value);
    }
}

void run(void)
{
    put_registers();
    for (word i = 0; i < sizeof accesses / sizeof *accesses; i++) {
        sword outcome = outcome_of(&accesses[i]);
        put_number(i + 1);
        if (outcome == NONE) {
            put(" ok\n");
        } else if (outcome == SKIP) {
            put(" skip\n");
        } else if (outcome == WRONG) {
            put(" wrong\n");
        } else {
            put(" fault ");
            put_number(outcome);
            put("\n");
        }
    }
    *finisher = 0x5555;
}
