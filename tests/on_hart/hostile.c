/*
 * A hostile host: before each entry of an enclave it leaves one thing behind, and then, in each of its runs, a random word, all
 * ones or zero in each control register that it finds by trying every number, with interrupts waiting or not, with and
 * without a table of pages. Every integer register is random. The enclave's results have to be those of a host that does
 * nothing of the kind, and each register what it was.
 */
#include "board.h"
#include "pmpmon_calls.h"

#define CAUSE_CALL_OF_USER 8

#ifndef RUNS
#define RUNS 50
#endif
#define PRIVATE 0x85000000ul
#define STUBS 0x82000000ul
#define TIME 0x54494d45ul
#define SRST 0x53525354ul
#define RUN 2
#define RESUME 4
#define MOST_ROUNDS 200
#define RESULT 42

enum { SSTATUS = 0x100, SIE = 0x104, STVEC = 0x105, SIP = 0x144, SATP = 0x180, HIE = 0x604, HVIP = 0x645, LAST = 0xbff };
#define IN_SSTATUS_SIE (1ul << 1)
#define FLOATS_AND_VECTORS (3ul << 9 | 3ul << 13)
#define GUESTS_INTERRUPTS (1ul << 2 | 1ul << 6 | 1ul << 10)

void call_with(uint64_t *x);
void handler(void);
extern const uint8_t enclave[], enclave_end[];
extern volatile uint32_t exceptions;

/* The registers that this hart has for supervisor mode, and what is in each before a call. */
static uint16_t numbers[256];
static uint64_t left[256], left_status;
static unsigned count;
static uint64_t wrong, interrupted, with_table, guests;
static uint64_t table[512] __attribute__((aligned(4096)));

static uint64_t chance(void)
{
    static uint64_t seed = SEED;
    seed = seed * 6364136223846793005ul + 1442695040888963407ul;
    return (seed >> 32) ^ (seed << 29) ^ (seed >> 61);
}

static uint64_t word(void)
{
    uint64_t kind = chance() % 4;
    return kind == 0 ? 0 : kind == 1 ? ~0ul : chance();
}

/* One instruction and a return, written for a register's number: csrrw or csrrs of a0. */
static uint64_t with_register(unsigned number, unsigned kind, uint64_t value)
{
    static uint32_t code[2] __attribute__((aligned(8)));
    code[0] = number << 20 | (kind == 1 ? 10u : 0u) << 15 | kind << 12 | 10u << 7 | 0x73;
    code[1] = 0x00008067;
    __asm__ volatile("fence.i" ::: "memory");
    return ((uint64_t(*)(uint64_t))code)(value);
}

static uint64_t csr_read(unsigned number)
{
    return with_register(number, 2, 0);
}

static void csr_write(unsigned number, uint64_t value)
{
    with_register(number, 1, value);
}

static int is_there(unsigned number)
{
    exceptions = 0;
    uint64_t value = csr_read(number);
    if (!exceptions)
        csr_write(number, value);
    return !exceptions;
}

static int is_found(unsigned number)
{
    for (unsigned i = 0; i < count; i++)
        if (numbers[i] == number)
            return 1;
    return 0;
}

/* Those that are written by themselves are left out. */
static void find_registers(void)
{
    SET(sstatus, FLOATS_AND_VECTORS);
    put("registers");
    for (unsigned number = 0; number <= LAST; number++) {
        if ((number >> 8 & 3) == 3 || !is_there(number))
            continue;
        put(" ");
        put_number(number);
        if (number != SSTATUS && number != SIE && number != STVEC && number != SATP && number != SIP)
            numbers[count++] = (uint16_t)number;
    }
    put("\n");
}

/* One to one, in pages of a gibibyte that user mode may not use. */
static uint64_t satp_with(uint64_t space)
{
    for (uint64_t i = 0; i < 4; i++)
        table[i] = i << 28 | 0xcf;
    return 8ul << 60 | space << 44 | (uint64_t)table >> 12;
}

static uint64_t satp_word(void)
{
    if (chance() % 2)
        return 0;
    with_table++;
    return satp_with(chance() & 0xffff);
}

/* What is left behind alone, before any random word is. */
static const char *const alone[] = {
    "UXL 1", "UXL 2", "UXL 3", "a guest's interrupt", "a table of pages", "an interrupt that is not let in",
};
enum { GUESTS_INTERRUPT = 3, TABLE, INTERRUPT_NOT_LET_IN, ALONE };
static unsigned row;

static void leave_one(void)
{
    uint64_t is_guests = row == GUESTS_INTERRUPT ? GUESTS_INTERRUPTS : 0;
    if (is_found(HIE)) {
        csr_write(HIE, is_guests);
        csr_write(HVIP, is_guests);
    }
    csr_write(SATP, row == TABLE ? satp_with(0) : 0);
    __asm__ volatile("sfence.vma" ::: "memory");
    csr_write(SIP, row == INTERRUPT_NOT_LET_IN ? SOFTWARE_OF_SUPERVISOR : 0);
    left_status = FLOATS_AND_VECTORS | (row < GUESTS_INTERRUPT ? row + 1ul : 2ul) << 32;
}

/* With SIE an interrupt would come to this host at once, at a handler that is no address: so none is let in then. */
static void leave_everything(void)
{
    uint64_t status = word() & ~IN_SSTATUS_SIE;
    SET(sstatus, FLOATS_AND_VECTORS);
    for (unsigned i = 0; i < count; i++)
        csr_write(numbers[i], word());
    csr_write(SIP, word());
    csr_write(SIE, word());
    if (chance() % 4 == 0) {
        csr_write(SIE, 0);
        if (is_found(HIE))
            csr_write(HIE, 0);
        status |= IN_SSTATUS_SIE;
    }
    csr_write(SATP, satp_word());
    __asm__ volatile("sfence.vma" ::: "memory");
    csr_write(STVEC, word());
    left_status = status;
}

static void differs(const char *what, uint64_t number, uint64_t was, uint64_t is)
{
    if (wrong++ > 5)
        return;
    put(what);
    put(" ");
    put_number((int64_t)number);
    put(": ");
    put_hex(was);
    put(" ");
    put_hex(is);
    put("\n");
}

/* The registers that a call leaves as they are: all but a0 and a1. x27 is where it returned to. */
static void look_at_integers(const uint64_t *before, const uint64_t *after)
{
    for (unsigned n = 1; n < 32; n++)
        if (n != 10 && n != 11 && n != 27 && before[n] != after[n])
            differs("x", n, before[n], after[n]);
}

/* The handler, the table and what is let in are this host's again, after it has seen what it finds. */
static void look_at_registers(const uint64_t *was)
{
    static const unsigned apart[] = {SSTATUS, SIE, STVEC, SATP, SIP};
    uint64_t is[5];
    for (unsigned i = 0; i < 5; i++)
        is[i] = csr_read(apart[i]);
    csr_write(SSTATUS, 2ul << 32 | FLOATS_AND_VECTORS);
    csr_write(STVEC, (uint64_t)handler);
    csr_write(SATP, 0);
    __asm__ volatile("sfence.vma" ::: "memory");
    for (unsigned i = 0; i < 4; i++)
        if (was[i] != is[i])
            differs("register", apart[i], was[i], is[i]);
    /* The timer's may have come. */
    if ((was[4] ^ is[4]) & ~(1ul << 5))
        differs("register", SIP, was[4], is[4]);
    for (unsigned i = 0; i < count; i++)
        if (csr_read(numbers[i]) != left[i])
            differs("register", numbers[i], left[i], csr_read(numbers[i]));
    csr_write(SIE, 0);
    csr_write(SIP, 0);
}

/* An `ecall` and a return by x27, somewhere in a mebibyte. */
static uint64_t stub(void)
{
    static const uint16_t code[] = {0x0073, 0x0000, 0x8d82};
    uint64_t at = STUBS + (chance() & 0xffffe);
    for (unsigned i = 0; i < 3; i++)
        ((uint16_t *)at)[i] = code[i];
    __asm__ volatile("fence.i" ::: "memory");
    return at;
}

static struct pmpmon_answer enter(uint64_t function, uint64_t id)
{
    static const unsigned apart[] = {SSTATUS, SIE, STVEC, SATP, SIP};
    uint64_t before[32], after[32], was[5];
    pmpmon_call(TIME, 0, row < ALONE || chance() % 3 ? ~0ul : READ(time) + chance() % 2000, 0, 0, 0, 0, 0);
    for (unsigned n = 1; n < 32; n++)
        before[n] = word();
    before[10] = id;
    before[16] = function;
    before[17] = PMPMON_EXTENSION;
    before[27] = stub();
    memcpy(after, before, sizeof after);
    if (row < ALONE)
        leave_one();
    else
        leave_everything();
    for (unsigned i = 0; i < count; i++)
        left[i] = csr_read(numbers[i]);
    csr_write(SSTATUS, left_status);
    for (unsigned i = 0; i < 5; i++)
        was[i] = csr_read(apart[i]);
    guests += is_found(HIE) && (csr_read(HIE) & csr_read(0x644)) != 0;
    call_with(after);
    look_at_registers(was);
    look_at_integers(before, after);
    return (struct pmpmon_answer){(int64_t)after[10], after[11]};
}

static int64_t one_run(void)
{
    memset((void *)PRIVATE, 0, 2 * PAGE);
    memcpy((void *)PRIVATE, enclave, (size_t)(enclave_end - enclave));
    uint64_t id = pmpmon_create(PRIVATE, 1, 1, 0, 0, 0).value;
    struct pmpmon_answer back = enter(RUN, id);
    unsigned own = 0, rounds = 0;
    for (; back.error == PMPMON_STOPPED && rounds < MOST_ROUNDS; rounds++) {
        uint64_t cause = pmpmon_stop_cause().value;
        own += cause == CAUSE_CALL_OF_USER;
        interrupted += cause >> 63;
        if (cause != CAUSE_CALL_OF_USER && !(cause >> 63))
            differs("the enclave trapped in run", rounds, cause, pmpmon_stop_value().value);
        back = enter(RESUME, id);
    }
    if (back.error || back.value != RESULT || own != 3)
        differs("the enclave's result, after its stops:", own, (uint64_t)back.error, back.value);
    pmpmon_destroy(id);
    return (int64_t)back.value;
}

static void leave_each_alone(void)
{
    for (row = 0; row < ALONE; row++) {
        put("with ");
        put(alone[row]);
        put(": ");
        put_number(one_run());
        put(", interrupted ");
        put_number((int64_t)interrupted);
        put("\n");
    }
    with_table = guests = 0;
}

void host_main(void)
{
    find_registers();
    leave_each_alone();
    for (unsigned run = 0; run < RUNS; run++)
        one_run();
    put("interrupted ");
    put_number((int64_t)interrupted);
    put(", with a table ");
    put_number((int64_t)with_table);
    put(", with a guest's interrupt ");
    put_number((int64_t)guests);
    put("\nwrong ");
    put_number((int64_t)wrong);
    put("\n");
    pmpmon_call(SRST, 0, 0, 0, 0, 0, 0, 0);
}
