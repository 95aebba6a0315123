/*
 * Four harts of a host. A fence that is asked of one hart, or of all, comes to each of them, and so does one that a hart asks of itself:
 * it then reads a page through the entry that was put in place before. A hart that was stopped starts without a table of pages. An
 * interrupt that was sent to a hart before it started is gone, and a later one comes.
 */
#include "harts.h"

#define HARTS 4
#define GIGABYTE 0x40000000ul
#define LEAF 0xcful /* V, R, W, X, A, D */
#define SV39_MODE (8ul << 60)
#define OTHER (BASE + 0x200000)
#define WINDOW (5 * GIGABYTE)
static uint64_t table[512] __attribute__((aligned(4096))), megapages[512] __attribute__((aligned(4096)));
static volatile uint64_t turns[HARTS], seen[HARTS], was_satp[HARTS], was_sip[HARTS], is_there[HARTS], was_sent[HARTS];

static void with_table(void)
{
    WRITE(satp, SV39_MODE | (uint64_t)table >> 12);
    __asm__ volatile("sfence.vma" ::: "memory");
}

static void watch(uint64_t hart)
{
    with_table();
    for (;;) {
        seen[hart] = *(volatile uint64_t *)WINDOW;
        turns[hart]++;
    }
}

static void stop(uint64_t hart)
{
    was_satp[hart] = READ(satp);
    was_sip[hart] = READ(sip) & 2;
    is_there[hart]++;
    __asm__ volatile("fence" ::: "memory");
    while (was_sent[hart] < is_there[hart])
        ;
    for (uint64_t until = time() + 10000000; time() < until && !(READ(sip) & 2);)
        ;
    was_sip[hart] |= (READ(sip) & 2) << 1;
    with_table();
    pmpmon_call(HSM, 1, 0, 0, 0, 0, 0, 0);
}

static void show(uint64_t page)
{
    megapages[0] = page >> 2 | LEAF;
    __asm__ volatile("fence" ::: "memory");
}

/* Whether each hart of a set reads the page soon. */
static uint64_t old_reads(uint64_t set, uint64_t want)
{
    uint64_t wrong = 0;
    for (uint64_t hart = 1; hart < HARTS; hart++)
        if (set >> hart & 1) {
            for (uint64_t until = turns[hart] + 2; turns[hart] < until;)
                ;
            wrong += seen[hart] != want;
        }
    return wrong;
}

static void fences(void)
{
    static const uint64_t sets[] = {2, 4, 8, 14, 6, 12, 10, 15};
    uint64_t wrong = 0;
    for (uint64_t hart = 1; hart < HARTS; hart++)
        start(hart, watch);
    old_reads(14, 1);
    for (unsigned round = 0; round < 40; round++) {
        uint64_t set = sets[round % 8], is_other = round & 1;
        show(is_other ? OTHER : BASE);
        wrong += pmpmon_call(RFENCE, 1, 14, 0, 0, ~0ul, 0, 0).error != 0 || old_reads(14, 1 + is_other);
        show(is_other ? BASE : OTHER);
        wrong += pmpmon_call(RFENCE, 1, set >> 1, 1, 0, ~0ul, 0, 0).error != 0 || old_reads(set & 14, 2 - is_other);
    }
    say("fences that did not come", wrong);
}

/* A fence that a hart asks of itself, alone and with others. */
static void own_fences(void)
{
    uint64_t wrong = 0;
    with_table();
    for (unsigned round = 0; round < 8; round++) {
        uint64_t is_other = round & 1;
        show(is_other ? OTHER : BASE);
        wrong += pmpmon_call(RFENCE, 1, round & 2 ? 15 : 1, 0, 0, ~0ul, 0, 0).error != 0 || *(volatile uint64_t *)WINDOW != 1 + is_other;
    }
    WRITE(satp, 0);
    say("own fences that did not come", wrong);
}

static void interrupts(void)
{
    say("to harts that are not started", (uint64_t)pmpmon_call(IPI, 0, 14, 0, 0, 0, 0, 0).error);
    for (uint64_t round = 1; round <= 2; round++)
        for (uint64_t hart = 1; hart < HARTS; hart++) {
            start(hart, stop);
            while (is_there[hart] < round)
                ;
            pmpmon_call(IPI, 0, 1, hart, 0, 0, 0, 0);
            was_sent[hart] = round;
            while (pmpmon_call(HSM, 2, hart, 0, 0, 0, 0, 0).value != 1)
                ;
            pmpmon_call(IPI, 0, 1, hart, 0, 0, 0, 0);
            put("hart ");
            put_number((int64_t)hart);
            say(": its table, and what waited", was_satp[hart] * 10 + was_sip[hart]);
        }
}

/* A page that became an enclave's while a hart was stopped. */
#define CLOSED (BASE + 0x400000)
static volatile uint64_t closed_cause;

static void look(uint64_t hart)
{
    uint64_t value;
    (void)hart;
    closed_cause = 100 + (uint64_t)load_at((uint64_t *)CLOSED, &value);
    pmpmon_call(HSM, 1, 0, 0, 0, 0, 0, 0);
}

static void closed(void)
{
    make(CLOSED);
    start(1, look);
    while (!closed_cause)
        ;
    say("a page that was closed meanwhile: fault", closed_cause - 100);
    while (pmpmon_call(HSM, 2, 1, 0, 0, 0, 0, 0).value != 1)
        ;
}

void host_main(void)
{
    table[0] = LEAF;
    table[2] = (2 * GIGABYTE) >> 2 | LEAF;
    table[5] = (uint64_t)megapages >> 2 | 1;
    *(volatile uint64_t *)BASE = 1;
    *(volatile uint64_t *)OTHER = 2;
    show(BASE);
    interrupts();
    closed();
    fences();
    own_fences();
    off();
}
