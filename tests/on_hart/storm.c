/*
 * Each hart does at random what may race: makes, runs, resumes and destroys an enclave of its own pages, sends interrupts and
 * fences to others, sets its timer, waits, and stops itself, whom hart 0 starts again. It says which hart stood still for two
 * seconds, how often a page was read while it was an enclave's or was not zero after it, and which answers were none that it may
 * have.
 */
#include "harts.h"

#define PAGE_OF(h) (BASE + (h) * 0x10000)
static volatile uint64_t turns[HARTS], made[HARTS], stopped[HARTS], wrong, odd;
static volatile uint8_t is_alive[HARTS], is_over;
static uint64_t seeds[HARTS] = {11, 22, 33, 44}, ids[HARTS];
static uint8_t is_entered[HARTS];

static uint64_t next(uint64_t *seed)
{
    *seed ^= *seed << 13;
    *seed ^= *seed >> 7;
    return *seed ^= *seed << 17;
}

static int is_read(uint64_t hart)
{
    uint64_t value;
    return load_at((uint64_t *)PAGE_OF(hart), &value) == 0;
}

static void create(uint64_t hart)
{
    struct pmpmon_answer answer = make(PAGE_OF(hart));
    if (answer.error == PMPMON_NO_ENTRIES)
        return;
    odd += answer.error != 0;
    ids[hart] = answer.value;
    is_entered[hart] = 0;
    made[hart]++;
    __asm__ volatile("fence rw, rw" ::: "memory");
    is_alive[hart] = 1;
    wrong += is_read(hart) != 0;
}

static void enter(uint64_t hart)
{
    struct pmpmon_answer answer = is_entered[hart] ? pmpmon_resume(ids[hart]) : pmpmon_run(ids[hart]);
    is_entered[hart] = 1;
    odd += answer.error != PMPMON_STOPPED;
}

static void destroy(uint64_t hart)
{
    uint64_t value = 1;
    is_alive[hart] = 0;
    __asm__ volatile("fence rw, rw" ::: "memory");
    struct pmpmon_answer answer = pmpmon_destroy(ids[hart]);
    if (answer.error == PMPMON_NO_ENTRIES) {
        is_alive[hart] = 1;
        return;
    }
    odd += answer.error != 0;
    for (uint64_t at = PAGE_OF(hart); at < PAGE_OF(hart) + 2 * PAGE; at += 512)
        wrong += load_at((uint64_t *)at, &value) || value;
}

/* It may have been destroyed and made again meanwhile. */
static void look(uint64_t self)
{
    for (uint64_t hart = 0; hart < HARTS; hart++) {
        uint64_t number = made[hart];
        if (hart != self && is_alive[hart] && is_read(hart))
            wrong += is_alive[hart] && made[hart] == number;
    }
}

static void wait(uint64_t ticks)
{
    CLEAR(sie, 0x222);
    pmpmon_call(TIME, 0, time() + ticks, 0, 0, 0, 0, 0);
    SET(sie, 0x20);
    __asm__ volatile("wfi");
}

static void interrupts(uint64_t kind, uint64_t chance)
{
    switch (kind) {
    case 10:
        pmpmon_call(TIME, 0, time() + (chance >> 48 & 1023), 0, 0, 0, 0, 0);
        SET(sie, chance & 0x22);
        break;
    case 11:
        CLEAR(sie, chance & 0x22);
        SET(sstatus, 2);
        CLEAR(sstatus, 2);
        break;
    default:
        if (chance >> 50 & 1)
            wait(20000);
    }
}

static void one(uint64_t hart, uint64_t *seed)
{
    uint64_t chance = next(seed), kind = chance >> 8 & 15;
    turns[hart]++;
    switch (kind) {
    case 0 ... 1:
        if (!is_alive[hart])
            create(hart);
        break;
    case 2 ... 5:
        if (is_alive[hart])
            enter(hart);
        break;
    case 6:
        if (is_alive[hart])
            destroy(hart);
        break;
    case 7:
        odd += pmpmon_call(IPI, 0, chance >> 32 & ((1 << HARTS) - 1), 0, 0, 0, 0, 0).error != 0;
        break;
    case 8 ... 9:
        odd += pmpmon_call(RFENCE, chance >> 40 & 1, chance >> 32 & ((1 << HARTS) - 1), chance >> 41 & 1 ? ~0ul : 0, 0, 0x1000, 0, 0).error != 0;
        break;
    case 10 ... 11:
    case 13:
        interrupts(kind, chance);
        break;
    case 12:
        for (uint64_t other = 0; other < HARTS; other++)
            wrong += other != hart && pmpmon_call(HSM, 0, other, 0x80000000ul, 0, 0, 0, 0).error == 0;
        break;
    case 14:
        look(hart);
        break;
    default:
        if (hart && !(chance >> 33 & 7)) {
            stopped[hart]++;
            pmpmon_call(HSM, 1, 0, 0, 0, 0, 0, 0);
        }
    }
}

static void run(uint64_t hart)
{
    while (!is_over)
        one(hart, &seeds[hart]);
    for (;;)
        ;
}

/* The seconds of the storm are KIND. */
void host_main(void)
{
    uint64_t last[HARTS] = {0}, still[HARTS] = {0}, stood = 0;
    for (uint64_t second = 0; second < KIND; second++) {
        for (uint64_t end = time() + 10000000; time() < end;) {
            for (unsigned i = 0; i < 100; i++)
                one(0, &seeds[0]);
            for (uint64_t hart = 1; hart < HARTS; hart++)
                start(hart, run);
        }
        for (uint64_t hart = 0; hart < HARTS; hart++) {
            still[hart] = turns[hart] == last[hart] ? still[hart] + 1 : 0;
            last[hart] = turns[hart];
            stood += still[hart] == 2;
        }
    }
    is_over = 1;
    for (uint64_t hart = 0; hart < HARTS; hart++) {
        say("turns", turns[hart]);
        say("made", made[hart]);
        say("stopped", stopped[hart]);
    }
    say("stood still", stood);
    say("wrong", wrong);
    say("odd", odd);
    off();
}
