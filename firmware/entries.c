/* Tests a hart's entries before it runs a world. An entry that is missing, locked by an earlier stage, or without some address bits
   would make permissions differ from the plan. */
#include "board.h"

#define LOWEST_PAGE 0x1fful
#define CLOSED 0x1818181818181818ul /* NAPOT, without and with all permissions */
#define OPEN 0x1f1f1f1f1f1f1f1ful

/* Returns all bits of an address register that the platform's addresses need. */
static uint64_t highest(void)
{
    uint64_t end = 0, bits = LOWEST_PAGE;
    for (uint64_t i = 0; i < platform->ram_count; i++)
        end |= platform->ram[i].base + platform->ram[i].size - 1;
    for (uint64_t i = 0; i < platform->device_count; i++)
        end |= platform->device[i].base + platform->device[i].size - 1;
    while (bits < end >> 2)
        bits = bits << 1 | 1;
    return bits;
}

/* Tests each bit of each register with both values. */
static int are_there(void)
{
    static struct bank given = {.used = ENTRIES}, got;
    uint64_t all = highest();
    if (!IS_THERE(0x3b0 + ENTRIES - 1))
        return 0;
    for (unsigned round = 0; round < 2; round++) {
        for (unsigned i = 0; i < ENTRIES; i++) {
            given.addr[i] = i % 2 == round ? all : LOWEST_PAGE;
            given.cfg[i / 8] = round ? OPEN : CLOSED;
        }
        load_bank(&given);
        read_bank(&got);
        if (differ(got.cfg, given.cfg, ENTRIES / 8) || differ(got.addr, given.addr, ENTRIES))
            return 0;
    }
    return !clear_beyond();
}

/* Bits of mseccfg (Smepmp): rules for machine mode itself, and permission to change locked entries. The others enable the entropy source. */
#define MML_MMWP_RLB 7ul
static void check_rules(void)
{
    if (!IS_THERE(0x747))
        return;
    if (READ(0x747) & MML_MMWP_RLB)
        end_because("an earlier stage has set MML, MMWP or RLB in mseccfg: hart ", this_hart());
    WRITE(0x747, 0);
}

void check_entries(void)
{
    check_rules();
    if (!are_there())
        end_because("the entries of a hart are not those of the platform: hart ", this_hart());
}
