/* Calls that are refused, each by its name: the same on Linux and on a hart. */
#include "refusals.h"
#include "pmpmon.h"

#define RAM 0x80000000u
#define UNTOUCHED 0x5a5a5a5a5a5a5a5au

struct bad_setting {
    struct pmpmon_setting setting;
    int64_t result;
};

/* The fault that comes first is named where there are several. */
static const struct bad_setting bad_settings[] = {
    {{RAM + 1, 4096, PMPMON_R}, PMPMON_UNALIGNED_BASE},
    {{RAM + 1, 1, 2}, PMPMON_UNALIGNED_BASE},
    {{RAM, 4097, PMPMON_R}, PMPMON_UNALIGNED_SIZE},
    {{RAM, 4095, 8}, PMPMON_UNALIGNED_SIZE},
    {{RAM, 4096, 2}, PMPMON_UNKNOWN_PERM},
    {{RAM, 4096, 6}, PMPMON_UNKNOWN_PERM},
    {{RAM, 4096, 8}, PMPMON_UNKNOWN_PERM},
    {{RAM, 4096, 0x100000001}, PMPMON_UNKNOWN_PERM},
    {{(uint64_t)1 << 56, 4096, 2}, PMPMON_UNKNOWN_PERM},
    {{(uint64_t)1 << 56, 4096, PMPMON_R}, PMPMON_PAST_END},
    {{0xfffffffffffff000, 0x1000, PMPMON_RWX}, PMPMON_PAST_END},
    {{0x1000, 0xfffffffffffff000, PMPMON_RWX}, PMPMON_PAST_END},
};

struct bad_registers {
    uint64_t cfg, addr;
    int64_t result;
};

static const struct bad_registers bad_registers[] = {
    {0x02, 0, PMPMON_RESERVED_PERM},  {0x0a, 0, PMPMON_RESERVED_PERM}, {0x0f, RAM >> 2, PMPMON_TOR},  {0x8f, 0, PMPMON_TOR},
    {0x9f, RAM >> 2, PMPMON_LOCKED}, {0x80, 0, PMPMON_LOCKED},        {0x20, 0, PMPMON_RESERVED_BITS}, {0x40, 0, PMPMON_RESERVED_BITS},
    {0x1f, (uint64_t)1 << 54, PMPMON_ADDRESS_BITS},
};

static const struct pmpmon_access bad_accesses[] = {
    {2, PMPMON_LOAD, 8, RAM},
    {PMPMON_USER, 3, 8, RAM},
    {PMPMON_USER, 0, 8, RAM},
    {PMPMON_USER, PMPMON_FETCH, 8, RAM},
    {PMPMON_USER, PMPMON_FETCH, 1, RAM},
    {PMPMON_USER, PMPMON_LOAD, 3, RAM},
    {PMPMON_USER, PMPMON_LOAD, 16, RAM},
    {PMPMON_USER, PMPMON_LOAD, 0x108, RAM},
    {(uint64_t)1 << 32, PMPMON_LOAD, 8, RAM},
};

#define COUNT(array) (sizeof(array) / sizeof *(array))
const unsigned refusals_count = 3 * COUNT(bad_settings) + 2 * COUNT(bad_registers) + COUNT(bad_accesses) + 2;

static struct pmpmon_registers registers;

static void mark(void)
{
    for (int i = 0; i < 64; i++)
        registers.addr[i] = registers.cfg[i / 8] = UNTOUCHED;
}

static int is_marked(void)
{
    int same = 1;
    for (int i = 0; i < 64; i++)
        same = same && registers.addr[i] == UNTOUCHED && registers.cfg[i / 8] == UNTOUCHED;
    return same;
}

static unsigned settings_wrong(const struct bad_setting *bad)
{
    struct pmpmon_setting settings[4] = {{RAM, 0x200000, PMPMON_RWX}, {RAM, 0x1000, PMPMON_NONE}, bad->setting, {1, 1, 1}};
    const uint8_t nothing[1] = {0};
    uint64_t planned = 77, needed = 77, checked = 77;
    mark();
    unsigned wrong = pmpmon_plan(settings, 4, 16, &registers, &planned) != bad->result || planned != 2 || !is_marked();
    wrong += pmpmon_needed(settings, 4, &needed) != bad->result || needed != 2;
    wrong += pmpmon_check(settings, 4, nothing, 0, &checked) != bad->result || checked != 2;
    return wrong;
}

/* A fault in the last pair is told on a hart that has it, and is not looked at on one that has one entry less. */
static unsigned registers_wrong(const struct bad_registers *bad)
{
    struct pmpmon_access access = {PMPMON_SUPERVISOR, PMPMON_LOAD, 8, RAM};
    for (int i = 0; i < 64; i++)
        registers.addr[i] = registers.cfg[i / 8] = 0;
    registers.cfg[1] = bad->cfg << 56;
    registers.addr[15] = bad->addr;
    unsigned wrong = pmpmon_judge(&registers, 16, &access) != bad->result;
    wrong += pmpmon_judge(&registers, 15, &access) != PMPMON_LOAD_FAULT;
    return wrong;
}

/* Three entries do not fit two: the number is told, and the registers stay. */
static unsigned room_wrong(void)
{
    const struct pmpmon_setting settings[] = {{RAM, 0x7000, PMPMON_RWX}, {RAM + 0x1000, 0x1000, PMPMON_R}};
    uint64_t place = 77;
    mark();
    int64_t needed = pmpmon_needed(settings, 2, &place);
    unsigned wrong = needed < 2 || pmpmon_plan(settings, 2, (uint64_t)needed - 1, &registers, &place) != needed || !is_marked() || place != 77;
    wrong += pmpmon_plan(settings, 2, (uint64_t)needed, &registers, &place) != needed || is_marked() || place != 77;
    return wrong;
}

unsigned refusals_wrong(void)
{
    unsigned wrong = room_wrong();
    for (unsigned i = 0; i < COUNT(bad_settings); i++)
        wrong += settings_wrong(&bad_settings[i]);
    for (unsigned i = 0; i < COUNT(bad_registers); i++)
        wrong += registers_wrong(&bad_registers[i]);
    for (int i = 0; i < 64; i++)
        registers.addr[i] = registers.cfg[i / 8] = 0;
    for (unsigned i = 0; i < COUNT(bad_accesses); i++)
        wrong += pmpmon_judge(&registers, 16, &bad_accesses[i]) != PMPMON_UNKNOWN_ACCESS;
    return wrong;
}
