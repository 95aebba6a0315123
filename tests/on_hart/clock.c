/* An enclave reads the time where its host lets its own programs read it, and no other counter. */
#include "harts.h"

enum { TIME_OF_ALL, CYCLES, INSTRUCTIONS };
static const struct {
    const char *name;
    uint64_t counter, scounteren;
} rows[] = {
    {"time, let in", TIME_OF_ALL, 2},   {"time, let in with all", TIME_OF_ALL, 7},
    {"time, kept out", TIME_OF_ALL, 0}, {"time, kept out alone", TIME_OF_ALL, 5},
    {"cycles, let in", CYCLES, 7},      {"instructions, let in", INSTRUCTIONS, 7},
};

static void read(unsigned row)
{
    struct pmpmon_answer made, back;
    uint64_t before = time();
    memset((void *)BASE, 0, 2 * PAGE);
    memcpy((void *)BASE, enclave, (size_t)(enclave_end - enclave));
    *(volatile uint64_t *)(BASE + PAGE) = rows[row].counter;
    made = pmpmon_create(BASE, 1, 1, 0, 0, 0);
    WRITE(scounteren, rows[row].scounteren);
    back = pmpmon_run(made.value);
    put(rows[row].name);
    if (back.error)
        say(": cause", pmpmon_stop_cause().value);
    else
        say(": it is now", before <= back.value && back.value <= time());
    pmpmon_destroy(made.value);
}

void host_main(void)
{
    for (unsigned row = 0; row < sizeof rows / sizeof rows[0]; row++)
        read(row);
    off();
}
