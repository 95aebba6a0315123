/* A fence of a hart whose interrupts do not come: the call ends all the same, and the host goes on. */
#include "harts.h"

static volatile uint64_t runs;

static void run(uint64_t hart)
{
    runs = hart;
    for (;;)
        ;
}

void host_main(void)
{
    start(1, run);
    while (!runs)
        ;
    say("its own fence", (uint64_t)pmpmon_call(RFENCE, 1, 1, 0, 0, 0, 0, 0).error);
    say("that of the other hart", (uint64_t)pmpmon_call(RFENCE, 1, 2, 0, 0, 0, 0, 0).error);
    off();
}
