/* Each trap whose instructions costs.py counts, in the order that it knows. */
#include "harts.h"

#define SBI_BASE 0x10ul
#define SOON 8 /* ticks of 100 instructions: the timer comes before the enclave has counted */

static void timer_in(uint64_t ticks)
{
    SET(sie, 1ul << 5);
    pmpmon_call(TIME, 0, time() + ticks, 0, 0, 0, 0, 0);
}

void host_main(void)
{
    struct pmpmon_answer made = make(BASE);
    pmpmon_run(made.value);
    pmpmon_resume(made.value);
    pmpmon_measure(made.value, 0);
    pmpmon_call(SBI_BASE, 0, 0, 0, 0, 0, 0, 0);
    timer_in(SOON);
    pmpmon_resume(made.value);
    timer_in(1ul << 40);
    pmpmon_resume(made.value);
    pmpmon_destroy(made.value);
    off();
}
