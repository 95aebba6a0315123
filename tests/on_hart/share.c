/*
 * An enclave on hart 0 computes, or makes a call that is refused, for ever; its host stops it by the timer each 10 ms and resumes
 * it. How much hart 1 counts meanwhile is said for each.
 */
#include "harts.h"

enum { COMPUTES = 0xff };
static const uint64_t kinds[] = {COMPUTES, PMPMON_MEASURE, PMPMON_CREATE, PMPMON_DESTROY};
static volatile uint64_t counted;

static void count(uint64_t hart)
{
    (void)hart;
    for (;;) {
        for (int i = 0; i < 1000; i++)
            __asm__ volatile("");
        counted++;
    }
}

static void run(uint64_t kind)
{
    struct pmpmon_answer made, back = {0, 0};
    uint64_t slices = 0, before, end;
    memset((void *)BASE, 0, 2 * PAGE);
    memcpy((void *)BASE, enclave, (size_t)(enclave_end - enclave));
    *(volatile uint64_t *)(BASE + PAGE) = kind;
    made = pmpmon_create(BASE, 1, 1, 0, 0, 0);
    before = counted;
    for (end = time() + 5000000; time() < end; slices++) { /* half a second */
        SET(sie, 1ul << 5);
        pmpmon_call(TIME, 0, time() + 100000, 0, 0, 0, 0, 0);
        back = slices ? pmpmon_resume(made.value) : pmpmon_run(made.value);
        SET(sstatus, 2);
        CLEAR(sstatus, 2);
    }
    put("call ");
    put_number((int64_t)kind);
    say(": counted", counted - before);
    if (back.error != PMPMON_STOPPED)
        say("odd", (uint64_t)back.error);
    pmpmon_destroy(made.value);
}

void host_main(void)
{
    start(1, count);
    while (!counted)
        ;
    for (unsigned i = 0; i < sizeof kinds / sizeof kinds[0]; i++)
        run(kinds[i]);
    off();
}
