/*
 * A secret that only the enclave ever wrote, and what is left of it after a reset, which comes as KIND says. The enclave runs on
 * the last hart while hart 0 asks for it.
 */
#include "harts.h"

enum { COLD = 1, WARM, SHUTDOWN, FINISHER, WAITS };
#define FINISHER_AT ((uint64_t *)0x100000ul)
#define MARK (*(volatile uint64_t *)0x86000000ul)
#define WAS_HERE 0x1234567890abcdeful

static struct pmpmon_answer made;
static volatile uint64_t has_run;

static void run(uint64_t hart)
{
    (void)hart;
    pmpmon_run(made.value);
    has_run = 1;
    for (;;)
        pmpmon_resume(made.value);
}

static void end(void)
{
    switch (KIND) {
    case FINISHER:
        say("the finisher: fault", (uint64_t)store_at(FINISHER_AT, 0x7777));
        pmpmon_call(RESET, 0, 1, 0, 0, 0, 0, 0);
        break;
    case COLD:
    case WARM:
        pmpmon_call(RESET, 0, KIND, 0, 0, 0, 0, 0);
        break;
    case SHUTDOWN:
        off();
        break;
    default:
        put("it waits\n");
    }
    for (;;)
        pmpmon_resume(0); /* refused */
}

void host_main(void)
{
    uint64_t value = 0;
    if (MARK == WAS_HERE) {
        MARK = 0;
        say("after it: fault", (uint64_t)load_at((uint64_t *)(BASE + PAGE), &value));
        say("the secret", value);
        off();
    }
    made = make(BASE);
    say("create", (uint64_t)made.error);
    if (HARTS == 1)
        say("run", (uint64_t)pmpmon_run(made.value).error);
    else
        start(HARTS - 1, run);
    while (HARTS > 1 && !has_run)
        ;
    for (uint64_t until = time() + 200000; time() < until;) /* 20 ms */
        ;
    say("before it: fault", (uint64_t)load_at((uint64_t *)(BASE + PAGE), &value));
    MARK = WAS_HERE;
    end();
}
