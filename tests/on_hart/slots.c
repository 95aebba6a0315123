/* As many enclaves as there are, side by side, each with the secret in its second page; those of a few numbers were made twice. */
#include "harts.h"

#define MARK (*(volatile uint64_t *)0x86000000ul)
#define WAS_HERE 0x1234567890abcdeful

static void run(uint64_t place)
{
    struct pmpmon_answer made = make(BASE + 2 * place * PAGE);
    if (made.error || made.value != place + 1 || pmpmon_run(made.value).error != PMPMON_STOPPED)
        say("wrong", place);
}

void host_main(void)
{
    if (MARK == WAS_HERE) {
        put("after it\n");
        off();
    }
    for (uint64_t place = 0; place < MOST_ENCLAVES; place++)
        run(place);
    for (uint64_t place = 3; place < MOST_ENCLAVES; place += 20) {
        pmpmon_destroy(place + 1);
        run(place);
    }
    MARK = WAS_HERE;
    put("it waits\n");
    for (;;)
        pmpmon_resume(0); /* refused */
}
