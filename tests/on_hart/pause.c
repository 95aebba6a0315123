/*
 * How many instructions a creation and a destruction of KIND pages take, a call of SBI's base, one for a word of a digest, and an
 * enclave that is resumed and stops itself at once, which is two switches: with -icount of QEMU a tick of the time is 100.
 */
#include "harts.h"

#define SBI_BASE 0x10ul
#define CALLS 1000

void host_main(void)
{
    uint64_t before, made_in;
    struct pmpmon_answer made;
    memset((void *)BASE, 1, KIND * PAGE);
    before = time();
    made = pmpmon_create(BASE, KIND, 0, 0, 0, 0);
    made_in = time() - before;
    before = time();
    pmpmon_destroy(made.value);
    say("error", (uint64_t)made.error);
    say("create", 100 * made_in);
    say("destroy", 100 * (time() - before));
    before = time();
    for (unsigned i = 0; i < CALLS; i++)
        pmpmon_call(SBI_BASE, 0, 0, 0, 0, 0, 0, 0);
    say("base", 100 * (time() - before) / CALLS);
    made = make(BASE);
    pmpmon_run(made.value);
    before = time();
    for (unsigned i = 0; i < CALLS; i++)
        pmpmon_measure(made.value, 0);
    say("measure", 100 * (time() - before) / CALLS);
    before = time();
    for (unsigned i = 0; i < CALLS; i++)
        pmpmon_resume(made.value);
    say("resume", 100 * (time() - before) / CALLS);
    off();
}
