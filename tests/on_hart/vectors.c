/* A host with numbers in vector registers, and an enclave that reads them: it stops, and the host's stay. */
#include "harts.h"

void set_vectors(void);
uint64_t same_vectors(void);

void host_main(void)
{
    SET(sstatus, 3ul << 9); /* VS Dirty */
    set_vectors();
    struct pmpmon_answer made = make(BASE), back = pmpmon_run(made.value);
    say("run", (uint64_t)back.error);
    say("what it exits with", back.value);
    say("the cause", pmpmon_stop_cause().value);
    say("the host's", same_vectors());
    say("VS", READ(sstatus) >> 9 & 3);
    off();
}
