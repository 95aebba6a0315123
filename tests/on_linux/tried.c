/* An enclave that does what its host asks of it (tried.h). */
#include "pmpmon_enclave.h"
#include "tried.h"

#define SECRET 0x5ec2e75ec2e7ul

/* The secret is in its data, for a host that looks for it. */
static volatile uint64_t secret = SECRET;
static volatile uint64_t words[512];

uint64_t enclave_main(uint64_t id, volatile struct pmpmon_page *page)
{
    volatile uint64_t *asked = (volatile uint64_t *)pmpmon_buffer();
    uint64_t what = asked[0], at = asked[1], more = asked[2], value = id;
    (void)page;
    switch (what) {
    case READ:
        return *(volatile uint64_t *)at;
    case WRITE:
        *(volatile uint64_t *)at = 0;
        return 0;
    case JUMP:
        ((void (*)(void))at)();
        return 0;
    case FLOATS:
        return sum(at, more);
    case TIME:
        __asm__ volatile("rdtime %0" : "=r"(value));
        return value;
    case FOREVER:
        for (;;)
            ;
    case STOPS:
        for (;;)
            pmpmon_stop();
    case SAYS:
        for (;;)
            pmpmon_say("x");
    case WORK:
        value = work(words, at, more);
        return secret == SECRET ? value : 0;
    default:
        return value;
    }
}
