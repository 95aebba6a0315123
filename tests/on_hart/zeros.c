/* Hart 1 reads the last word of an enclave's 512 pages in a loop without a trap, while hart 0 destroys the enclave: what it reads first is
   zero already. */
#include "harts.h"

#define PAGES 512
#define LAST ((uint64_t *)(BASE + PAGES * PAGE - 8))
static volatile uint64_t turns, reads, others;

static void watch(uint64_t hart)
{
    (void)hart;
    for (;; turns++) {
        uint64_t value = 0;
        if (!load_at(LAST, &value)) {
            reads++;
            others += value != 0;
        }
    }
}

void host_main(void)
{
    for (unsigned round = 0; round < 4; round++) {
        for (uint64_t *at = (uint64_t *)BASE; at <= LAST; at++)
            *at = 1;
        uint64_t id = pmpmon_create(BASE, PAGES, 0, 0, 0, 0).value;
        if (!round)
            start(1, watch);
        for (uint64_t until = turns + 100; turns < until;)
            ;
        reads = others = 0;
        pmpmon_destroy(id);
        while (reads < 100)
            ;
        say("others than zero", others);
    }
    off();
}
