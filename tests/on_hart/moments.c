/*
 * Hart 1 writes a word of a page without end while hart 0 makes an enclave of it. The enclave exits with the word that it has, and
 * its digest has to be that of its bytes with this word.
 */
#include "harts.h"

#define ROUNDS 40
static volatile uint64_t is_going, is_there;
volatile uint64_t tries, writes; /* a debugger looks at them */
#define WORD (*(volatile uint64_t *)(BASE + PAGE))

static void write(uint64_t hart)
{
    (void)hart;
    for (uint64_t i = 0;; i++) {
        is_there = 1;
        if (is_going) {
            writes += store_at((uint64_t *)(BASE + PAGE), i & 1) == 0;
            tries++;
        }
    }
}

static uint64_t digest_of(uint64_t id)
{
    return pmpmon_measure(id, 0).value;
}

/* Makes one with a word that nobody changes. */
static uint64_t quiet(uint64_t word)
{
    memset((void *)BASE, 0, 2 * PAGE);
    memcpy((void *)BASE, enclave, (size_t)(enclave_end - enclave));
    WORD = word;
    uint64_t id = pmpmon_create(BASE, 1, 1, 0, 0, 0).value, digest = digest_of(id);
    pmpmon_destroy(id);
    return digest;
}

void host_main(void)
{
    uint64_t digests[2] = {quiet(0), quiet(1)}, seen[2] = {0, 0}, wrong = 0;
    start(1, write);
    while (!is_there)
        ;
    for (unsigned i = 0; i < ROUNDS; i++) {
        memset((void *)BASE, 0, 2 * PAGE);
        memcpy((void *)BASE, enclave, (size_t)(enclave_end - enclave));
        is_going = 1;
        for (uint64_t until = time() + 10 * (i % 7 + 1); time() < until;)
            ;
        struct pmpmon_answer made = pmpmon_create(BASE, 1, 1, 0, 0, 0);
        is_going = 0;
        uint64_t digest = digest_of(made.value);
        struct pmpmon_answer back = pmpmon_run(made.value);
        wrong += made.error || back.error || back.value > 1 || digest != digests[back.value & 1];
        seen[back.value & 1]++;
        pmpmon_destroy(made.value);
    }
    say("differ", digests[0] != digests[1]);
    say("zeros", seen[0]);
    say("ones", seen[1]);
    say("wrong", wrong);
    off();
}
