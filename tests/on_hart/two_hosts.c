/*
 * A host on two harts that enter two enclaves in turn and at once, each with other words in its control registers at each entry.
 * Each hart finds after each call what it wrote before, also where the call is refused since the other hart is in that enclave.
 * It begins as sbi_host.S has it.
 */
#include "board.h"
#include "pmpmon_calls.h"

#define HSM 0x48534dul
#define SRST 0x53525354ul
#define PRIVATE 0x85000000ul
#define TURNS 2000
#define WORDS 3
#define SUPERVISORS_ACCESS (1ul << 18 | 1ul << 19) /* SUM, MXR */

void second_entry(void);
extern const uint8_t enclave[], enclave_end[];

/* Of each hart: what was found otherwise than it was written, and how many calls came back from an enclave. */
static volatile uint64_t wrong[2], entered[2], is_done[2];

static void read_words(uint64_t *words)
{
    words[0] = READ(scounteren);
    words[1] = READ(sstatus) & SUPERVISORS_ACCESS;
    words[2] = READ(sie);
}

/* No interrupt waits for this host, so it lets in which it likes. */
static void write_words(uint64_t number)
{
    CLEAR(sstatus, SUPERVISORS_ACCESS);
    WRITE(scounteren, number & 7);
    SET(sstatus, (number & 3) << 18);
    WRITE(sie, (number & 1) << 1 | (number >> 1 & 1) << 5 | (number >> 2 & 1) << 9);
}

static void one_turn(unsigned hart, uint64_t turn)
{
    uint64_t before[WORDS], after[WORDS];
    write_words(turn + 5 * hart);
    read_words(before);
    entered[hart] += pmpmon_resume(1 + (turn + hart) % 2).error == PMPMON_STOPPED;
    read_words(after);
    for (unsigned i = 0; i < WORDS; i++)
        wrong[hart] += before[i] != after[i];
}

static void all_turns(unsigned hart)
{
    for (uint64_t turn = 0; turn < TURNS; turn++)
        one_turn(hart, turn);
    is_done[hart] = 1;
}

void second_main(void)
{
    all_turns(1);
    for (;;)
        ;
}

static void say(const char *what, uint64_t number)
{
    put(what);
    put(" ");
    put_number((int64_t)number);
    put("\n");
}

void host_main(void)
{
    for (unsigned i = 0; i < 2; i++) {
        memset((void *)(PRIVATE + i * PAGE), 0, PAGE);
        memcpy((void *)(PRIVATE + i * PAGE), enclave, (size_t)(enclave_end - enclave));
        pmpmon_run(pmpmon_create(PRIVATE + i * PAGE, 1, 0, 0, 0, 0).value);
    }
    pmpmon_call(HSM, 0, 1, (uint64_t)second_entry, 0, 0, 0, 0);
    all_turns(0);
    while (!is_done[1])
        ;
    say("both harts were in an enclave:", entered[0] > TURNS / 4 && entered[1] > TURNS / 4);
    say("wrong", wrong[0] + wrong[1]);
    pmpmon_call(SRST, 0, 0, 0, 0, 0, 0, 0);
}
