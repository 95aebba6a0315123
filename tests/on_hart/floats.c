/*
 * A host on two harts and two enclaves compute in floating point, each a series of its own in a rounding mode of its own, under a
 * timer. Each hart enters either enclave, so their sets go from hart to hart; the host's series goes on between its calls, with FS
 * hidden before some. What each comes to is what it comes to alone. An enclave that is made in the place of another begins with
 * zeros, and so does each hart.
 */
#include "harts.h"

#define FLOATS (3ul << 13) /* FS of sstatus */
#define ENCLAVES 2
#define LIVES 12
#define ROUNDS 300
#define PLACE(enclave) (BASE + (enclave) * 0x10000)

void series_begin(uint64_t seed, uint64_t fcsr);
void series_round(void);
uint64_t series_any(void);
uint64_t series_sum(void);

/* Of each enclave: who has it, whether it is made and was entered, its id, and what its lives came to. */
static struct {
    volatile uint32_t lock;
    uint8_t is_made, is_entered;
    uint64_t id, lives, came_to[LIVES], harts[LIVES];
} enclaves[ENCLAVES];

/* Of each hart: its turns, what its series came to, and what it found of its own otherwise than it was. */
static volatile uint64_t turns[2], came_to[2], wrong[2], stops[2], is_done[2];

static uint64_t seed_of(uint64_t who, uint64_t life)
{
    return 1 + 1000 * life + 77 * who;
}

/* Each rounding mode, and flags that nobody raises. */
static uint64_t fcsr_of(uint64_t who, uint64_t life)
{
    return (life + 2 * who) % 5 << 5 | (7 * life & 0x1e);
}

static uint64_t result_of(uint64_t who, uint64_t life, uint64_t rounds)
{
    series_begin(seed_of(who, life), fcsr_of(who, life));
    for (; rounds; rounds--)
        series_round();
    return series_sum();
}

static void create(unsigned it)
{
    uint64_t *words = (uint64_t *)(PLACE(it) + PAGE);
    memset((void *)PLACE(it), 0, 2 * PAGE);
    memcpy((void *)PLACE(it), enclave, (size_t)(enclave_end - enclave));
    words[0] = seed_of(it, enclaves[it].lives);
    words[1] = fcsr_of(it, enclaves[it].lives);
    words[2] = ROUNDS;
    enclaves[it].id = pmpmon_create(PLACE(it), 1, 1, 0, 0, 0).value;
    enclaves[it].is_made = 1;
    enclaves[it].is_entered = 0;
}

/* FS is Dirty, Clean, Initial or Off before the call, and the same after it. */
static struct pmpmon_answer enter(unsigned hart, unsigned it)
{
    uint64_t status = turns[hart] % 4 << 13;
    struct pmpmon_answer back;
    pmpmon_call(TIME, 0, time() + 300 + turns[hart] * 97 % 3000, 0, 0, 0, 0, 0);
    CLEAR(sstatus, FLOATS);
    SET(sstatus, status);
    back = enclaves[it].is_entered ? pmpmon_resume(enclaves[it].id) : pmpmon_run(enclaves[it].id);
    wrong[hart] += (READ(sstatus) & FLOATS) != status;
    SET(sstatus, FLOATS);
    enclaves[it].is_entered = 1;
    enclaves[it].harts[enclaves[it].lives] |= 1ul << hart;
    return back;
}

static void go_on(unsigned hart, unsigned it)
{
    struct pmpmon_answer back;
    if (enclaves[it].lives == LIVES)
        return;
    if (!enclaves[it].is_made)
        create(it);
    back = enter(hart, it);
    if (back.error == PMPMON_STOPPED) {
        stops[hart]++;
        return;
    }
    wrong[hart] += back.error != 0;
    enclaves[it].came_to[enclaves[it].lives++] = back.value;
    enclaves[it].is_made = 0;
    wrong[hart] += pmpmon_destroy(enclaves[it].id).error != 0;
}

/* It waits for an enclave that the other hart has, and goes to the other enclave after it: so both go from hart to hart. */
static void one_turn(unsigned hart)
{
    unsigned it = (unsigned)(turns[hart] + hart) % ENCLAVES;
    while (__atomic_exchange_n(&enclaves[it].lock, 1, __ATOMIC_ACQUIRE))
        ;
    go_on(hart, it);
    __atomic_store_n(&enclaves[it].lock, 0, __ATOMIC_RELEASE);
    series_round();
    turns[hart]++;
}

static int are_over(void)
{
    for (unsigned it = 0; it < ENCLAVES; it++)
        if (*(volatile uint64_t *)&enclaves[it].lives < LIVES)
            return 0;
    return 1;
}

/* No interrupt is taken here: each that is let in stops an enclave alone. */
static void compute(uint64_t hart)
{
    SET(sstatus, FLOATS);
    WRITE(sie, 1ul << 5);
    wrong[hart] += series_any() != 0;
    series_begin(seed_of(10 + hart, 0), fcsr_of(hart, 3));
    while (!are_over())
        one_turn((unsigned)hart);
    came_to[hart] = series_sum();
    is_done[hart] = 1;
}

static void compute_and_wait(uint64_t hart)
{
    compute(hart);
    for (;;)
        ;
}

static void look(void)
{
    uint64_t others = 0, wandered = 0;
    for (unsigned it = 0; it < ENCLAVES; it++)
        for (unsigned life = 0; life < LIVES; life++) {
            others += enclaves[it].came_to[life] != result_of(it, life, ROUNDS);
            wandered += enclaves[it].harts[life] == 3;
        }
    say("enclaves were on both harts", wandered > 0);
    say("stopped more than 200 times", stops[0] + stops[1] > 200);
    say("enclaves came to others", others);
    others = 0;
    for (unsigned hart = 0; hart < 2; hart++) {
        series_begin(seed_of(10 + hart, 0), fcsr_of(hart, 3));
        for (uint64_t i = 0; i < turns[hart]; i++)
            series_round();
        others += series_sum() != came_to[hart];
    }
    say("hosts came to others", others);
    say("wrong", wrong[0] + wrong[1]);
}

void host_main(void)
{
    start(1, compute_and_wait);
    compute(0);
    while (!is_done[1])
        ;
    look();
    off();
}
