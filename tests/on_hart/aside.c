/*
 * What hart 2 notices of a call of hart 0: whether it was stopped, and for how many instructions it stood still at most. With -icount
 * shift=10 QEMU counts those of all harts: each takes 1,024 ns. The harts take turns of 100 ms of this time; hart 1 is parked, since
 * who comes after one that used all of its turn may get none.
 *
 * Hart 2 has a reservation meanwhile, which each trap to the monitor takes (sc.d in trap.S). KIND is the pages of the enclave.
 */
#include "harts.h"

#define SHARED ((volatile uint64_t *)0x86100000ul) /* the enclave has begun; it is to end */
static uint64_t reserved;
/* The calls by number: who has come how far. */
static volatile uint64_t begun, is_watching, over, is_told;
static volatile uint64_t enclave_id, was_stopped, most;

static uint64_t is_kept(void)
{
    uint64_t failed;
    __asm__ volatile("sc.d %0, zero, (%1)" : "=r"(failed) : "r"(&reserved) : "memory");
    return !failed;
}

static void watch_one(uint64_t number)
{
    uint64_t last = time(), now, longest = 0;
    __asm__ volatile("lr.d zero, (%0)" ::"r"(&reserved) : "memory");
    is_watching = number;
    while (over != number) {
        for (unsigned i = 0; i < 1000; i++)
            __asm__ volatile("");
        now = time();
        longest = now - last > longest ? now - last : longest;
        last = now;
    }
    was_stopped = !is_kept();
    most = longest * 100 / 1024;
}

static void watch(uint64_t hart)
{
    (void)hart;
    for (uint64_t number = 1;; number++) {
        while (begun != number)
            ;
        if (enclave_id)
            was_stopped = pmpmon_run(enclave_id).value;
        else
            watch_one(number);
        is_told = number;
    }
}

static void begin(void)
{
    begun++;
    while (is_watching != begun)
        ;
}

static void end(const char *what, int64_t error)
{
    over = begun;
    while (is_told != begun)
        ;
    put(what);
    put(": ");
    put_number(error);
    put(was_stopped ? ", stopped" : ", not stopped");
    say(", still", most);
}

#define WATCHED(what, call) (begin(), end(what, (call).error))

/* Enclaves of one page apart from one another, until no entries are left. Ids begin anew with the lowest that is free. */
static void without_entries(void)
{
    uint64_t at = BASE, count = 0;
    for (; pmpmon_create(at, 1, 0, 0, 0, 0).error == 0; at += 2 * PAGE)
        count++;
    WATCHED("create without entries", pmpmon_create(at, 1, 0, 0, 0, 0));
    while (count)
        pmpmon_destroy(count--);
}

/* Hart 2 is in an enclave while hart 0 makes another. */
static void in_enclave(void)
{
    memset((void *)BASE, 0, 2 * PAGE);
    memcpy((void *)BASE, enclave, (size_t)(enclave_end - enclave));
    enclave_id = pmpmon_create(BASE, 1, 1, (uint64_t)SHARED, 1, 0).value;
    begun++;
    while (!SHARED[0])
        ;
    pmpmon_destroy(pmpmon_create(BASE + 4 * PAGE, 1, 0, 0, 0, 0).value);
    SHARED[1] = 1;
    while (is_told != begun)
        ;
    say("in an enclave: stopped", was_stopped);
}

void host_main(void)
{
    memset((void *)BASE, 1, KIND * PAGE);
    start(2, watch);
    begin();
    for (uint64_t until = time() + 10000000; time() < until;) /* ten turns */
        ;
    end("no call", 0);
    WATCHED("create", pmpmon_create(BASE, KIND, 0, 0, 0, 0));
    WATCHED("create once more", pmpmon_create(BASE, 1, 0, 0, 0, 0));
    WATCHED("create without text", pmpmon_create(BASE - PAGE, 0, 1, 0, 0, 0));
    WATCHED("create off a page", pmpmon_create(BASE - 1, 1, 0, 0, 0, 0));
    WATCHED("create of a device", pmpmon_create(0x10000000, 1, 0, 0, 0, 0));
    WATCHED("measure a word that there is not", pmpmon_measure(1, 4));
    WATCHED("destroy none", pmpmon_destroy(2));
    WATCHED("destroy", pmpmon_destroy(1));
    without_entries();
    in_enclave();
    off();
}
