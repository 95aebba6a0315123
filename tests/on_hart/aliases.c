/*
 * Hart 1 reads a page in a loop without a trap while hart 0 makes an enclave of it and destroys it: as it is, through a table of
 * pages (Sv39) that has the page at another address too, or as a guest in supervisor mode. After the creation no read is done.
 */
#include "harts.h"

enum { PLAIN = 1, SV39, GUEST };
#define GIGABYTE 0x40000000ul
#define LEAF 0xcful /* V, R, W, X, A, D */
#define SV39_MODE (8ul << 60)
static uint64_t table[512] __attribute__((aligned(4096)));
static volatile uint64_t turns, reads, faults, late, last, is_made;

/* Devices and memory where they are, and memory once more three gigabytes above. */
static void with_table(void)
{
    table[0] = LEAF;
    table[2] = table[5] = (2 * GIGABYTE) >> 2 | LEAF;
    WRITE(satp, SV39_MODE | (uint64_t)table >> 12);
    __asm__ volatile("sfence.vma" ::: "memory");
}

/* This code goes on as a guest, whose addresses are the host's. */
static void as_guest(void)
{
    WRITE(0x280, 0);            /* vsatp */
    WRITE(0x680, 0);            /* hgatp */
    SET(0x600, 1ul << 7);       /* hstatus.SPV */
    SET(sstatus, 1ul << 8);     /* SPP */
    __asm__ volatile("la t0, 1f\n csrw sepc, t0\n sret\n1:" ::: "t0", "memory");
}

static void watch(uint64_t hart)
{
    const uint64_t *at = (const uint64_t *)(KIND == SV39 ? BASE + 3 * GIGABYTE : BASE);
    uint64_t value = 0;
    (void)hart;
    if (KIND == SV39)
        with_table();
    if (KIND == GUEST)
        as_guest();
    for (;;) {
        uint64_t was_made = is_made;
        __asm__ volatile("fence r, r" ::: "memory");
        long cause = load_at(at, &value);
        if (cause) {
            faults = (uint64_t)cause;
        } else {
            reads++;
            late += was_made;
            last = value;
        }
        turns++;
    }
}

static void wait(void)
{
    for (uint64_t until = turns + 200; turns < until;)
        ;
}

void host_main(void)
{
    struct pmpmon_answer made;
    memset((void *)BASE, 1, 2 * PAGE);
    start(1, watch);
    wait();
    say("reads before", reads != 0);
    memcpy((void *)BASE, enclave, (size_t)(enclave_end - enclave));
    made = pmpmon_create(BASE, 1, 1, 0, 0, 0);
    __asm__ volatile("fence rw, rw" ::: "memory");
    is_made = 1;
    wait();
    say("reads after", late);
    say("fault", faults);
    is_made = 0;
    pmpmon_destroy(made.value);
    wait();
    say("what it reads in the end", last);
    off();
}
