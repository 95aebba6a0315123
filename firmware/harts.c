/*
 * The harts of the board, and their requests to one another by software interrupts. A hart that waits for the monitor's lock, holds
 * it, is parked or is stopped, is halted: it runs no world, and before it does it checks for requests and stops (load_changes). Other
 * harts take the interrupt.
 */
#include "board.h"

extern volatile uint32_t harts_run;
extern volatile uint8_t arrived[MOST_HARTS];
static volatile uint32_t *const software_interrupt = (volatile uint32_t *)0x2000000;

#define TEN_SECONDS 100000000ul

struct harts harts = {.started = 1};

/* Requests to a hart. Two counters next to them count the requests for fences, and those before the last fences made. */
#define FENCES 3u /* a bit for each kind */
#define INTERRUPT_OF_HOST 4u
/* The harts that must stop, hart h in bit h. Only the lock holder writes it. */
static uint64_t stopping;

void interrupt(uint64_t hart)
{
    __asm__ volatile("fence" ::: "memory");
    software_interrupt[hart] = 1;
}

/* They are counted before they are made, so that later requests are not counted. */
static void make_fences(struct world *self)
{
    uint32_t asked = __atomic_load_n(&self->fences_asked, __ATOMIC_ACQUIRE);
    fence_here(__atomic_fetch_and(&self->requests, ~FENCES, __ATOMIC_SEQ_CST));
    __atomic_store_n(&self->fences_made, asked, __ATOMIC_RELEASE);
}

void take_requests(struct world *self)
{
    software_interrupt[this_hart()] = 0;
    __asm__ volatile("fence" ::: "memory"); /* orders this before later requests of other harts */
    make_fences(self);
    if (__atomic_fetch_and(&self->requests, FENCES, __ATOMIC_SEQ_CST) & INTERRUPT_OF_HOST && is_started(this_hart()))
        SET(mip, SOFTWARE_OF_SUPERVISOR);
}

static int is_to_stop(uint64_t hart)
{
    return __atomic_load_n(&stopping, __ATOMIC_ACQUIRE) >> hart & 1;
}

/* A hart that stops this one or requests a fence either sees is_out and waits, or made its request before and is seen here. After a stop
   this hart checks again: another stop may have begun, which saw it as halted. */
static inline int goes_out(struct world *self)
{
    self->is_out = 1;
    __asm__ volatile("fence rw, rw" ::: "memory");
    if (__atomic_load_n(&self->requests, __ATOMIC_ACQUIRE) || self->fences_asked != self->fences_made)
        take_requests(self);
    return !is_to_stop(this_hart());
}

static __attribute__((noinline)) void stand_still(struct world *self)
{
    do {
        self->is_out = 0;
        while (is_to_stop(this_hart()))
            ;
    } while (!goes_out(self));
}

void load_changes(struct world *self)
{
    if (!goes_out(self))
        stand_still(self);
    if (!self->is_stale)
        return;
    self->is_stale = 0;
    load_bank(self->bank);
    fence_here(FENCE_I); /* pages may have changed since this hart last ran a world */
}

static int is_other(uint64_t set, uint64_t hart)
{
    return hart != this_hart() && (set >> hart & 1);
}

/* Makes this hart's own fences meanwhile, because the other hart may wait for them. */
static int has_fenced(const struct world *other, uint32_t number, uint64_t last)
{
    while (other->is_out && (int32_t)(__atomic_load_n(&other->fences_made, __ATOMIC_ACQUIRE) - number) < 0) {
        make_fences(&worlds[this_hart()]);
        if (timer_now() > last)
            return 0;
    }
    return 1;
}

int fence_harts(uint64_t set, uint32_t kinds)
{
    uint64_t self = 1ul << this_hart(), others = set & ~self, last = timer_now() + TEN_SECONDS;
    uint32_t number[MOST_HARTS];
    int is_made = 1;
    for (uint64_t hart = 0; others >> hart; hart++)
        if (others >> hart & 1) {
            __atomic_fetch_or(&worlds[hart].requests, kinds, __ATOMIC_SEQ_CST);
            number[hart] = __atomic_add_fetch(&worlds[hart].fences_asked, 1, __ATOMIC_SEQ_CST);
            interrupt(hart);
        }
    if (set & self)
        fence_here(kinds);
    for (uint64_t hart = 0; others >> hart; hart++)
        is_made &= !(others >> hart & 1) || has_fenced(&worlds[hart], number[hart], last);
    return is_made;
}

/* A timeout does not mean that a hart will never stop: its core may be running other work. So this waits on, with one message: before
   the hart stops, the pages that it could still access must neither be opened to others nor zeroed. */
static void wait_for_halt(uint64_t hart)
{
    uint64_t last = timer_now() + TEN_SECONDS;
    while (worlds[hart].is_out)
        if (timer_now() > last) {
            put("monitor: waits for a hart to stop: hart ");
            put_number((int64_t)hart);
            put("\n");
            last = ~0ul;
        }
}

void stop_harts(uint64_t set)
{
    __atomic_store_n(&stopping, set, __ATOMIC_RELEASE);
    __asm__ volatile("fence rw, rw" ::: "memory");
    for (uint64_t hart = 0; hart < hart_count(); hart++)
        if (is_other(set, hart) && worlds[hart].is_out)
            interrupt(hart);
    for (uint64_t hart = 0; hart < hart_count(); hart++)
        if (is_other(set, hart))
            wait_for_halt(hart);
    __asm__ volatile("fence rw, rw" ::: "memory");
}

void interrupt_supervisor(uint64_t hart)
{
    if (hart == this_hart()) {
        SET(mip, SOFTWARE_OF_SUPERVISOR);
        return;
    }
    __atomic_fetch_or(&worlds[hart].requests, INTERRUPT_OF_HOST, __ATOMIC_SEQ_CST);
    interrupt(hart);
}

/* Wakes a hart that waits in trap.S. */
void unpark(uint64_t hart)
{
    worlds[hart].is_wanted = 1;
    __asm__ volatile("fence" ::: "memory");
    software_interrupt[hart] = 1;
}

/* If the board lacked a hart of the platform, the first stop would wait for it forever. */
static void wait_for(uint64_t hart)
{
    uint64_t last = timer_now() + TEN_SECONDS;
    while (!arrived[hart])
        if (timer_now() > last)
            end_because("the platform has a hart that does not come: ", hart);
}

void start_others(void)
{
    for (uint64_t hart = 1; hart < hart_count(); hart++)
        wait_for(hart);
    __asm__ volatile("fence rw, rw" ::: "memory");
    harts_run = hart_count();
}
