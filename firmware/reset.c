/*
 * Hides the contents of enclave pages from the next boot. Before the board stops or restarts, the private pages of all enclaves and their
 * saved registers are zeroed. After an unmediated reset, such as by a watchdog or a button, the next boot zeroes the pages, using a list
 * after the image that no start clears.
 */
#include "board.h"

/* The private pages of each enclave, by its number minus 1. An element is valid if its check matches, so a reset at any moment leaves the
   list consistent. */
struct private_range {
    uint64_t first, count, check;
};
#define CHECK(range) ((range).first ^ (range).count << 32 ^ 0x70726976617465ul)
extern volatile struct private_range private_ranges[MOST_ENCLAVES]; /* firmware.ld */

static int is_private(const volatile struct private_range *range)
{
    return range->check == CHECK(*range);
}

int is_private_page(uint64_t enclave, uint64_t page)
{
    const volatile struct private_range *range = &private_ranges[enclave - 1];
    return is_private(range) && page - range->first < range->count;
}

static void settle(void)
{
    __asm__ volatile("fence rw, rw" ::: "memory");
}

void private_begin(uint64_t enclave, uint64_t first, uint64_t count)
{
    volatile struct private_range *range = &private_ranges[enclave - 1];
    range->check = 0;
    settle();
    range->first = first;
    range->count = count;
    settle();
    range->check = CHECK(*range);
    settle();
}

void private_end(uint64_t first, uint64_t count)
{
    make_zero(first, count);
    settle();
    for (unsigned i = 0; i < MOST_ENCLAVES; i++)
        if (is_private(&private_ranges[i]) && private_ranges[i].first == first)
            private_ranges[i].check = 0;
}

/* A page that traps is tried only once, and its range leaves the list like the others, so later pages and the next boot are unaffected. */
void forget_private(void)
{
    static volatile uint64_t tried; /* pages of the range */
    for (unsigned i = 0; i < MOST_ENCLAVES; i++) {
        volatile struct private_range *range = &private_ranges[i];
        if (!is_private(range))
            continue;
        while (tried < range->count)
            make_zero(range->first + tried++, 1);
        settle();
        range->check = 0;
        tried = 0;
    }
}

/* A hart on which the monitor trapped holds the lock, has a ticket that will be served, or draws one here. It spins instead of sleeping,
   because the code for sleeping may be what trapped. The hart now served may be asleep, if the monitor trapped before waking it. */
static void come_for_lock(struct world *self)
{
    if ((int64_t)(self->ticket - __atomic_load_n(&tickets[1], __ATOMIC_ACQUIRE)) < 0)
        self->ticket = __atomic_fetch_add(&tickets[0], 1, __ATOMIC_ACQUIRE);
    for (uint64_t hart = 0; hart < hart_count(); hart++)
        interrupt(hart);
    while (__atomic_load_n(&tickets[1], __ATOMIC_ACQUIRE) != self->ticket)
        ;
}

/* Nothing else writes meanwhile: the other harts are stopped or wait for the lock. After a trap in here the next step follows. */
void forget(void)
{
    static volatile uint8_t is_ending, has_no_registers;
    struct world *self = &worlds[this_hart()];
    __atomic_store_n(&self->is_out, 0, __ATOMIC_RELEASE);
    come_for_lock(self);
    if (!is_ending) {
        is_ending = 1;
        stop_harts(~(1ul << this_hart()));
    }
    forget_private();
    if (!has_no_registers) {
        has_no_registers = 1;
        memset(register_sets, 0, sizeof register_sets);
    }
}

/* Frames on the monitor's stack contain words of enclaves' calls. The functions called next never return, so the stack is not needed. */
static inline __attribute__((always_inline)) void forget_stack(void)
{
    extern volatile uint64_t stack_start[], stack_end[];
    for (volatile uint64_t *at = stack_start; at < stack_end; at++)
        *at = 0;
}

_Noreturn void end_board(uint64_t status)
{
    forget();
    forget_stack();
    power_off(status);
}

_Noreturn void end_because(const char *why, int64_t number)
{
    forget(); /* first, because the serial line may be slow */
    put("monitor: ");
    put(why);
    put_number(number);
    put("\n");
    end_board(1);
}

_Noreturn void begin_anew(void)
{
    forget();
    forget_stack();
    start_again();
}
