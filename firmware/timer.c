/*
 * The timer of each hart (the CLINT of QEMU's virt), and the host's. A hart with stimecmp (Sstc) has a supervisor-mode timer,
 * which the host sets itself or by SBI. Otherwise the host uses machine mode's timer.
 */
#include "board.h"

static volatile uint64_t *const compare = (volatile uint64_t *)0x2004000;

uint64_t timer_now(void)
{
    return READ(time);
}

void timer_at(uint64_t time)
{
    compare[this_hart()] = time;
}

void timer_off(void)
{
    timer_at(~0ul);
}

static uint8_t has_stimecmp[MOST_HARTS];

void host_timer_find(int has)
{
    has_stimecmp[this_hart()] = (uint8_t)has;
}

void host_timer_begin(void)
{
    timer_off();
    host_timer_at(~0ul);
}

void host_timer_at(uint64_t time)
{
    if (has_stimecmp[this_hart()]) {
        WRITE(0x14d, time); /* stimecmp */
        return;
    }
    timer_at(time);
    CLEAR(mip, TIMER_OF_SUPERVISOR);
}

/* Machine mode's timer expired: makes the host's interrupt pending. An interrupt from before the timer was set is dropped. */
void host_timer_came(void)
{
    if (timer_now() < compare[this_hart()])
        return;
    timer_off();
    SET(mip, TIMER_OF_SUPERVISOR);
}
