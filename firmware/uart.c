/* The serial port (a 16550), and power control of QEMU's virt board. */
#include "board.h"

static volatile uint8_t *const serial = (volatile uint8_t *)0x10000000;
static volatile uint32_t *const finisher = (volatile uint32_t *)0x100000;

#define TENTH_OF_A_SECOND 1000000ul

/* Drops a byte that the serial line does not accept within that time, so that a dead line blocks no hart. */
void put_char(char c)
{
    uint64_t last = READ(time) + TENTH_OF_A_SECOND;
    while (!(serial[5] & 0x20))
        if (READ(time) > last)
            return;
    serial[0] = (uint8_t)c;
}

void put(const char *text)
{
    for (; *text; text++)
        put_char(*text);
}

void put_hex(uint64_t number)
{
    put("0x");
    for (int shift = 60; shift >= 0; shift -= 4)
        put_char("0123456789abcdef"[number >> shift & 15]);
}

static void put_digits(uint64_t number)
{
    if (number > 9)
        put_digits(number / 10);
    put_char((char)('0' + number % 10));
}

void put_number(int64_t number)
{
    if (number < 0)
        put_char('-');
    put_digits(number < 0 ? 0 - (uint64_t)number : (uint64_t)number);
}

/* Powers the board off: with success for 0, otherwise with QEMU's exit status 1. */
_Noreturn void power_off(uint64_t status)
{
    *finisher = status ? 0x13333 : 0x5555;
    for (;;)
        ;
}

/* Resets the board, and the monitor with it. */
_Noreturn void start_again(void)
{
    *finisher = 0x7777;
    for (;;)
        ;
}
