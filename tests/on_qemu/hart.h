/* What the programs of this folder share: words of the hart, an access that is attempted (start.S), and the serial line. */
#ifndef HART_H
#define HART_H
#include <stdint.h>

typedef unsigned long word;
typedef long sword;

enum kind { LOAD, STORE, FETCH };

struct outcome {
    sword cause;
    word value;
};

struct outcome attempt(sword kind, word address, word value, word mode_bits);

#define NONE (-1)
#define AS_IF (1ul << 17)

static volatile uint8_t *const serial = (volatile uint8_t *)0x10000000;
static volatile uint32_t *const finisher = (volatile uint32_t *)0x100000;

static void put(const char *text)
{
    for (; *text; text++) {
        while (!(serial[5] & 0x20))
            ;
        serial[0] = *text;
    }
}

static void put_number(word n)
{
    char text[21];
    char *at = text + 20;
    *at = 0;
    do {
        *--at = '0' + n % 10;
        n /= 10;
    } while (n);
    put(at);
}

static void put_register(const char *name, word value)
{
    put(name);
    put(" 0x");
    for (int shift = 8 * sizeof(word) - 4; shift >= 0; shift -= 4) {
        char digit[2] = {"0123456789abcdef"[value >> shift & 15], 0};
        put(digit);
    }
    put("\n");
}
#endif
