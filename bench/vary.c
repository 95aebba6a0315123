/*
 * Makes a certificate that is hard to check out of one in the planner's order.
 *
 *   vary shuffled IN OUT   the same entries in a random order: right only where no two of them meet
 *   vary reversed IN OUT   the entries in falling order: they mean another map
 *   vary longer IN OUT     one byte more: found behind the last node alone
 *   vary flood IN OUT      64 MiB of entries, and more are told: found where they end alone
 */
#include <stdint.h>
#include <stdio.h>
#include <stdlib.h>
#include <string.h>

static uint64_t state = 0x2545f4914f6cdd1du;

static uint64_t draw(void)
{
    state ^= state << 13;
    state ^= state >> 7;
    state ^= state << 17;
    return state;
}

static void exchange(unsigned char *a, unsigned char *b)
{
    unsigned char held[9];
    memcpy(held, a, 9);
    memcpy(a, b, 9);
    memcpy(b, held, 9);
}

/* Tells as many entries as a header can, and puts the whole space as an entry, up to the most bytes of a certificate. */
static size_t flood(unsigned char *bytes)
{
    static const unsigned char entry[9] = {0x1f, 0xff, 0xff, 0xff, 0xff, 0xff, 0xff, 0x1f, 0};
    size_t at = 9;
    memset(bytes + 5, 0xff, 4);
    for (; at + 9 <= 64 << 20; at += 9)
        memcpy(bytes + at, entry, 9);
    return at;
}

int main(int count, char **words)
{
    static unsigned char bytes[80 << 20];
    FILE *in, *out;
    size_t length;
    uint32_t entries;
    unsigned char *list = bytes + 9;
    if (count != 4 || !(in = fopen(words[2], "rb")) || !(out = fopen(words[3], "wb"))) {
        fputs("vary shuffled|reversed|longer|flood IN OUT\n", stderr);
        return 2;
    }
    length = fread(bytes, 1, sizeof bytes - 1, in);
    entries = bytes[5] | bytes[6] << 8 | bytes[7] << 16 | (uint32_t)bytes[8] << 24;
    if (!strcmp(words[1], "longer"))
        bytes[length++] = 0;
    else if (!strcmp(words[1], "flood"))
        length = flood(bytes);
    else if (!strcmp(words[1], "reversed"))
        for (uint32_t i = 0; i < entries / 2; i++)
            exchange(list + 9 * i, list + 9 * (entries - 1 - i));
    else
        for (uint32_t i = entries - 1; i > 0; i--)
            exchange(list + 9 * i, list + 9 * (draw() % (i + 1)));
    fwrite(bytes, 1, length, out);
    return fclose(out) != 0;
}
