/* What an enclave of tried.c is asked to do: three words at the begin of its buffer. */
#ifndef TRIED_H
#define TRIED_H

#include <stdint.h>

enum tried {
    READ,    /* loads the word at an address, and exits with it */
    WRITE,   /* stores zero there */
    JUMP,    /* goes on there */
    FLOATS,  /* `sum` below of so many numbers from a first one, and exits with its bits */
    TIME,    /* reads the time */
    FOREVER, /* never stops by itself */
    STOPS,   /* does nothing but stop */
    WORK,    /* `work` below of so many rounds and a seed, and exits with what comes of it */
    SAYS,    /* says something, without end */
};

/* Mixes a state through 512 words, which are zero before. */
static inline uint64_t work(volatile uint64_t *words, uint64_t rounds, uint64_t state)
{
    for (; rounds; rounds--) {
        state = state * 6364136223846793005ul + 1442695040888963407ul;
        uint64_t word = words[state >> 55] ^ state;
        words[state >> 55] = word;
        state += word;
    }
    return state;
}

/* Adds the inverses of so many numbers, and answers the bits of what comes of it. */
static inline uint64_t sum(uint64_t count, uint64_t first)
{
    union {
        double number;
        uint64_t bits;
    } it = {0};
    for (; count; count--, first++)
        it.number += 1 / (double)first;
    return it.bits;
}

#endif
