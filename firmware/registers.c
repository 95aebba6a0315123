/*
 * The integer registers of the host of each hart, and of each enclave, which move with it from hart to hart: x1 to x31 and the pc.
 * trap.S saves those of the running world in its set, and loads them from there. The proved answer defines all other changes of a set.
 */
#include "board.h"

struct registers register_sets[MOST_HARTS + MOST_ENCLAVES];

inline void registers_begin(struct registers *set, uint64_t pc, uint64_t a0)
{
#pragma GCC unroll 32
    for (unsigned n = 0; n < 32; n++)
        set->x[n] = 0;
    set->pc = pc;
    set->x[10] = a0;
}

static inline void change(struct registers *set, const struct set_change *change)
{
    if (change->kind == PAST_CALL) {
        set->pc += 4;
    } else if (change->kind == TWO_WORDS) {
        set->x[10] = change->first;
        set->x[11] = change->second;
    } else if (change->kind == FIRST_ENTRY) {
        registers_begin(set, change->first, change->whose);
    } else {
        memset(set, 0, sizeof *set); /* including floats, so that each enclave starts with zeros */
    }
}

int64_t registers_change(uint64_t written, const struct answer_frame *answer)
{
    struct registers *host = registers_of(answer->hart, 0);
#pragma GCC unroll 3
    for (const struct set_change *it = answer->changes; it < answer->changes + 3; it++)
        if (it->kind)
            change(it->whose ? registers_of(0, it->whose) : host, it);
    return (int64_t)written;
}
