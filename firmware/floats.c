/*
 * The floating-point registers: f0 to f31 and fcsr. The host of each hart has a set, and each enclave has one, which moves with it
 * from hart to hart. The set of a running world is in its hart, and the others are in memory. The proved answer determines which
 * world resumes, and FS of an enclave's status word (crates/trap_server).
 */
#include "board.h"

/* The support of a hart. If floats are in its integer registers (Zfinx), it has only fcsr, which FS does not disable. */
enum { NONE, FCSR_ALONE, SINGLES, DOUBLES };

void keep_doubles(uint64_t *f);
void load_doubles(const uint64_t *f);
void keep_singles(uint64_t *f);
void load_singles(const uint64_t *f);

static void keep(const struct world *self)
{
    if (self->floats_kind == DOUBLES)
        keep_doubles(self->registers->f);
    else if (self->floats_kind == SINGLES)
        keep_singles(self->registers->f);
}

static void load(const struct world *self, const struct registers *set)
{
    WRITE(fcsr, set->fcsr);
    if (self->floats_kind == DOUBLES)
        load_doubles(set->f);
    else if (self->floats_kind == SINGLES)
        load_singles(set->f);
}

/* An enclave resumes with FS Initial. If FS is not Dirty when another world follows, f0 to f31 are unchanged. The host's set is always
   stored, because the host may have changed FS itself. FS then comes from the next world's status word. */
void floats_change(const struct world *self, const struct registers *next, uint64_t status)
{
    if (!self->floats_kind)
        return;
    SET(mstatus, FLOATS_DIRTY);
    self->registers->fcsr = READ(fcsr);
    if (!self->number || (status & FLOATS_DIRTY) == FLOATS_DIRTY)
        keep(self);
    load(self, next);
}

/* Detects the support of a hart by trial. */
#define QUADS (1ul << 16) /* of misa: the upper half of each register would leak to the next world */
void floats_find(struct world *self)
{
    if (READ(misa) & QUADS)
        end_because("a hart has floats of 128 bits: hart ", this_hart());
    SET(mstatus, FLOATS_DIRTY);
    if (!IS_THERE(fcsr))
        self->floats_kind = NONE;
    else if (!(READ(mstatus) & FLOATS_DIRTY))
        self->floats_kind = FCSR_ALONE;
    else
        self->floats_kind = DOES(".option push\n .option arch, +d\n fmv.x.d t1, f0\n .option pop\n") ? DOUBLES : SINGLES;
}

void floats_at_start(struct world *self)
{
    memset(self->registers->f, 0, sizeof self->registers->f + sizeof self->registers->fcsr);
    if (!self->floats_kind)
        return;
    SET(mstatus, FLOATS_DIRTY);
    load(self, self->registers);
}
