/*
 * The machine-mode and supervisor-mode registers that control a world, besides the entries. They stay in the hart while its world
 * runs. When the host enters an enclave, each gets the word from the proved monitor's answer (crates/trap_server), and its old value
 * is stored until the host resumes. The initial words of a hart are defined only here (at_start). Compare the table below with the
 * first one of "Control registers" in firmware/DESIGN.md.
 */
#include "board.h"

#define ALL (~0ul)
#define UXL (3ul << 32)
/* Bits of mstatus: SIE, SPIE, UBE, SPP, VS, FS, XS, SUM, MXR, UXL. */
#define STATUS (1ul << 1 | 1ul << 5 | 1ul << 6 | 1ul << 8 | 3ul << 9 | 3ul << 13 | 3ul << 15 | 1ul << 18 | 1ul << 19 | UXL)

/* Further bits of mstatus: the mode to which mret returns, MPP and MPV. */
#define MPP (3ul << 11)
#define MPP_SUPERVISOR (1ul << 11)
#define MPV (1ul << 39)

/* The word of a frame, its register (as a number if the assembler may not know the name), and the bits that change with the world.
   Two further words are parts of mstatus: status has the bits of STATUS, and mode has MPP and MPV. */
#define CONTROL_REGISTERS(X)                                                                                           \
    X(satp, satp, ALL)                                                                                                 \
    X(mie, mie, ALL)                                                                                                   \
    X(scounteren, scounteren, ALL)                                                                                     \
    X(senvcfg, 0x10a, ALL)                                                                                             \
    X(hstatus, 0x600, ALL)                                                                                             \
    X(medeleg, medeleg, ALL)                                                                                           \
    X(mideleg, mideleg, ALL)

#define WIDTH_64 (2ul << 32)
/* Machine mode's interrupts: software and timer. */
#define MONITORS_INTERRUPTS (1ul << 3 | 1ul << 7)
#define HOSTS_INTERRUPTS (SOFTWARE_OF_SUPERVISOR | TIMER_OF_SUPERVISOR | EXTERNAL_OF_SUPERVISOR)
/* The host's own handler gets every exception of the host except its calls. */
#define HOSTS_EXCEPTIONS 0xf0b5fful

/* Only the time, which Linux programs read. Cycle and instruction counters also count in an enclave, and would reveal each branch. */
#define COUNTERS (1ul << 1)

/* The initial words of a hart, whose first world is the host, in supervisor mode. */
static const struct control_words at_start = {
    .status = WIDTH_64,
    .mie = MONITORS_INTERRUPTS,
    .scounteren = COUNTERS,
    .medeleg = HOSTS_EXCEPTIONS,
    .mideleg = HOSTS_INTERRUPTS,
    .mode = MPP_SUPERVISOR,
};

enum {
#define NUMBER(word, csr, bits) NUMBER_##word,
    CONTROL_REGISTERS(NUMBER)
#undef NUMBER
};
/* Records the registers that a hart lacks, by number. Their words are zero, and ignored. A hart with supervisor mode has scounteren,
   which control_told reads. */
static void find_registers(struct world *self)
{
#define FIND(word, csr, bits) self->lacks |= (uint32_t)!IS_THERE(csr) << NUMBER_##word;
    CONTROL_REGISTERS(FIND)
#undef FIND
    if (self->lacks >> NUMBER_scounteren & 1)
        end_because("a hart has no scounteren: hart ", this_hart());
}

static inline uint64_t mixed(uint64_t old, uint64_t word, uint64_t bits)
{
    return old ^ ((old ^ word) & bits);
}

/* Writes a word to a register, and stores the old value if there is a place for it. Only the given bits change. */
#define CHANGE(word, csr, bits)                                                                                        \
    {                                                                                                                  \
        uint64_t old = (bits) == ALL ? SWAP(csr, words->word) : READ(csr);                                             \
        if ((bits) != ALL)                                                                                             \
            WRITE(csr, mixed(old, words->word, bits));                                                                 \
        if (kept)                                                                                                      \
            kept->word = old & (bits);                                                                                 \
    }
#define CHANGE_IF(word, csr, bits)                                                                                     \
    if (!(self->lacks >> NUMBER_##word & 1))                                                                           \
        CHANGE(word, csr, bits)
static inline void change(const struct world *self, const struct control_words *words, struct control_words *kept)
{
    WRITE(mstatus, mixed(READ(mstatus), words->status | words->mode, STATUS | MPP | MPV));
    if (self->lacks) {
        CONTROL_REGISTERS(CHANGE_IF)
    } else {
        CONTROL_REGISTERS(CHANGE)
    }
}

/* The host of this hart enters an enclave: stores its words, with the given status. */
void control_enter(struct world *self, const struct control_words *words, uint64_t status)
{
    self->host.status = status & STATUS;
    self->host.mode = status & (MPP | MPV);
    change(self, words, &self->host);
}

/* The host resumes with its words. */
void control_leave(const struct world *self)
{
    change(self, &self->host, 0);
}

/* Adds the trapping world's words from which those of an enclave are derived. */
int64_t control_told(struct trap_frame *frame)
{
    frame->mie = READ(mie);
    frame->scounteren = READ(scounteren);
    return sizeof *frame;
}

/*
 * Bits of menvcfg. The device tree lists Sstc, Zicboz and Zicbom if the hart has them, so the host may use them. User mode has no
 * stimecmp, and the other two only as senvcfg allows. cbo.inval writes blocks back (CBIE 1): if it dropped them, a zeroed page could
 * get its old bytes back. Memory types (PBMTE) stay disabled: through an uncached page a host could read the bytes in memory under
 * the zeros in a cache, or have an enclave measured with other bytes than it executes.
 */
#define STCE (1ul << 63)
#define CBZE (1ul << 7)
#define CBCFE (1ul << 6)
#define CBIE_FLUSH (1ul << 4)

/* Bits of the registers that control the access of lower modes to state (Smstateen): senvcfg and henvcfg, and fcsr if floats are in
   integer registers. All other state stays inaccessible. */
#define ENVCFG (1ul << 62)
#define FCSR (1ul << 1)

#define SIE (1ul << 1)
#define SPIE (1ul << 5)
#define SPP (1ul << 8)
#define SPV (1ul << 7) /* of hstatus */

/* Forwards a trap of the host that was not delegated to its handler, with the registers as delegation would leave them, except those
   with further information on a guest. */
void control_to_handler(struct world *world)
{
    uint64_t status = READ(mstatus), handler = READ(stvec);
    uint64_t before = (status & SIE ? SPIE : 0) | (status & MPP_SUPERVISOR ? SPP : 0);
    WRITE(sepc, world->registers->pc);
    WRITE(scause, world->cause);
    WRITE(stval, world->value);
    WRITE(mstatus, (status & ~(SIE | SPIE | SPP | MPP | MPV)) | before | MPP_SUPERVISOR);
    if (!(world->lacks >> NUMBER_hstatus & 1))
        WRITE(0x600, (READ(0x600) & ~SPV) | (status & MPV ? SPV : 0));
    world->registers->pc = handler & ~3ul;
    if (handler & 1 && world->cause & INTERRUPT)
        world->registers->pc += 4 * (world->cause & ~INTERRUPT);
}

void control_find(void)
{
    struct world *self = &worlds[this_hart()];
    find_registers(self);
    floats_find(self);
    WRITE(mcounteren, COUNTERS);
    if (IS_THERE(0x30a)) /* menvcfg */
        WRITE(0x30a, STCE | CBZE | CBCFE | CBIE_FLUSH);
    if (IS_THERE(0x30c)) { /* mstateen0 to mstateen3, sstateen0 */
        WRITE(0x30c, ENVCFG | FCSR);
        WRITE(0x30d, 0);
        WRITE(0x30e, 0);
        WRITE(0x30f, 0);
        WRITE(0x10c, FCSR);
    }
    host_timer_find(IS_THERE(0x14d)); /* stimecmp */
}

/* The hart has run no world, or the host stopped it: the next world will be the host, in supervisor mode. The other bits of mstatus are
   zero, except SXL, which is also 64 bits. */
void control_at_start(void)
{
    struct world *self = &worlds[this_hart()];
    floats_at_start(self);
    CLEAR(mip, SOFTWARE_OF_SUPERVISOR | TIMER_OF_SUPERVISOR);
    host_timer_begin();
    WRITE(mstatus, at_start.status | WIDTH_64 << 2);
    self->host = at_start;
    control_leave(self);
}
