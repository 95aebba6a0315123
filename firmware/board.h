/* Declarations shared by the files of the firmware. */
#ifndef BOARD_H
#define BOARD_H
#include "frames.h"

#define MOST_HARTS 4
#define MOST_ENCLAVES 64

/* Facts that the host of a hart can query: identity registers, and why an enclave last stopped there. */
struct caller {
    uint64_t hart, vendor, architecture, implementation, stop_cause, stop_value;
};

/* The action for a trap, as the proved core decides it (crates/sbi_calls): its number, the answer in a0 and a1, and its operands.
   Actions before START_HART need no lock. Those from MONITOR on belong to the monitor. */
struct action {
    uint64_t kind, error, value, subject, address, opaque;
};
enum { GO_ON, TICK, TO_HANDLER, ANSWER, SET_TIMER, INTERRUPT_HARTS, FENCE_INSTRUCTIONS, FENCE_TRANSLATIONS, PUT_BYTE };
enum { START_HART = PUT_BYTE + 1, STOP_HART, SHUT_DOWN, FAIL, REBOOT };
enum { MONITOR = REBOOT + 1, ENCLAVE_CALL, ENCLAVE_STOP, ENCLAVE_TICK };

/* The registers of a host or an enclave, which trap.S saves and loads, and floats.c for floating point. The slot of x0 holds the
   hart on which the world runs. */
struct registers {
    union {
        struct world *hart;
        uint64_t x[32];
    };
    uint64_t pc, f[32], fcsr;
};

/* The state of each hart. */
struct world {
    uint8_t stack[1792];         /* of the hart, ending at the next member */
    struct registers *registers; /* of its world */
    uint64_t cause, value;       /* of the last trap */
    uint64_t ticket;             /* the last ticket drawn for the lock */
    volatile uint32_t is_out;    /* the hart is not halted: its world may run */
    volatile uint32_t is_wanted; /* the hart must leave park */
    uint32_t requests, fences_asked, fences_made; /* harts.c */
    uint16_t is_stale;           /* its world, entries or pages changed since it last ran a world */
    uint16_t floats_kind;        /* its floating-point support (floats.c) */
    uint32_t lacks;              /* the control registers that are missing (control.c) */
    struct control_words host;   /* the host's control registers, while an enclave runs */
    uint64_t number; /* of its world: 0 for the host, otherwise an enclave */
    struct caller caller;
    struct action action; /* the decision on its last trap */
    const struct bank *bank; /* the list of its world */
} __attribute__((aligned(16)));
extern struct world worlds[MOST_HARTS];
_Static_assert(sizeof(struct world) == 1 << 11 && offsetof(struct world, registers) == 1792, "trap.S counts on it");
_Static_assert(offsetof(struct world, ticket) == 1792 + 24 && offsetof(struct world, is_out) == 1792 + 32, "trap.S counts on it");

/* trap.S: the calling hart releases the monitor and runs its world until a trap needs the monitor, or is parked until another hart
   wakes it. The call returns on the next hart that enters the monitor, with its struct world. `instructions` counts since the reset
   of the hart. */
struct world *run_world(struct world *world);
struct world *park(struct world *world);
uint64_t instructions(void);
/* The monitor's lock: the next ticket, and the ticket now served. */
extern uint64_t tickets[2];

/* pmp.S: loads the addresses of the used entries and the configuration words, then executes sfence.vma. */
void load_bank(const struct bank *bank);
void read_bank(struct bank *bank);
uint64_t clear_beyond(void);
/* entries.c: stops the board if the calling hart lacks the entries of the platform. */
void check_entries(void);

/* serve.c: the list of the host. */
extern struct bank host_bank;
int differ(const uint64_t *a, const uint64_t *b, unsigned count);
/* Writes the frame of a world's trap. This function, control.c's part of it and registers.c's handling of an answer are tail calls:
   each returns the number of bytes read or written. */
int64_t put_trap(const struct world *world, uint64_t tag, struct trap_frame *frame);
/* Zeroes pages of memory, except the monitor's. */
void make_zero(uint64_t first, uint64_t count);

/* reset.c: records the private pages of an enclave, until they are zeroed. */
void private_begin(uint64_t enclave, uint64_t first, uint64_t count);
void private_end(uint64_t first, uint64_t count);
/* Returns whether a page is a private page of an enclave. */
int is_private_page(uint64_t enclave, uint64_t page);
/* Zeroes all private pages. After a trap in it, the next call continues with the page after the one that trapped. */
void forget_private(void);
/* Stops the other harts permanently, and zeroes all private pages and all registers of worlds. */
void forget(void);
/* Zeroes all private pages and stops or restarts the board. */
_Noreturn void end_board(uint64_t status);
/* Stops the board with a reason and a number. */
_Noreturn void end_because(const char *why, int64_t number);
_Noreturn void begin_anew(void);

/* traps.c: runs the hart's world until a trap concerns the monitor, on this hart or the next that enters, and writes its frame. */
int64_t next_trap(struct trap_frame *frame);
/* Serves a trap of this hart's world without the monitor, or returns 0. trap.S calls it on the hart's own stack. */
int serve_alone(struct world *world);
/* Further handling of an answer with lists, and of the end. */
void answered(const struct answer_frame *answer);
_Noreturn void ended(const struct end_frame *end);

/* registers.c: the registers of the harts' hosts, followed by those of the enclaves by number. */
extern struct registers register_sets[MOST_HARTS + MOST_ENCLAVES];
static inline struct registers *registers_of(uint64_t hart, uint64_t world)
{
    return &register_sets[world ? MOST_HARTS - 1 + world : hart];
}
/* Initializes a set: all zero except the pc and a0. */
void registers_begin(struct registers *set, uint64_t pc, uint64_t a0);
/* Applies the answer's changes, as a tail call: returns the number of bytes written. */
int64_t registers_change(uint64_t written, const struct answer_frame *answer);

/* control.c: the machine-mode and supervisor-mode registers that control a world, read for a frame and written from one on the
   calling hart. `control_find` is called once on each hart, and finds which of the registers exist. */
void control_find(void);
void control_at_start(void);
int64_t control_told(struct trap_frame *frame);
void control_enter(struct world *self, const struct control_words *words, uint64_t status);
void control_leave(const struct world *self);
void control_to_handler(struct world *world);

/* floats.c, on the calling hart: detects its support; switches to another world; and starts its host, with zeros. */
#define FLOATS_DIRTY (3ul << 13) /* FS of mstatus */
void floats_find(struct world *self);
void floats_change(const struct world *self, const struct registers *next, uint64_t status);
void floats_at_start(struct world *self);

/* harts.c: the states of the harts, hart h in bit h. A hart in neither word is stopped. Only the lock holder changes them. */
struct harts {
    uint64_t count, started, pending;
};
extern struct harts harts;
static inline int is_started(uint64_t hart)
{
    return harts.started >> hart & 1;
}
/* Reads the states, which may change meanwhile if the caller lacks the lock; or writes them, with the lock. A hart in `started` is
   started, whatever `pending` contains. Reading `started` first, and writing `pending` first, gives a state that did exist. */
static inline struct harts seen_harts(void)
{
    struct harts seen = {.count = harts.count};
    seen.started = __atomic_load_n(&harts.started, __ATOMIC_ACQUIRE);
    seen.pending = harts.pending;
    return seen;
}
static inline void put_harts(const struct harts *states)
{
    harts.pending = states->pending;
    __atomic_store_n(&harts.started, states->started, __ATOMIC_RELEASE);
}
static inline uint64_t this_hart(void)
{
    uint64_t hart;
    __asm__ volatile("csrr %0, mhartid" : "=r"(hart)::"memory");
    return hart;
}
/* Stops the harts of a set, hart h in bit h: from here on they run no world, and read nothing that others write about them. Harts of an
   earlier set that are not in this one continue. The caller holds the monitor's lock, and is not in the set. It waits for each hart
   without a limit. */
void stop_harts(uint64_t set);
/* Sends a hart a software interrupt, so that it takes it or rechecks its wait condition. */
void interrupt(uint64_t hart);
/* Makes a software interrupt pending for the host of a started hart. */
void interrupt_supervisor(uint64_t hart);
/* Makes the harts of a set, hart h in bit h, execute sfence.vma or fence.i, or both, before they continue their worlds. Returns whether
   each has done so within ten seconds. */
#define FENCE_VMA 1u
#define FENCE_I 2u
int fence_harts(uint64_t set, uint32_t kinds);
static inline void fence_here(uint32_t kinds)
{
    if (kinds & FENCE_VMA)
        __asm__ volatile("sfence.vma" ::: "memory");
    if (kinds & FENCE_I)
        __asm__ volatile("fence.i" ::: "memory");
}
/* Serves the requests of other harts to this one. */
void take_requests(struct world *self);
/* Called before this hart runs its world: waits while it is stopped, and serves requests. If something is stale, loads its entries, and
   executes sfence.vma and fence.i. */
void load_changes(struct world *self);
void start_others(void);
void unpark(uint64_t hart);

/* timer.c: machine mode's timer, and the host's, which is stimecmp if the hart has it. */
void timer_off(void);
void timer_at(uint64_t time);
uint64_t timer_now(void);
void host_timer_find(int has_stimecmp);
void host_timer_begin(void);
void host_timer_at(uint64_t time);
void host_timer_came(void);

/* uart.c, memory.c. Stopping the board here does not change memory. */
void put(const char *text);
void put_char(char c);
void put_hex(uint64_t number);
void put_number(int64_t number);
_Noreturn void power_off(uint64_t status);
_Noreturn void start_again(void);
void *memcpy(void *to, const void *from, size_t n);
void *memmove(void *to, const void *from, size_t n);
void *memset(void *to, int value, size_t n);

/* Copies 64-bit words to a place that does not overlap. With a constant number each word is one load and one store. */
static inline __attribute__((always_inline)) void copy_words(uint64_t *to, const uint64_t *from, unsigned n)
{
#pragma GCC unroll 64
    for (unsigned i = 0; i < n; i++)
        to[i] = from[i];
}

/* The platform as a frame: that of the build until find_board has restricted it. */
extern const struct platform_frame *platform;
static inline unsigned hart_count(void)
{
    return (unsigned)platform->harts;
}

/* board.c: restricts the platform to the harts and the memory of the board's device tree, and edits the tree for the host. */
void find_board(uint64_t tree);
/* Prints what starts, in one line: the version, the harts, their entries, and whether a host is loaded at this address. */
void tell_start(uint64_t host);

#define READ(csr)                                                                                                      \
    ({                                                                                                                 \
        uint64_t value_;                                                                                               \
        __asm__ volatile("csrr %0, " #csr : "=r"(value_)::"memory");                                                   \
        value_;                                                                                                        \
    })
#define SWAP(csr, value)                                                                                               \
    ({                                                                                                                 \
        uint64_t value_;                                                                                               \
        __asm__ volatile("csrrw %0, " #csr ", %1" : "=r"(value_) : "r"((uint64_t)(value)) : "memory");                  \
        value_;                                                                                                        \
    })
#define WRITE(csr, value) __asm__ volatile("csrw " #csr ", %0" ::"r"((uint64_t)(value)) : "memory")
#define SET(csr, bits) __asm__ volatile("csrs " #csr ", %0" ::"r"((uint64_t)(bits)) : "memory")
#define CLEAR(csr, bits) __asm__ volatile("csrc " #csr ", %0" ::"r"((uint64_t)(bits)) : "memory")

/* Returns whether the hart supports an instruction, which may change t1. Otherwise it is illegal, and the monitor returns from that trap
   with mret: on a hart with Smdbltrp a second trap before that would be fatal. */
#define DOES(instruction)                                                                                              \
    ({                                                                                                                 \
        uint8_t does_it_;                                                                                              \
        __asm__ volatile("la t0, 1f\n csrrw t0, mtvec, t0\n li %0, 1\n " instruction                                   \
                         "\n j 2f\n .balign 4\n1: li %0, 0\n la t1, 2f\n csrw mepc, t1\n mret\n2: csrw mtvec, t0"      \
                         : "=&r"(does_it_)::"t0", "t1", "memory");                                                     \
        does_it_;                                                                                                      \
    })
/* Returns whether it has a register. */
#define IS_THERE(csr) IS_THERE_(csr)
#define IS_THERE_(csr) DOES("csrr t1, " #csr)

/* Bits of mip and mie. */
#define SOFTWARE_OF_SUPERVISOR (1ul << 1)
#define TIMER_OF_SUPERVISOR (1ul << 5)
#define EXTERNAL_OF_SUPERVISOR (1ul << 9)

#define INTERRUPT (1ul << 63) /* of a cause */
#endif
