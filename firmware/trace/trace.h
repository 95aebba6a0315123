/* A trace, in the form in which ./pmpmon-on-hart puts it after the image. */
#ifndef TRACE_H
#define TRACE_H
#include "board.h"

enum kind { FETCH, LOAD, STORE, REG, ECALL, IRQ };

struct event {
    uint64_t kind, hart;
    uint64_t mode; /* of an access: 0 user, 1 supervisor */
    uint64_t size; /* of an access; for `reg` the register */
    uint64_t address, value;
    uint64_t count, words[8]; /* of `ecall` */
};

struct trace {
    uint64_t count;
    uint64_t refused_call; /* the number of the allocation that fails, from 1, or 0 for none */
    uint64_t has_notes;    /* whether lines `note NAME N` follow the report */
    struct event events[];
};

/* Both are in the range of the monitor, after its image. */
#define PLATFORM_AT 0x80060000ul
#define TRACE_AT 0x80061000ul

/* Causes of traps (Privileged Architecture, mcause). */
#define CAUSE_CALL_OF_USER 8
#define CAUSE_CALL_OF_SUPERVISOR 9
#define CAUSE_TIMER (INTERRUPT | 7)

/* worlds.c: makes an access on this hart in its world, and returns the cause of its fault, or -1 with the loaded value; makes the
   world execute an ecall; interrupts it by the timer. */
int64_t do_access(const struct event *event, uint64_t *loaded);
void do_ecall(void);
void do_interrupt(void);
/* Record the pages of created and destroyed enclaves, so that a world has a place to execute from. */
void enclave_made(uint64_t id, uint64_t base, uint64_t pages);
void enclave_gone(uint64_t id);

/* turns.S: passes the monitor to another hart, and waits. */
void pass_monitor(uint64_t hart);
#endif
