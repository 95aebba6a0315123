/* Loads registers and `mseccfg`, then does accesses in each mode, machine mode too, and tells each outcome on the serial line:
   `pmpaddr0 0xVALUE`, then `N ok` or `N fault CAUSE`. All accesses are in a window of memory that is filled with `ecall`
   before: a fetch that is allowed traps there by itself, and a store writes what is there. */
#include "hart.h"

enum mode { USER, SUPERVISOR, MACHINE = 3 };

struct access {
    word address;
    uint8_t kind;
    uint8_t mode;
    uint8_t log2_size;
};

#include "smepmp.h"

#define ECALL 0x0000007300000073ul

static sword outcome_of(const struct access *a)
{
    word mode = (word)a->mode << 11;
    if (a->kind == FETCH) {
        sword cause = attempt(8, a->address, 0, mode).cause;
        return cause == 8 + a->mode ? NONE : cause;
    }
    sword kind = a->log2_size + (a->kind == STORE ? 4 : 0);
    word value = ECALL >> 8 * (a->address & 3);
    return attempt(kind, a->address, value, a->mode == MACHINE ? mode : AS_IF | mode).cause;
}

void put_registers(void);

void put_registers(void)
{
    tell_registers(put_register);
}

void run(void)
{
    for (word at = WINDOW; at < WINDOW + WINDOW_SIZE; at += 8)
        *(volatile word *)at = ECALL;
    load_registers();
    __asm__ volatile("csrw 0x747, %0\n\tsfence.vma\n\tfence.i" : : "r"(MSECCFG) : "memory");
    put_registers();
    for (word i = 0; i < sizeof accesses / sizeof *accesses; i++) {
        sword outcome = outcome_of(&accesses[i]);
        put_number(i + 1);
        put(outcome == NONE ? " ok" : " fault ");
        if (outcome != NONE)
            put_number((word)outcome);
        put("\n");
    }
    *finisher = 0x5555;
}
