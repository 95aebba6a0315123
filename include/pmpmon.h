/*
 * pmpmon.h - minimal PMP entries for a memory map, for firmware and build tools in C and C++.
 *
 * PMP is the Physical Memory Protection of the RISC-V Privileged Architecture (volume II), for RV64. The functions are
 * proved: see crates/planner_for_c for the source, and README.md for the limits of the proof.
 *
 *   static const struct pmpmon_setting map[] = {
 *       {0x80000000, 0x8000000, PMPMON_RWX},    128 MiB of RAM
 *       {0x80000000, 0x200000, PMPMON_NONE},    the first 2 MiB belong to the firmware
 *   };
 *   struct pmpmon_registers registers;
 *   uint64_t at_fault;
 *   int64_t needed = pmpmon_plan(map, 2, 16, &registers, &at_fault);
 *   if (needed < 0 || needed > 16)
 *       ..                                      refused, or too many
 *
 * Loading the registers, in machine mode: write pmpaddr0, pmpaddr1, .. from addr[0], addr[1], .., then pmpcfg0 from
 * cfg[0], pmpcfg2 from cfg[1], and so on, then execute sfence.vma. A hart with 16 entries has addr[0] to addr[15], cfg[0]
 * and cfg[1]. Write all of them: those past the list are zero, which turns off older entries. No entry is locked, so
 * machine mode keeps all access during the writes.
 *
 * Calls: the functions have no state, and access the objects behind their pointers only during the call. No pointer may
 * be null, even if a count is 0. Outputs must not overlap any other argument. pmpmon_plan, pmpmon_needed and
 * pmpmon_check allocate memory and free all of it; pmpmon_judge does not allocate. On Linux they use malloc, realloc and
 * free, so do not call them in a signal handler, or in the child of a fork of a multithreaded process.
 *
 * Compiling for RV64: every parameter and every result has 64 bits, and new functions must keep this rule. The object
 * for a hart is compiled from a module that was lowered for x86-64, which does not extend shorter integers as the RV64
 * calling convention requires. That object is tested on QEMU (tests/on_hart), but the proofs do not cover it. A firmware
 * must supply rattle_alloc, rattle_realloc and rattle_dealloc, memcpy, memmove and memset; see firmware/ for an example.
 * Planning the maps of that test, of up to 16 entries, took at most 8 KB of heap and 22 KB of stack.
 */
#ifndef PMPMON_H
#define PMPMON_H

#include <stddef.h>
#include <stdint.h>

#ifdef __cplusplus
extern "C" {
#endif

/* Permissions of supervisor and user mode: read, write, execute and their sums. Writing without reading is reserved. */
#define PMPMON_NONE 0
#define PMPMON_R 1
#define PMPMON_RW 3
#define PMPMON_X 4
#define PMPMON_RX 5
#define PMPMON_RWX 7

/* One permission on whole pages. A later setting overrides an earlier one; pages without a setting have no access. */
struct pmpmon_setting {
    uint64_t base; /* the first address: a multiple of 4096 */
    uint64_t size; /* the number of bytes: a multiple of 4096; 0 changes nothing */
    uint64_t perm; /* PMPMON_NONE, _R, _RW, _X, _RX or _RWX */
};

/* The PMP registers of a hart with up to 64 entries. */
struct pmpmon_registers {
    uint64_t cfg[8];   /* cfg[i] is pmpcfg(2 * i): pmpcfg0, pmpcfg2, .. pmpcfg14 */
    uint64_t addr[64]; /* addr[i] is pmpaddr(i) */
};

/* Errors: an invalid setting, or a failed call. */
#define PMPMON_UNALIGNED_BASE (-1)  /* the base of a setting is not a multiple of 4096 */
#define PMPMON_UNALIGNED_SIZE (-2)  /* its size is not a multiple of 4096 */
#define PMPMON_UNKNOWN_PERM (-3)    /* its perm is not one of the six */
#define PMPMON_PAST_END (-4)        /* its last byte is at 2^56 or above */
#define PMPMON_TOO_MANY_RANGES (-5) /* with it the map has more than 4096 ranges of one permission other than none */
#define PMPMON_OUT_OF_MEMORY (-6)   /* an allocation failed; the settings so far are valid */

/*
 * Returns the number of entries that the map of `count` settings needs: the length of the shortest list of entries, of
 * any regions in any order, under which supervisor and user mode may do exactly what the map allows, for every naturally
 * aligned access. The number is at least 0, and may exceed 64.
 *
 * A negative number is an error. An error from PMPMON_UNALIGNED_BASE to PMPMON_TOO_MANY_RANGES is that of the first
 * invalid setting, whose index, from 0, is stored in *at_fault; if one setting has several errors, the first in the order
 * above is returned. Any other result leaves *at_fault unchanged.
 */
int64_t pmpmon_needed(const struct pmpmon_setting *settings, size_t count, uint64_t *at_fault);

/*
 * Like pmpmon_needed. If the number is at most `entries` and at most 64, stores these entries in *registers, from entry 0
 * on, followed by zeros: a hart that has loaded them lets supervisor and user mode do exactly what the map allows. Any
 * other result, an error or too many entries, leaves *registers unchanged. `entries` is the number of the hart's entries
 * that may be used.
 */
int64_t pmpmon_plan(const struct pmpmon_setting *settings, size_t count, uint64_t entries,
                    struct pmpmon_registers *registers, uint64_t *at_fault);

/* The mode and the kind of an access. */
#define PMPMON_USER 0
#define PMPMON_SUPERVISOR 1
#define PMPMON_MACHINE 3
#define PMPMON_LOAD 1
#define PMPMON_STORE 2
#define PMPMON_FETCH 4

struct pmpmon_access {
    uint64_t mode;    /* PMPMON_USER, PMPMON_SUPERVISOR or PMPMON_MACHINE */
    uint64_t kind;    /* PMPMON_LOAD, PMPMON_STORE or PMPMON_FETCH */
    uint64_t size;    /* the number of bytes: 1, 2, 4 or 8, for a fetch 2 or 4 */
    uint64_t address; /* the lowest address */
};

/* The outcome of an access: it is allowed, or raises an exception, given by its code in mcause. */
#define PMPMON_FETCH_MISALIGNED 0
#define PMPMON_FETCH_FAULT 1
#define PMPMON_LOAD_MISALIGNED 4
#define PMPMON_LOAD_FAULT 5
#define PMPMON_STORE_MISALIGNED 6
#define PMPMON_STORE_FAULT 7
#define PMPMON_ALLOWED 64

/* Errors of pmpmon_judge. It does not support registers with one of the last five: TOR and locked entries are legal on a
   hart, but this library has no list for them. */
#define PMPMON_UNKNOWN_ACCESS (-7) /* no access has this mode, kind and size */
#define PMPMON_RESERVED_PERM (-11) /* W without R */
#define PMPMON_TOR (-12)           /* the mode TOR */
#define PMPMON_LOCKED (-13)        /* the bit L */
#define PMPMON_RESERVED_BITS (-14) /* a bit of 6:5 of a configuration byte */
#define PMPMON_ADDRESS_BITS (-15)  /* a bit of 63:54 of an address register */

/*
 * Returns the outcome of an access on a hart that has loaded the registers and has `entries` entries, at most 64;
 * registers past them are ignored. The outcome is PMPMON_ALLOWED or the exception code of a fault. An address that is not
 * a multiple of the size is misaligned, before anything else is checked; an address at 2^56 or above is a fault in every
 * mode.
 *
 * A negative number is an error: PMPMON_UNKNOWN_ACCESS, or that of the first pair of a configuration byte and an address
 * register that is not supported; if one pair has several errors, the first in the order above is returned.
 */
int64_t pmpmon_judge(const struct pmpmon_registers *registers, uint64_t entries, const struct pmpmon_access *access);

/* Errors of a certificate, with the names that `pmpmon check` prints. */
#define PMPMON_BAD_MAGIC (-101)        /* the first four bytes are not "PMPC" */
#define PMPMON_BAD_VERSION (-102)      /* the version is neither 1 nor 2 */
#define PMPMON_TRUNCATED (-103)        /* the bytes end within a part */
#define PMPMON_BAD_TAG (-104)          /* a node begins with neither a leaf's tag nor a branch's */
#define PMPMON_BAD_PERM (-105)         /* a leaf has a byte that is not a permission */
#define PMPMON_BAD_ENTRY (-106)        /* the nine bytes of an entry are invalid */
#define PMPMON_SUB_PAGE_ENTRY (-107)   /* the region of an entry is smaller than a page */
#define PMPMON_TOO_DEEP (-108)         /* a page is split */
#define PMPMON_LEAF_NOT_UNIFORM (-109) /* a leaf's block has several permissions */
#define PMPMON_WRONG_LEAF (-110)       /* a leaf's block has another permission */
#define PMPMON_COST_TOO_HIGH (-111)    /* a cost of a split block exceeds the limit from its halves */
#define PMPMON_COST_OVERFLOW (-112)    /* the sum of the costs of a split block's halves overflows */
#define PMPMON_ENTRIES_TOO_MANY (-113) /* there are more entries than the root's cost */
#define PMPMON_WRONG_MEANING (-114)    /* the entries do not mean the map */
#define PMPMON_TRAILING (-115)         /* bytes follow the root */
#define PMPMON_BAD_LIMIT (-116)        /* the limit of a version 2 certificate is neither 16 nor 64 */

/*
 * Checks a certificate, as `pmpmon plan MAP CERTIFICATE` writes it. Returns the number of its entries if it shows that
 * they mean the map of the settings and that no shorter list does. A negative number is an error: of a setting, as from
 * pmpmon_needed, with its index in *at_fault; PMPMON_OUT_OF_MEMORY; or the first of those above, in the order of reading.
 * Any result except that of a setting leaves *at_fault unchanged.
 */
int64_t pmpmon_check(const struct pmpmon_setting *settings, size_t count, const uint8_t *certificate, size_t size,
                     uint64_t *at_fault);
#ifdef __cplusplus
}
#define PMPMON_LAYOUT(condition) static_assert(condition, #condition)
#elif defined(__STDC_VERSION__) && __STDC_VERSION__ >= 201112L
#define PMPMON_LAYOUT(condition) _Static_assert(condition, #condition)
#else
#define PMPMON_LAYOUT_NAME(line) pmpmon_layout_##line
#define PMPMON_LAYOUT_AT(condition, line) typedef char PMPMON_LAYOUT_NAME(line)[(condition) ? 1 : -1]
#define PMPMON_LAYOUT(condition) PMPMON_LAYOUT_AT(condition, __LINE__)
#endif
PMPMON_LAYOUT(sizeof(void *) == 8 && sizeof(size_t) == 8);
PMPMON_LAYOUT(sizeof(struct pmpmon_setting) == 24 && offsetof(struct pmpmon_setting, perm) == 16);
PMPMON_LAYOUT(sizeof(struct pmpmon_registers) == 576 && offsetof(struct pmpmon_registers, addr) == 64);
PMPMON_LAYOUT(sizeof(struct pmpmon_access) == 32 && offsetof(struct pmpmon_access, address) == 24);

#endif
