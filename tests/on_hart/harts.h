/* What a host of harts.S has. */
#ifndef HARTS_H
#define HARTS_H
#include "board.h"
#include "pmpmon_calls.h"

#define HSM 0x48534dul
#define RFENCE 0x52464e43ul
#define IPI 0x735049ul
#define TIME 0x54494d45ul
#define RESET 0x53525354ul
/* Where a host of these tests has its enclave, and what QEMU was given for it to read. */
#define BASE 0x85000000ul
#define KIND (*(volatile uint64_t *)0x86001000ul)

long load_at(const uint64_t *at, uint64_t *value);
long word_at(uint64_t at);
long store_at(uint64_t *at, uint64_t value);
long csr_cycle(uint64_t *value);
long csr_time(uint64_t *value);
long csr_instret(uint64_t *value);
void second_entry(void);
extern const uint8_t enclave[], enclave_end[];

static inline void say(const char *what, uint64_t number)
{
    put(what);
    put(" ");
    put_number((int64_t)number);
    put("\n");
}

static inline uint64_t time(void)
{
    uint64_t now;
    __asm__ volatile("rdtime %0" : "=r"(now));
    return now;
}

static inline int64_t start(uint64_t hart, void (*function)(uint64_t))
{
    return pmpmon_call(HSM, 0, hart, (uint64_t)second_entry, (uint64_t)function, 0, 0, 0).error;
}

/* Makes an enclave of a page of code and a page of data. */
static inline struct pmpmon_answer make(uint64_t base)
{
    memset((void *)base, 0, 2 * PAGE);
    memcpy((void *)base, enclave, (size_t)(enclave_end - enclave));
    return pmpmon_create(base, 1, 1, 0, 0, 0);
}

static inline void off(void)
{
    pmpmon_call(RESET, 0, 0, 0, 0, 0, 0, 0);
}
#endif
