/*
 * pmpmon_enclave.h - an enclave in C, for RV64: its entry point, its stops and exit, and the data from its loader.
 *
 *   #include "pmpmon_enclave.h"
 *   uint64_t enclave_main(uint64_t id, volatile struct pmpmon_page *page)
 *   {
 *       (void)id, (void)page;
 *       pmpmon_say("hello\n");
 *       return 42;                      it exits with this value
 *   }
 *
 * examples/linux/enclaves has a linker script and a Makefile. They build an ELF file of three parts: text, which is readable
 * and executable; data, which is readable and writable, with a stack after the variables; and the number of pages shared with
 * the host. These are PMPMON_SHARED_AT bytes after the first page, so that private pages of enclaves can be adjacent. The
 * enclave runs at any address.
 *
 * Text and data are private to the enclave and are in its digest. The shared pages also belong to the host: their contents may
 * be wrong, and may change between two reads. Copy data before you check it. An enclave can use floating point if its hart has
 * it: the registers are its own, and zero at its first entry. Vector registers are disabled: use -march=rv64gc -mabi=lp64d. An
 * enclave can read the time with rdtime if its host's programs can.
 */
#ifndef PMPMON_ENCLAVE_H
#define PMPMON_ENCLAVE_H

#include "pmpmon_calls.h"
#include <stddef.h>

#ifdef __cplusplus
extern "C" {
#endif

/* The offset of the shared pages from the first page: after the maximum number of private pages. */
#define PMPMON_SHARED_AT 0x400000ul

/* The type of the program header with the number of shared pages: "pmpm". */
#define PMPMON_PT_SHARED 0x6d706d70u

/* "pmpmon 1", little-endian. */
#define PMPMON_PAGE_MAGIC 0x31206e6f6d706d70ul

/* The first shared page, which the loader writes before the first entry. Do not trust it: the host controls all of it. */
struct pmpmon_page {
    uint64_t magic;
    uint64_t text_pages, data_pages, shared_pages;
    uint64_t untrusted_seed[4]; /* numbers chosen by the host, which knows them */
    uint64_t words_bytes;       /* bytes of `words`, each of which ends with a zero */
    uint64_t in_bytes;          /* bytes of input from the loader, after this page */
    uint64_t said_bytes;        /* bytes of `said`: at a stop the loader prints them and zeroes this */
    uint64_t reserved[5];
    char words[1024];
    char said[2944];
};

/* A loader uses only the page above; the rest is for the enclave. */
#ifndef PMPMON_LOADER

/* The main function of an enclave, which the program defines. It returns the exit value. */
uint64_t enclave_main(uint64_t id, volatile struct pmpmon_page *page);

/* From the linker script: the first shared page, and the address after the last. */
extern char pmpmon_shared[], pmpmon_shared_end[];

/* The entry point, reached with the id in a0 and zeros in the other registers: sets up a stack and calls enclave_main. */
__asm__(".pushsection .text.start, \"axG\", @progbits, pmpmon_start, comdat\n"
        "    .weak   _start\n"
        "_start:\n"
        "    lla     sp, pmpmon_stack_end\n"
        "    lla     a1, pmpmon_shared\n"
        "    call    enclave_main\n"
        "1:  li      a7, 0x08454E43\n"
        "    li      a6, 5\n"
        "    ecall\n"
        "    j       1b\n"
        "    .popsection\n");

static inline volatile struct pmpmon_page *pmpmon_page(void)
{
    return (volatile struct pmpmon_page *)(void *)pmpmon_shared;
}

/* The shared pages after the first, for data between host and enclave. */
static inline volatile uint8_t *pmpmon_buffer(void)
{
    return (volatile uint8_t *)(pmpmon_shared + sizeof(struct pmpmon_page));
}

static inline size_t pmpmon_buffer_size(void)
{
    return (size_t)(pmpmon_shared_end - pmpmon_shared) - sizeof(struct pmpmon_page);
}

/* Prints a text: stops so that the loader prints it, several times for a longer text. */
static inline void pmpmon_say(const char *text)
{
    volatile struct pmpmon_page *page = pmpmon_page();
    while (*text) {
        size_t n = 0;
        for (; text[n] && n < sizeof page->said; n++)
            page->said[n] = text[n];
        page->said_bytes = n;
        pmpmon_stop();
        text += n;
    }
}

static inline void pmpmon_say_hex(uint64_t number)
{
    char digits[17];
    for (int i = 0; i < 16; i++)
        digits[i] = "0123456789abcdef"[number >> (60 - 4 * i) & 15];
    digits[16] = 0;
    pmpmon_say(digits);
}

/* Functions that compilers call for blocks of bytes, unless the enclave defines its own. */
__attribute__((weak)) void *memcpy(void *to, const void *from, size_t n)
{
    for (size_t i = 0; i < n; i++)
        ((char *)to)[i] = ((const char *)from)[i];
    return to;
}

__attribute__((weak)) void *memset(void *to, int value, size_t n)
{
    for (size_t i = 0; i < n; i++)
        ((char *)to)[i] = (char)value;
    return to;
}

#endif

#ifdef __cplusplus
}
#endif
#endif
