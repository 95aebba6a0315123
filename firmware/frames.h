/* The frames between the board and the proved monitor: little-endian 64-bit words (docs/formats/calls.md, "Frames"). */
#ifndef FRAMES_H
#define FRAMES_H
#include <stddef.h>
#include <stdint.h>

/* A tag consists of up to eight letters, padded with zeros. */
#define TAG(a, b, c, d, e, f, g, h)                                                                                    \
    ((uint64_t)(a) | (uint64_t)(b) << 8 | (uint64_t)(c) << 16 | (uint64_t)(d) << 24 | (uint64_t)(e) << 32 |            \
     (uint64_t)(f) << 40 | (uint64_t)(g) << 48 | (uint64_t)(h) << 56)
#define TAG_CALL TAG('c', 'a', 'l', 'l', 0, 0, 0, 0)
#define TAG_STOP TAG('s', 't', 'o', 'p', 0, 0, 0, 0)
#define TAG_PAGE TAG('p', 'a', 'g', 'e', 0, 0, 0, 0)
#define TAG_ANSWER TAG('a', 'n', 's', 'w', 'e', 'r', 0, 0)
#define TAG_MEASURE TAG('m', 'e', 'a', 's', 'u', 'r', 'e', 0)
#define TAG_END TAG('e', 'n', 'd', 0, 0, 0, 0, 0)

#define PAGE 4096ul
#define MOST_RANGES 32

/* Read first: the platform. */
struct platform_frame {
    uint64_t tag, harts, entries, monitor_base, monitor_size, ram_count, device_count;
    struct {
        uint64_t base, size;
    } ram[MOST_RANGES];
    struct {
        uint64_t base, size, perm;
    } device[MOST_RANGES];
};

/* Read for each trap: a call, or a stop of an enclave by an interrupt or a forbidden operation. call[0] is a0. mie and scounteren are
   the trapping world's control words from which those of an enclave are derived. */
struct trap_frame {
    uint64_t tag, hart, call[8], mie, scounteren;
};

/* Read for each page that the monitor requests. */
struct page_frame {
    uint64_t tag, page;
    uint8_t bytes[PAGE];
};

/* A list of entries: the number in use, and the registers, pmpcfg0, pmpcfg2, .. and pmpaddr0, pmpaddr1, .. */
struct bank {
    uint64_t used, cfg[8], addr[64];
};

/* A change of a register set: that of an enclave by number, or if `whose` is 0 that of the host of the answer's hart. The pc moves past
   a call; two words are stored in a0 and a1; all is zero except the pc and a0, which are `first` and `whose`; or all is zero. */
enum { NO_CHANGE, PAST_CALL, TWO_WORDS, FIRST_ENTRY, ALL_ZERO };
struct set_change {
    uint64_t kind, whose, first, second;
};

/* An enclave's values of the control registers, which control.c lists. */
struct control_words {
    uint64_t status, satp, mie, scounteren, senvcfg, hstatus, medeleg, mideleg, mode;
};

/* Written: the state with which a hart continues. The new lists of entries follow it, list_count of them: the host's, and that of the
   created enclave, whose number is the value; and then control words, 9 if a host enters an enclave and otherwise 0. The changes are
   made in their order. */
struct answer_frame {
    uint64_t tag, hart, world, status, value, used, zero_first, zero_count, wake, list_count, word_count;
    struct set_change changes[3];
    struct bank lists[];
};

/* Written: consecutive pages to be read. */
struct measure_frame {
    uint64_t tag, first, count;
};

/* Written last: the reason why the loop ended. */
struct end_frame {
    uint64_t tag, reason, detail;
};

_Static_assert(sizeof(struct platform_frame) == 1336, "167 words");
_Static_assert(sizeof(struct trap_frame) == 96, "12 words");
_Static_assert(sizeof(struct page_frame) == 4112, "514 words");
_Static_assert(sizeof(struct answer_frame) == 184, "23 words");
_Static_assert(sizeof(struct bank) == 584 && sizeof(struct control_words) == 72, "73 words of a list, 9 of control");
#endif
