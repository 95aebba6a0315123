/*
 * The proved loop's interface to the board, in the form of the C library: it reads frames from standard input and writes
 * frames to standard output. Reading the next trap runs the hart's world; writing an answer applies it.
 */
#include "board.h"

/* The list of the host, and that of each enclave by number, without the words for entries that a hart lacks. */
struct bank host_bank;
static uint64_t enclave_banks[MOST_ENCLAVES + 1][9 + ENTRIES];

/* A hart starts with the host's entries and with fences, and hart 0 also with the lock. */
#define AT_START(hart) {.registers = &register_sets[hart], .is_stale = 1, .bank = &host_bank, .ticket = (hart) ? ~0ul : 0}
struct world worlds[MOST_HARTS] = {AT_START(0), AT_START(1), AT_START(2), AT_START(3)};

/* The next requested page to read. */
static uint64_t next_page;

static int is_ram(uint64_t page)
{
    for (uint64_t i = 0; i < platform->ram_count; i++)
        if (page - platform->ram[i].base / PAGE < platform->ram[i].size / PAGE)
            return 1;
    return 0;
}

/* Returns whether the monitor may read or write a page of a world: it is RAM outside the monitor's range. */
static int is_worlds(uint64_t page)
{
    return is_ram(page) && page - platform->monitor_base / PAGE >= platform->monitor_size / PAGE;
}

int64_t put_trap(const struct world *world, uint64_t tag, struct trap_frame *frame)
{
    frame->tag = tag;
    frame->hart = this_hart();
    copy_words(frame->call, world->registers->x + 10, 8);
    return control_told(frame);
}

static __attribute__((noinline)) int64_t read_page(struct page_frame *frame)
{
    if (!is_worlds(next_page))
        return -1;
    frame->tag = TAG_PAGE;
    frame->page = next_page++;
    memcpy(frame->bytes, (const void *)(frame->page * PAGE), PAGE);
    return sizeof *frame;
}

/* The loop's frames are bytes. They must be aligned for access as words (tools/retarget), otherwise nothing is served. */
static int is_aligned(const void *at)
{
    return (uintptr_t)at % sizeof(uint64_t) == 0;
}

/* The loop reads whole frames and nothing else: the length determines the kind of frame. */
int64_t read(uint64_t descriptor, void *to, uint64_t n)
{
    (void)descriptor;
    if (!is_aligned(to))
        return -1;
    if (n == sizeof(struct trap_frame))
        return next_trap(to);
    if (n == sizeof(struct page_frame))
        return read_page(to);
    if (n != sizeof(struct platform_frame))
        return -1;
    memcpy(to, platform, n);
    return (int64_t)n;
}

int differ(const uint64_t *a, const uint64_t *b, unsigned count)
{
    for (unsigned i = 0; i < count; i++)
        if (a[i] != b[i])
            return 1;
    return 0;
}

void make_zero(uint64_t first, uint64_t count)
{
    for (uint64_t page = first; page < first + count; page++)
        if (is_worlds(page))
            memset((void *)(page * PAGE), 0, PAGE);
}

/* The harts that run the host are the one that continues and those to wake, which are stopped only while its list changes. An enclave
   with a new list is not running. */
static __attribute__((noinline)) void change_lists(const struct answer_frame *answer)
{
    stop_harts(answer->wake);
    host_bank = answer->lists[0];
    if (answer->list_count > 1)
        copy_words(enclave_banks[answer->value], &answer->lists[1].used, 9 + ENTRIES);
    for (unsigned hart = 0; hart < hart_count(); hart++)
        if ((answer->wake | 1ul << answer->hart) >> hart & 1)
            worlds[hart].is_stale = 1;
    stop_harts(0); /* they continue */
    answered(answer);
}

/* Switches to another world. The host's status is read before the floating-point registers are enabled. */
static inline void change_world(struct world *self, const struct answer_frame *answer)
{
    uint64_t status = READ(mstatus);
    struct registers *next = registers_of(answer->hart, answer->world);
    floats_change(self, next, status);
    self->number = answer->world;
    self->registers = next;
    self->is_stale = 1;
    if (answer->world) {
        self->bank = (const struct bank *)enclave_banks[answer->world];
        control_enter(self, (const struct control_words *)&answer->lists[answer->list_count], status);
    } else {
        self->bank = &host_bank;
        control_leave(self);
    }
}

/* Applies an answer that changes more than registers. No world can access the pages being zeroed: they were an enclave's, and the host
   has no access until its entries change. */
static __attribute__((noinline)) int64_t written_change(struct world *self, const struct answer_frame *answer, uint64_t n)
{
    if (answer->list_count > 2 || n != sizeof *answer + answer->list_count * sizeof answer->lists[0] + 8 * answer->word_count)
        return -1;
    if (answer->world && answer->world != self->number && answer->word_count != 9)
        return -1; /* the control words are missing */
    if (answer->zero_count)
        private_end(answer->zero_first, answer->zero_count);
    if (answer->list_count)
        change_lists(answer);
    if (self->number != answer->world)
        change_world(self, answer);
    return registers_change(n, answer);
}

/* An answer has created an enclave, whose number is in a1 of its hart. Its pages are requested while other harts run. */
static __attribute__((noinline)) int64_t written_measure(const struct measure_frame *asked)
{
    next_page = asked->first;
    private_begin(worlds[this_hart()].registers->x[11], asked->first, asked->count);
    return sizeof *asked;
}

/* Most answers have no lists, and leave the hart in its world. */
int64_t write(uint64_t descriptor, const void *from, uint64_t n)
{
    const struct answer_frame *answer = from;
    (void)descriptor;
    if (!is_aligned(from))
        return -1;
    if (n == sizeof *answer && answer->world == worlds[answer->hart].number)
        return registers_change(n, answer);
    if (n >= sizeof *answer)
        return written_change(&worlds[answer->hart], answer, n);
    if (n == sizeof(struct measure_frame) && answer->tag == TAG_MEASURE)
        return written_measure(from);
    if (n == sizeof(struct end_frame))
        ended(from);
    return -1;
}

/* The error number for standard input and output: EIO. */
int rattle_errno(void)
{
    return 5;
}

/* A trap of the monitor itself is fatal. */
_Noreturn void trapped(uint64_t cause, uint64_t pc, uint64_t value)
{
    forget();
    put("monitor: trapped ");
    put_hex(cause);
    put(" ");
    put_hex(pc);
    put(" ");
    put_hex(value);
    put("\n");
    end_board(1);
}

_Noreturn void served(int64_t told)
{
    end_because("the loop ended with ", told);
}
