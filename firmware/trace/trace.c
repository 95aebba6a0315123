/*
 * Replaces traps.c: the worlds perform the events of a trace, and each event has its line, in the format of `pmpmon run`.
 */
#include "trace.h"
#include "heap.h"

const struct platform_frame *platform = (const struct platform_frame *)PLATFORM_AT;
static const struct trace *trace = (const struct trace *)TRACE_AT;
static const struct event *now;
static uint64_t number, asked[3];
/* The maximum number of instructions from a trap to its answer: for a call that creates or destroys an enclave, and for others. */
static uint64_t since, most_owning, most_other;
extern const uint64_t stack_start[], stack_end[];

static void begin(void)
{
    static uint8_t has_begun[MOST_HARTS];
    if (has_begun[this_hart()])
        return;
    has_begun[this_hart()] = 1;
    control_at_start();
    /* All traps of the host are handled here. */
    WRITE(medeleg, 0);
    WRITE(mideleg, 0);
}

static void put_front(void)
{
    put_number((int64_t)number);
}

static void access_told(int64_t cause, uint64_t loaded)
{
    put_front();
    if (cause >= 0) {
        put(" fault ");
        put_number(cause);
    } else {
        put(" ok");
        if (now->kind == LOAD) {
            put(" ");
            put_hex(loaded);
        }
    }
    put("\n");
}

static void set_words(struct world *world)
{
    static const unsigned order[] = {17, 16, 10, 11, 12, 13, 14, 15};
    for (uint64_t i = 0; i < now->count; i++)
        world->registers->x[order[i]] = now->words[i];
}

/* Performs an event that does not concern the monitor, if it is one. */
static int is_done(void)
{
    struct world *world = &worlds[this_hart()];
    uint64_t loaded = 0;
    switch (now->kind) {
    case REG:
        if (now->size)
            world->registers->x[now->size] = now->value;
        put_front();
        put(" ok\n");
        return 1;
    case FETCH:
    case LOAD:
    case STORE: {
        int64_t cause = do_access(now, &loaded);
        access_told(cause, loaded);
        return 1;
    }
    default:
        return 0;
    }
}

static void note(const char *name, uint64_t value)
{
    put("note ");
    put(name);
    put(" ");
    put_number((int64_t)value);
    put("\n");
}

static void put_notes(void)
{
    const uint64_t *at = stack_start;
    while (*at == STACK_MARK)
        at++;
    note("stack", (uint64_t)(stack_end - at) * 8);
    note("heap", heap_most);
    note("blocks", heap_blocks);
    note("allocations", heap_calls);
    note("owning", most_owning);
    note("other", most_other);
}

static int64_t trapped_as(uint64_t tag, struct trap_frame *frame)
{
    since = instructions();
    return put_trap(&worlds[this_hart()], tag, frame);
}

int64_t next_trap(struct trap_frame *frame)
{
    while (number < trace->count) {
        now = &trace->events[number++];
        if (now->hart != this_hart())
            pass_monitor(now->hart);
        begin();
        if (is_done())
            continue;
        struct world *world = &worlds[this_hart()];
        if (now->kind == IRQ) {
            do_interrupt();
            asked[0] = ~0ul;
            return trapped_as(TAG_STOP, frame);
        }
        set_words(world);
        const uint64_t *x = world->registers->x;
        asked[0] = x[16];
        asked[1] = x[10];
        asked[2] = x[11] + x[12];
        do_ecall();
        return trapped_as(TAG_CALL, frame);
    }
    if (trace->has_notes)
        put_notes();
    power_off(0);
}

static void note_enclave(const struct answer_frame *answer)
{
    if (answer->status || answer->world)
        return;
    if (asked[0] == 0)
        enclave_made(answer->value, asked[1], asked[2]);
    if (asked[0] == 1)
        enclave_gone(asked[1]);
}

void answered(const struct answer_frame *answer)
{
    (void)answer;
    if (now)
        return;
    begin();
    start_others();
}

/* Prints the line of an event, given its answer. */
static void tell(const struct answer_frame *answer)
{
    uint64_t took = instructions() - since, *most = asked[0] < 2 ? &most_owning : &most_other;
    *most = took > *most ? took : *most;
    put_front();
    if (now->kind == ECALL) {
        /* Only a creation or a destruction leaves the host on the hart and has one of these functions. */
        note_enclave(answer);
        put(" call ");
        put_number((int64_t)answer->status);
        put(" ");
        put_hex(answer->value);
    } else {
        put(" irq");
    }
    put(" ");
    put_number((int64_t)answer->world);
    put(" ");
    put_number((int64_t)answer->used);
    put("\n");
}

/* The linker redirects the loop's writes here, so that each answer prints its line. */
int64_t __real_write(uint64_t descriptor, const void *from, uint64_t n);
int64_t __wrap_write(uint64_t descriptor, const void *from, uint64_t n)
{
    int64_t done = __real_write(descriptor, from, n);
    if (now && *(const uint64_t *)from == TAG_ANSWER)
        tell(from);
    return done;
}

_Noreturn void ended(const struct end_frame *end)
{
    put("end ");
    put_number((int64_t)end->reason);
    put(" ");
    put_number((int64_t)end->detail);
    put("\n");
    power_off(1);
}

/* Zeroes the device tree that the board leaves in memory, because the worlds of a trace expect zeros. */
static void forget_tree(uint64_t at)
{
    const uint8_t *size = (const uint8_t *)at + 4;
    memset((void *)at, 0, (size_t)size[0] << 24 | (size_t)size[1] << 16 | (size_t)size[2] << 8 | size[3]);
}

void boot(uint64_t hart, uint64_t tree)
{
    (void)hart;
    forget_tree(tree);
    heap_refused_call = trace->refused_call;
}
