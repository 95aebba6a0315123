/*
 * Performs the events of a trace in the world that runs on the hart: with its own mode, registers and entries, and an instruction
 * that is written temporarily to memory which the world may execute, as a debugger does.
 */
#include "trace.h"

#define EBREAK 0x00100073u
#define EBREAK_SHORT 0x9002u
#define ECALL_WORD 0x00000073u
#define JUMP_TO_SELF 0x0000006fu
#define VALUE 30 /* the registers of a load or store for a trace */
#define ADDRESS 31
#define CAUSE_BREAKPOINT 3
#define SUPERVISOR (1ul << 11)
#define MODE (3ul << 11 | 1ul << 39) /* MPP and MPV of mstatus */

static struct {
    uint64_t base, pages;
} enclaves[MOST_ENCLAVES + 1];

void enclave_made(uint64_t id, uint64_t base, uint64_t pages)
{
    enclaves[id].base = base;
    enclaves[id].pages = pages;
}

void enclave_gone(uint64_t id)
{
    enclaves[id].pages = 0;
}

static _Noreturn void wrong(const char *what, uint64_t number)
{
    put("trace: ");
    put(what);
    put(" ");
    put_hex(number);
    put("\n");
    power_off(1);
}

static int is_in_range(uint64_t address, uint64_t base, uint64_t size)
{
    return address - base < size;
}

static int is_owned(uint64_t address)
{
    for (unsigned id = 1; id <= MOST_ENCLAVES; id++)
        if (is_in_range(address, enclaves[id].base, enclaves[id].pages * PAGE))
            return 1;
    return is_in_range(address, platform->monitor_base, platform->monitor_size);
}

static int is_in_ram(uint64_t address, uint64_t size)
{
    for (uint64_t i = 0; i < platform->ram_count; i++)
        if (is_in_range(address, platform->ram[i].base, platform->ram[i].size) &&
            is_in_range(address + size - 1, platform->ram[i].base, platform->ram[i].size))
            return 1;
    return 0;
}

/* Returns the last page of memory that belongs only to the host. */
static uint64_t page_of_host(void)
{
    for (uint64_t i = platform->ram_count; i-- > 0;)
        for (uint64_t n = platform->ram[i].size / PAGE; n-- > 0;)
            if (!is_owned(platform->ram[i].base + n * PAGE))
                return platform->ram[i].base + n * PAGE;
    wrong("the host has no page to execute from", 0);
}

/* Returns a place for two instructions that the world on this hart may execute, apart from the bytes that it accesses. */
static uint64_t place_apart(uint64_t address, uint64_t size)
{
    uint64_t id = worlds[this_hart()].number, place = id ? enclaves[id].base : page_of_host();
    while (address < place + 8 && place < address + size)
        place += 8;
    return place;
}

/* Executes the world of this hart at a place in some mode, with these registers instead of its own, until a trap. Returns the cause. */
static uint64_t execute(struct registers *registers, uint64_t place, uint64_t mode)
{
    struct world *self = &worlds[this_hart()];
    struct registers *own = self->registers;
    uint64_t status = READ(mstatus);
    registers->pc = place;
    self->registers = registers;
    WRITE(mstatus, (status & ~MODE) | mode);
    self->is_stale = 1; /* its instructions were just written */
    load_changes(self);
    run_world(self);
    WRITE(mstatus, status);
    self->registers = own;
    return self->cause;
}

/* No trap of a trace is served by a hart alone. */
int serve_alone(struct world *world)
{
    (void)world;
    return 0;
}

/* Checks that every register not named by the instruction is unchanged. */
static void same_registers(const struct registers *registers, int all)
{
    for (unsigned n = 1; n < 32; n++)
        if ((all || (n != VALUE && n != ADDRESS)) && registers->x[n] != worlds[this_hart()].registers->x[n])
            wrong("a register is not as it was:", n);
}

static uint32_t instruction_for(const struct event *event)
{
    uint32_t width = event->size == 8 ? 3 : event->size == 4 ? 2 : event->size == 2 ? 1 : 0;
    if (event->kind == LOAD)
        return 0x03u | VALUE << 7 | (event->size == 8 ? 3 : 4 + width) << 12 | ADDRESS << 15;
    return 0x23u | width << 12 | ADDRESS << 15 | VALUE << 20;
}

static int64_t load_or_store(const struct event *event, uint64_t *loaded)
{
    uint64_t place = place_apart(event->address, event->size);
    volatile uint32_t *code = (volatile uint32_t *)place;
    uint32_t first = code[0], second = code[1];
    struct registers registers = *worlds[this_hart()].registers;
    uint64_t cause;
    registers.x[VALUE] = event->value;
    registers.x[ADDRESS] = event->address;
    code[0] = instruction_for(event);
    code[1] = EBREAK;
    cause = execute(&registers, place, event->mode ? SUPERVISOR : 0);
    code[0] = first;
    code[1] = second;
    same_registers(&registers, 0);
    *loaded = registers.x[VALUE];
    if (cause == CAUSE_BREAKPOINT && registers.pc == place + 4)
        return -1;
    if (registers.pc != place || worlds[this_hart()].value != event->address)
        wrong("an access trapped otherwise:", cause);
    return (int64_t)cause;
}

/* Fetches an instruction: a breakpoint in memory outside the monitor's range, and the existing bytes elsewhere. */
static int64_t fetch(const struct event *event)
{
    uint64_t address = event->address;
    int is_planted = is_in_ram(address, event->size) && !is_in_range(address, platform->monitor_base, platform->monitor_size);
    volatile uint16_t *code = (volatile uint16_t *)address;
    uint16_t first = is_planted ? code[0] : 0, second = is_planted && event->size == 4 ? code[1] : 0;
    struct registers registers = *worlds[this_hart()].registers;
    uint64_t cause;
    if (is_planted) {
        code[0] = event->size == 4 ? (uint16_t)EBREAK : EBREAK_SHORT;
        if (event->size == 4)
            code[1] = (uint16_t)(EBREAK >> 16);
    }
    cause = execute(&registers, address, event->mode ? SUPERVISOR : 0);
    if (is_planted) {
        code[0] = first;
        if (event->size == 4)
            code[1] = second;
    }
    same_registers(&registers, 1);
    if (cause == CAUSE_BREAKPOINT && registers.pc == address)
        return -1;
    return (int64_t)cause;
}

/* A hart may support misaligned accesses; in the model misalignment is a fault that precedes all others. */
int64_t do_access(const struct event *event, uint64_t *loaded)
{
    static const int64_t misaligned[] = {0, 4, 6};
    if (event->address % event->size)
        return misaligned[event->kind];
    return event->kind == FETCH ? fetch(event) : load_or_store(event, loaded);
}

/* Executes one instruction of the world in its own mode, with its registers unchanged. */
static uint64_t one_instruction(uint32_t instruction)
{
    uint64_t place = place_apart(0, 0);
    volatile uint32_t *code = (volatile uint32_t *)place;
    uint32_t first = code[0];
    struct registers registers = *worlds[this_hart()].registers;
    uint64_t cause;
    code[0] = instruction;
    cause = execute(&registers, place, READ(mstatus) & MODE);
    code[0] = first;
    same_registers(&registers, 1);
    if (registers.pc != place)
        wrong("an instruction trapped elsewhere:", registers.pc);
    return cause;
}

void do_ecall(void)
{
    uint64_t cause = one_instruction(ECALL_WORD);
    if (cause != (worlds[this_hart()].number ? CAUSE_CALL_OF_USER : CAUSE_CALL_OF_SUPERVISOR))
        wrong("a call trapped otherwise:", cause);
}

void do_interrupt(void)
{
    timer_at(timer_now() + 1);
    uint64_t cause = one_instruction(JUMP_TO_SELF);
    timer_off();
    if (cause != CAUSE_TIMER)
        wrong("the timer trapped otherwise:", cause);
}
