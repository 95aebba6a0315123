/* What the hart does before it loads its PMP registers, in machine mode: it plans the map of settings.h, and tells on the
   serial line what it found, as lines `note NAME N`. */
#include <stdint.h>
#include "heap.h"
#include "pmpmon.h"
#include "refusals.h"
#include "settings.h"
#include "answers.h"

#define COUNT(array) (sizeof(array) / sizeof *(array))
#define MARK 0x5a5a5a5a5a5a5a5aul

static volatile uint8_t *const serial = (volatile uint8_t *)0x10000000;
struct pmpmon_registers planned;
extern uint64_t boot_stack[], boot_stack_end[];

static void put_char(char c)
{
    while (!(serial[5] & 0x20))
        ;
    serial[0] = c;
}

static void put_digits(uint64_t n)
{
    if (n > 9)
        put_digits(n / 10);
    put_char('0' + n % 10);
}

static void note(const char *name, uint64_t n)
{
    for (const char *at = "note "; *at; at++)
        put_char(*at);
    for (; *name; name++)
        put_char(*name);
    put_char(' ');
    put_digits(n);
    put_char('\n');
}

/* A trap before the registers are loaded ends the test. */
void died(uint64_t cause, uint64_t pc)
{
    note("trap", cause);
    note("at", pc);
    *(volatile uint32_t *)0x100000 = 0x3333;
    for (;;)
        ;
}

static uint64_t instructions(void)
{
    uint64_t n;
    __asm__ volatile("csrr %0, minstret" : "=r"(n));
    return n;
}

static uint64_t stack_used(void)
{
    const uint64_t *at = boot_stack;
    while (*at == MARK)
        at++;
    return (uint64_t)(boot_stack_end - at) * 8;
}

static int64_t plan(struct pmpmon_registers *registers, uint64_t *at_fault)
{
    return pmpmon_plan(settings, COUNT(settings), 16, registers, at_fault);
}

static int is_same(const struct pmpmon_registers *a, const struct pmpmon_registers *b)
{
    int same = 1;
    for (int i = 0; i < 64; i++)
        same = same && a->addr[i] == b->addr[i] && a->cfg[i / 8] == b->cfg[i / 8];
    return same;
}

/* With each allocation refused in turn there is the same plan, or a refusal that changes nothing; and no block stays taken.
   `refused` counts the refusals. */
static uint64_t refused_memory_wrong(int64_t needed, size_t calls, uint64_t *refused)
{
    uint64_t wrong = 0;
    for (size_t call = 1; call <= calls; call++) {
        static struct pmpmon_registers before, after;
        for (int i = 0; i < 64; i++)
            after.addr[i] = before.addr[i] = after.cfg[i / 8] = before.cfg[i / 8] = MARK;
        uint64_t at_fault = 77;
        heap_calls = 0;
        heap_refused_call = call;
        int64_t told = plan(&after, &at_fault);
        int is_refusal = told == PMPMON_OUT_OF_MEMORY && is_same(&after, &before);
        *refused += is_refusal;
        wrong += !(is_refusal || (told == needed && is_same(&after, &planned))) || at_fault != 77 || heap_blocks != 0;
    }
    heap_refused_call = 0;
    return wrong;
}

static uint64_t judged_wrong(void)
{
    uint64_t wrong = 0;
    for (size_t i = 0; i < COUNT(answers); i++)
        wrong += pmpmon_judge(&planned, 16, &answers[i].access) != answers[i].answer;
    return wrong;
}

void plan_at_boot(void)
{
    uint64_t at_fault = 77, refused = 0;
    uint64_t stack = stack_used(), from = instructions();
    int64_t needed = plan(&planned, &at_fault);
    note("instructions", instructions() - from);
    note("stack", stack_used() - stack);
    note("needed", needed);
    note("heap", heap_most);
    note("calls", heap_calls);
    note("memory-wrong", refused_memory_wrong(needed, heap_calls, &refused));
    note("memory-refused", refused);
    note("refusals-wrong", refusals_wrong());
    note("judged", COUNT(answers));
    note("judged-wrong", judged_wrong());
    note("accepted", pmpmon_check(settings, COUNT(settings), certificate, sizeof certificate, &at_fault));
    note("cut", -pmpmon_check(settings, COUNT(settings), certificate, sizeof certificate - 1, &at_fault));
    note("left", heap_blocks);
    note("deepest", stack_used());
}
