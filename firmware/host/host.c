/*
 * A host for the monitor: it creates an enclave, is denied access to its pages, runs it, gets a timer interrupt meanwhile, destroys
 * it and finds zeros; then it runs an enclave that makes a forbidden access.
 */
#include "board.h"
#include "pmpmon_calls.h"

#define BASE 0x85000000ul
#define TIME 0x54494d45ul
#define RESET 0x53525354ul
#define TICKS 1000000ul /* 100 ms: long enough to enter the enclave on a busy machine */

long load_at(const uint64_t *at, uint64_t *value);
extern const uint8_t enclave[], enclave_end[], enclave_second[];
extern volatile uint32_t timer_came;

static void say(const char *what, uint64_t number)
{
    put("host: ");
    put(what);
    put(" ");
    put_number((int64_t)number);
    put("\n");
}

static void say_answer(const char *what, struct pmpmon_answer answer)
{
    put("host: ");
    put(what);
    put(": ");
    put_number(answer.error);
    put(" ");
    put_number((int64_t)answer.value);
    put("\n");
}

static void say_load(const char *what, uint64_t at)
{
    uint64_t value = 0;
    long cause = load_at((const uint64_t *)at, &value);
    put("host: ");
    put(what);
    put(cause ? ": fault " : ": ");
    put_number((int64_t)(cause ? (uint64_t)cause : value));
    put("\n");
}

static uint64_t time(void)
{
    uint64_t now;
    __asm__ volatile("rdtime %0" : "=r"(now));
    return now;
}

static void write_enclave(void)
{
    memset((void *)BASE, 0, 2 * PAGE);
    memcpy((void *)BASE, enclave, (size_t)(enclave_end - enclave));
}

static void timer_in(uint64_t ticks)
{
    SET(sie, 1ul << 5);
    pmpmon_call(TIME, 0, time() + ticks, 0, 0, 0, 0, 0);
}

static void first_enclave(void)
{
    write_enclave();
    struct pmpmon_answer made = pmpmon_create(BASE, 1, 1, 0, 0, 0);
    say_answer("create", made);
    say_load("its code", BASE);
    say_load("its data", BASE + PAGE);
    say_answer("run, and it stops itself", pmpmon_run(made.value));
    timer_in(TICKS);
    say_answer("resume, and the timer stops it", pmpmon_resume(made.value));
    say("the cause, below 2^63:", pmpmon_stop_cause().value & ~(1ul << 63));
    SET(sstatus, 2);
    CLEAR(sstatus, 2);
    say("the timer came:", timer_came != 0);
    say_answer("resume, and it exits", pmpmon_resume(made.value));
    say_answer("resume what has exited", pmpmon_resume(made.value));
    say_answer("destroy", pmpmon_destroy(made.value));
    say_load("its code", BASE);
    say_load("its data", BASE + PAGE);
}

static void second_enclave(void)
{
    write_enclave();
    struct pmpmon_answer made = pmpmon_create(BASE, 1, 1, 0, 0, (uint64_t)(enclave_second - enclave));
    say_answer("create, entered elsewhere", made);
    say_answer("run, and it loads what is the monitor's", pmpmon_run(made.value));
    say("the cause:", pmpmon_stop_cause().value);
    say("the address is the monitor's:", pmpmon_stop_value().value == 0x80000000ul);
    say_answer("destroy", pmpmon_destroy(made.value));
}

void host_main(void)
{
    say_load("a word of the monitor", 0x80000000);
    first_enclave();
    second_enclave();
    say_answer("a call that there is not", pmpmon_call(PMPMON_EXTENSION, 7, 0, 0, 0, 0, 0, 0));
    pmpmon_call(RESET, 0, 0, 0, 0, 0, 0, 0);
}
