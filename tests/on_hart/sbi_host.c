/*
 * A host of two harts that tries each function and each error of the Supervisor Binary Interface (version 1.0). sbi_host.txt has
 * the error and the value that each call has to have, by the chapters that are named here: functions and extensions that there
 * are not answer -2 (chapter 3), harts that the platform has not -3 (3.1), and the other errors are those of each function's table.
 */
#include "board.h"
#include "pmpmon_calls.h"

#define BASE 0x10ul
#define TIME 0x54494d45ul
#define IPI 0x735049ul
#define RFENCE 0x52464e43ul
#define HSM 0x48534dul
#define SRST 0x53525354ul
#define DBCN 0x4442434eul
#define PMU 0x504d55ul
#define ALL (~0ul)
#define PRIVATE 0x85000000ul
#define NEVER (~0ul)
#define JUMP_TO_SELF 0x0000006fu

long load_at(uint64_t at);
void second_entry(void);

/* The interrupts of each hart, by the handler: software, timer. */
static volatile uint64_t came[2][2];
/* What hart 0 wants of hart 1, which makes it 0 when it is done, and what came of it. */
static volatile enum { NOTHING, LOAD, ENTER, STOP } wish;
static volatile uint64_t second[6];

static const struct {
    const char *name;
    uint64_t extension, function, a[3];
} calls[] = {
    /* Chapter 4. The version has its minor number in the low 24 bits. */
    {"base: version", BASE, 0, {0}},
    {"base: implementation", BASE, 1, {0}},
    {"base: its version", BASE, 2, {0}},
    {"base: function 7", BASE, 7, {0}},
    {"probe base", BASE, 3, {BASE}},
    {"probe TIME", BASE, 3, {TIME}},
    {"probe IPI", BASE, 3, {IPI}},
    {"probe RFENCE", BASE, 3, {RFENCE}},
    {"probe HSM", BASE, 3, {HSM}},
    {"probe SRST", BASE, 3, {SRST}},
    {"probe the monitor", BASE, 3, {PMPMON_EXTENSION}},
    {"probe the stops", BASE, 3, {PMPMON_STOPS}},
    {"probe PMU", BASE, 3, {PMU}},
    {"probe DBCN", BASE, 3, {DBCN}},
    {"probe legacy 1", BASE, 3, {1}},
    /* Chapter 6 */
    {"TIME: function 1", TIME, 1, {0}},
    /* Chapter 7, and the list of harts of 3.1: the base has to be a hart too, or -1 for all harts. */
    {"IPI: function 1", IPI, 1, {0}},
    {"IPI: mask 4 from 0", IPI, 0, {4, 0}},
    {"IPI: mask 2 from 1", IPI, 0, {2, 1}},
    {"IPI: mask 1 from 2", IPI, 0, {1, 2}},
    {"IPI: mask 0 from 0", IPI, 0, {0, 0}},
    {"IPI: mask 0 from 2", IPI, 0, {0, 2}},
    {"IPI: a stopped hart", IPI, 0, {2, 0}},
    /* Chapter 8. Fences for guests may be left out (-2). */
    {"RFENCE: fence.i", RFENCE, 0, {3, 0}},
    {"RFENCE: sfence.vma", RFENCE, 1, {1, 1}},
    {"RFENCE: sfence.vma of a space", RFENCE, 2, {0, ALL}},
    {"RFENCE: hfence.gvma of a guest", RFENCE, 3, {1, 0}},
    {"RFENCE: hfence.gvma", RFENCE, 4, {1, 0}},
    {"RFENCE: hfence.vvma of a space", RFENCE, 5, {1, 0}},
    {"RFENCE: hfence.vvma", RFENCE, 6, {1, 0}},
    {"RFENCE: function 7", RFENCE, 7, {1, 0}},
    {"RFENCE: mask 4 from 0", RFENCE, 1, {4, 0}},
    /* Chapter 9. States: 0 started, 1 stopped. Errors of a start: -3 no such hart, -5 not to be executed, -6 it is started. */
    {"HSM: status of 0", HSM, 2, {0}},
    {"HSM: status of 1", HSM, 2, {1}},
    {"HSM: status of 2", HSM, 2, {2}},
    {"HSM: function 4", HSM, 4, {0}},
    {"HSM: start 0", HSM, 0, {0, 0x80200000}},
    {"HSM: start 2", HSM, 0, {2, 0x80200000}},
    {"HSM: start at the monitor", HSM, 0, {1, 0x80000000}},
    {"HSM: start at a device", HSM, 0, {1, 0x10000000}},
    {"HSM: start where nothing is", HSM, 0, {1, 0x100000000}},
    {"HSM: start at an odd address", HSM, 0, {1, 0x80200001}},
    {"HSM: start at an enclave", HSM, 0, {1, PRIVATE}},
    /* Types of 32 bits: 00000001 to 0fffffff and 80000001 to 8fffffff are reserved (-3); others may be left out (-2). */
    {"HSM: suspend 0", HSM, 3, {0}},
    {"HSM: suspend 1", HSM, 3, {1}},
    {"HSM: suspend 0fffffff", HSM, 3, {0x0fffffff}},
    {"HSM: suspend 10000000", HSM, 3, {0x10000000}},
    {"HSM: suspend 80000000", HSM, 3, {0x80000000}},
    {"HSM: suspend 80000001", HSM, 3, {0x80000001}},
    {"HSM: suspend 8fffffff", HSM, 3, {0x8fffffff}},
    {"HSM: suspend 90000000", HSM, 3, {0x90000000}},
    /* Chapter 10. Types from 3 to efffffff are reserved, reasons from 2 to dfffffff; vendors' types may be left out (-2). */
    {"SRST: function 1", SRST, 1, {0}},
    {"SRST: type 3", SRST, 0, {3, 0}},
    {"SRST: type efffffff", SRST, 0, {0xefffffff, 0}},
    {"SRST: type f0000000", SRST, 0, {0xf0000000, 0}},
    {"SRST: reason 2", SRST, 0, {0, 2}},
    {"SRST: reason e0000000", SRST, 0, {0, 0xe0000000}},
    /* Version 2.0, chapter 12: of the debug console a byte is written, the lowest of a0. */
    {"DBCN: a byte", DBCN, 2, {0x100 + '>'}},
    {"DBCN: write", DBCN, 0, {16, 0x80000000, 0}},
    {"DBCN: read", DBCN, 1, {16, 0x80000000, 0}},
    {"DBCN: function 3", DBCN, 3, {0}},
    /* Extensions that there are not; the legacy ones may be left out (chapter 5). */
    {"legacy: a character", 1, 0, {65}},
    {"legacy: an interrupt", 4, 0, {0x80000000}},
    {"PMU: counters", PMU, 0, {0}},
    {"the monitor: function 7", PMPMON_EXTENSION, 7, {0}},
    {"the stops: function 2", PMPMON_STOPS, 2, {0}},
};

static void say(const char *name, int64_t number, int64_t value)
{
    put(name);
    put(": ");
    put_number(number);
    put(" ");
    put_number(value);
    put("\n");
}

static struct pmpmon_answer call(uint64_t extension, uint64_t function, uint64_t a0, uint64_t a1, uint64_t a2)
{
    return pmpmon_call(extension, function, a0, a1, a2, 0, 0, 0);
}

static void let_interrupts_in(unsigned hart)
{
    __asm__ volatile("mv tp, %0" ::"r"(came[hart]));
    SET(sie, 1 << 1 | 1 << 5);
    SET(sstatus, 2);
}

void second_main(uint64_t hart, uint64_t opaque, uint64_t satp, uint64_t sstatus, uint64_t sip)
{
    const uint64_t words[] = {hart, opaque, satp, sstatus & 2, sip & 0x222};
    for (unsigned i = 0; i < 5; i++)
        second[i] = words[i];
    let_interrupts_in(1);
    second[5]++;
    for (;;) {
        if (wish == LOAD) {
            second[0] = (uint64_t)load_at(PRIVATE);
            wish = NOTHING;
        } else if (wish == ENTER) {
            second[0] = (uint64_t)pmpmon_run(1).error;
            second[1] = pmpmon_stop_cause().value;
            wish = NOTHING;
        } else if (wish == STOP) {
            wish = NOTHING;
            CLEAR(sstatus, 2);
            call(HSM, 1, 0, 0, 0);
        }
    }
}

static void wish_for(int what)
{
    wish = what;
    while (wish)
        ;
}

static void time_and_self(void)
{
    let_interrupts_in(0);
    say("TIME: at once", call(TIME, 0, 0, 0, 0).error, 0);
    while (!came[0][1])
        ;
    say("the timer came, and waits", (int64_t)came[0][1], (READ(sip) >> 5 & 1) != 0);
    say("TIME: never", call(TIME, 0, NEVER, 0, 0).error, READ(sip) >> 5 & 1);
    say("IPI: itself", call(IPI, 0, 1, 0, 0).error, 0);
    while (!came[0][0])
        ;
    say("its interrupt came", (int64_t)came[0][0], 0);
}

static void start_second(uint64_t opaque)
{
    uint64_t before = second[5];
    say("HSM: start 1", call(HSM, 0, 1, (uint64_t)second_entry, opaque).error, 0);
    while (second[5] == before)
        ;
    say("hart 1 has its number and the word", (int64_t)second[0], (int64_t)second[1]);
    say("its satp and SIE", (int64_t)second[2], (int64_t)second[3]);
    say("its interrupts that wait", (int64_t)second[4], 0);
}

static void stop_second(void)
{
    wish_for(STOP);
    while (call(HSM, 2, 1, 0, 0).value != 1)
        ;
    say("HSM: hart 1 has stopped", 0, (int64_t)call(HSM, 2, 1, 0, 0).value);
}

static void two_harts(void)
{
    start_second(77);
    say("HSM: start 1 again", call(HSM, 0, 1, (uint64_t)second_entry, 0).error, (int64_t)call(HSM, 2, 1, 0, 0).value);
    wish_for(LOAD);
    say("hart 1 loads from the enclave that was made before: fault", (int64_t)second[0], 0);
    say("IPI: mask 1 from 1", call(IPI, 0, 1, 1, 0).error, 0);
    while (came[1][0] != 1)
        ;
    say("IPI: all", call(IPI, 0, 0, ALL, 0).error, 0);
    while (came[1][0] != 2 || came[0][0] != 2)
        ;
    say("RFENCE: both", call(RFENCE, 1, 3, 0, 0).error, 0);
    stop_second();
    say("IPI: a stopped hart", call(IPI, 0, 2, 0, 0).error, 0);
    say("destroy", pmpmon_destroy(1).error, 0);
    start_second(78);
    wish_for(LOAD);
    say("hart 1 loads from the page of the enclave that is gone: fault", (int64_t)second[0], (int64_t)came[1][0]);
}

/* An interrupt that hart 1 takes before it has entered is lost to the enclave, so there is another. */
static void interrupted_enclave(void)
{
    memset((void *)PRIVATE, 0, PAGE);
    *(volatile uint32_t *)PRIVATE = JUMP_TO_SELF;
    say("create", pmpmon_create(PRIVATE, 1, 0, 0, 0, 0).error, 0);
    wish = ENTER;
    while (wish) {
        call(RFENCE, 0, 2, 0, 0);
        call(IPI, 0, 2, 0, 0);
    }
    say("an enclave on hart 1 is stopped, and by interrupt", (int64_t)second[0], (int64_t)(second[1] & 0xff));
}

/* Chapter 4: the hart's mvendorid, marchid and mimpid, which are the board's. */
static void the_harts_words(void)
{
    for (uint64_t function = 4; function <= 6; function++) {
        struct pmpmon_answer answer = call(BASE, function, 0, 0, 0);
        say("base: a word of the hart", answer.error, (int64_t)answer.value);
    }
}

void host_main(void)
{
    say("create", pmpmon_create(PRIVATE, 1, 0, 0, 0, 0).error, 0);
    for (unsigned i = 0; i < sizeof calls / sizeof calls[0]; i++) {
        struct pmpmon_answer answer = call(calls[i].extension, calls[i].function, calls[i].a[0], calls[i].a[1], calls[i].a[2]);
        say(calls[i].name, answer.error, (int64_t)answer.value);
    }
    the_harts_words();
    time_and_self();
    two_harts();
    interrupted_enclave();
    call(SRST, 0, 0, 0, 0);
}
