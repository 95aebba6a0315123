/*
 * Four harts that take every way through the monitor again and again: hart 0 makes and destroys an enclave of 24 pages, for which the others
 * wait asleep, and starts hart 3; hart 1 resumes the enclave with the secret until its timer comes; hart 2 makes calls that are refused; and
 * hart 3 stops itself.
 */
#include "harts.h"

#define SPARE 0x85100000ul
static struct pmpmon_answer made;
static volatile uint64_t has_run;

static void resume(uint64_t hart)
{
    (void)hart;
    pmpmon_run(made.value);
    has_run = 1;
    for (;;) {
        pmpmon_call(TIME, 0, time() + 2000, 0, 0, 0, 0, 0);
        SET(sie, 0x20);
        pmpmon_resume(made.value);
        CLEAR(sie, 0x20);
    }
}

static void refused(uint64_t hart)
{
    for (;;)
        pmpmon_resume(hart + 100);
}

static void stop(uint64_t hart)
{
    for (unsigned i = 0; i < 100; i++)
        pmpmon_resume(hart + 100);
    pmpmon_call(HSM, 1, 0, 0, 0, 0, 0, 0);
}

void host_main(void)
{
    made = make(BASE);
    start(1, resume);
    start(2, refused);
    while (!has_run)
        ;
    put("it waits\n");
    for (;;) {
        memset((void *)SPARE, 0, 24 * PAGE);
        pmpmon_destroy(pmpmon_create(SPARE, 24, 0, 0, 0, 0).value);
        start(3, stop);
    }
}
