/* Two enclaves and their host take turns on one hart, each with numbers of its own in its registers; then others with their ids. */
#include "harts.h"

uint64_t call_with_all(uint64_t function, uint64_t id, uint64_t answer[2]);
static uint64_t wrong;

static void call(const char *what, uint64_t function, uint64_t id)
{
    uint64_t answer[2];
    wrong += call_with_all(function, id, answer);
    put(what);
    put_number((int64_t)id);
    put(": ");
    put_number((int64_t)answer[0]);
    put(" ");
    put_number((int64_t)answer[1]);
    put("\n");
}

static void made(uint64_t id)
{
    say("made", (uint64_t)make(BASE + id * 2 * PAGE).value);
}

void host_main(void)
{
    made(1);
    made(2);
    call("run ", PMPMON_RUN, 1);
    call("run ", PMPMON_RUN, 2);
    call("resume ", PMPMON_RESUME, 1);
    call("run what has exited ", PMPMON_RUN, 1);
    call("resume ", PMPMON_RESUME, 2);
    call("destroy ", PMPMON_DESTROY, 1);
    made(1);
    call("run ", PMPMON_RUN, 1);
    call("destroy what has stopped ", PMPMON_DESTROY, 1);
    made(1);
    call("run ", PMPMON_RUN, 1);
    call("resume ", PMPMON_RESUME, 1);
    say("wrong", wrong);
    off();
}
