/*
 * An enclave with secrets in all its registers, and what KIND has become of it when the host says that it waits: it has exited, it is
 * destroyed, it is there still, or the host ends the board.
 */
#include "harts.h"

enum { EXITS = 1, DESTROYED, LIVE, ENDS };
extern const uint8_t secrets_exit[];

void host_main(void)
{
    uint64_t entry = KIND == EXITS ? (uint64_t)(secrets_exit - enclave) : 0;
    memset((void *)BASE, 0, 2 * PAGE);
    memcpy((void *)BASE, enclave, (size_t)(enclave_end - enclave));
    struct pmpmon_answer made = pmpmon_create(BASE, 1, 1, 0, 0, entry);
    if (KIND != EXITS) { /* it goes on until its timer comes, and has its numbers before on a slow machine too */
        pmpmon_call(TIME, 0, time() + 3000000, 0, 0, 0, 0, 0);
        SET(sie, 0x20);
    }
    say("run", (uint64_t)pmpmon_run(made.value).error);
    CLEAR(sie, 0x20);
    if (KIND == DESTROYED)
        say("destroy", (uint64_t)pmpmon_destroy(made.value).error);
    if (KIND == ENDS)
        off();
    if (KIND != LIVE)
        pmpmon_resume(0); /* refused: the next frame of the loop */
    put("it waits\n");
    for (;;)
        ;
}
