/* Why enclaves stop, and what else their host learns: the address of an access outside their private pages, and nothing of their own. */
#include "harts.h"

void host_main(void)
{
    for (unsigned i = 0; i < 6; i++) {
        memset((void *)BASE, 0, 2 * PAGE);
        memcpy((void *)BASE, enclave, (size_t)(enclave_end - enclave));
        struct pmpmon_answer made = pmpmon_create(BASE, 1, 1, 0, 0, 16 * i);
        WRITE(scounteren, 0);
        pmpmon_run(made.value);
        put_number(pmpmon_stop_cause().value);
        put(" ");
        put_hex(pmpmon_stop_value().value);
        put("\n");
        pmpmon_destroy(made.value);
    }
    off();
}
