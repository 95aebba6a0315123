/* What a host may not read: devices of QEMU's virt, each with the cause of the fault or 0, and the counters. */
#include "harts.h"

static void device(const char *name, uint64_t at)
{
    say(name, (uint64_t)word_at(at));
}

void host_main(void)
{
    uint64_t value = 0;
    device("finisher", 0x100000);
    device("rtc", 0x101000);
    device("clint", 0x200bff8);
    device("plic", 0xc000000);
    device("serial", 0x10000000);
    device("virtio", 0x10001000);
    device("fw_cfg", 0x10100000);
    device("flash", 0x20000000);
    device("pcie", 0x30000000);
    say("time", (uint64_t)csr_time(&value));
    say("cycle", (uint64_t)csr_cycle(&value));
    say("instret", (uint64_t)csr_instret(&value));
    off();
}
