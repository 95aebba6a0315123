// SPDX-License-Identifier: GPL-2.0
/*
 * What the calls of SBI take above a firmware, written to the log once when it is loaded, above OpenSBI too; and what a stop of an
 * enclave takes, where the device tree has a pool for enclaves and the driver is not loaded. It does not stay.
 */
#include <linux/delay.h>
#include <linux/init.h>
#include <linux/io.h>
#include <linux/module.h>
#include <linux/of.h>
#include <linux/of_address.h>
#include <linux/smp.h>
#include <asm/sbi.h>

/* The monitor's calls (include/pmpmon_calls.h). */
#define EXTENSION 0x08454E43
enum { CREATE, DESTROY, RUN, STOP, RESUME };
#define STOPPED 1

/* So few that no tick of the kernel falls into them: one that waits makes QEMU slow. */
#define ROUNDS 50

static void one(const char *name, unsigned long extension, unsigned long function, unsigned long first, unsigned long second)
{
	struct sbiret back = { 0 };
	u64 time;

	local_irq_disable();
	time = csr_read(CSR_TIME);
	for (int n = 0; n < ROUNDS; n++)
		back = sbi_ecall(extension, function, first, second, 0, 0, 0, 0);
	time = csr_read(CSR_TIME) - time;
	local_irq_enable();
	pr_warn("sbi_bench: %s: error %ld, %llu ns\n", name, back.error, time * 100 / ROUNDS);
	msleep(20);
}

static void fences(const char *name, unsigned int cpu)
{
	u64 time = csr_read(CSR_TIME);

	for (int n = 0; n < ROUNDS; n++)
		sbi_remote_fence_i(cpumask_of(cpu));
	time = csr_read(CSR_TIME) - time;
	pr_warn("sbi_bench: %s: %llu ns\n", name, time * 100 / ROUNDS);
}

static void nothing(void *at) { }

static void call_other(unsigned int cpu)
{
	u64 time = csr_read(CSR_TIME);

	for (int n = 0; n < ROUNDS; n++)
		smp_call_function_single(cpu, nothing, NULL, 1);
	time = csr_read(CSR_TIME) - time;
	pr_warn("sbi_bench: a call on another CPU and back: %llu ns\n", time * 100 / ROUNDS);
}

/* An enclave that does nothing but stop, at the begin of the pool. */
static const u32 stops[] = { 0x084558b7, 0xe4388893, 0x00300813, 0x00000073, 0xffdff06f }; /* a7 and a6; 1: ecall; j 1b */

static long make_enclave(unsigned long *id)
{
	struct device_node *node = of_find_compatible_node(NULL, NULL, "pmpmon,pool");
	struct resource pool;
	struct sbiret made;
	void *at;

	if (!node || of_address_to_resource(node, 0, &pool))
		return -ENODEV;
	at = memremap(pool.start, PAGE_SIZE, MEMREMAP_WB);
	if (!at)
		return -ENOMEM;
	memcpy(at, stops, sizeof(stops));
	memunmap(at);
	made = sbi_ecall(EXTENSION, CREATE, pool.start, 1, 0, 0, 0, 0);
	*id = made.value;
	return made.error;
}

static void there_and_back(void)
{
	unsigned long id;
	struct sbiret back;
	u64 time;

	if (make_enclave(&id))
		return;
	local_irq_disable();
	back = sbi_ecall(EXTENSION, RUN, id, 0, 0, 0, 0, 0);
	time = csr_read(CSR_TIME);
	for (int n = 0; n < ROUNDS && back.error == STOPPED; n++)
		back = sbi_ecall(EXTENSION, RESUME, id, 0, 0, 0, 0, 0);
	time = csr_read(CSR_TIME) - time;
	local_irq_enable();
	pr_warn("sbi_bench: to an enclave and back: error %ld, %llu ns\n", back.error, time * 100 / ROUNDS);
	sbi_ecall(EXTENSION, DESTROY, id, 0, 0, 0, 0, 0);
}

static int __init begin(void)
{
	unsigned int other;

	migrate_disable();
	other = smp_processor_id() == 1 || num_online_cpus() == 1 ? 0 : 1;
	one("base, version", SBI_EXT_BASE, 0, 0, 0);
	one("time, far away", SBI_EXT_TIME, 0, csr_read(CSR_TIME) + 100000, 0);
	one("sfence.vma on all", SBI_EXT_RFENCE, 1, 0, -1ul);
	fences("fence.i here", smp_processor_id());
	if (num_online_cpus() > 1) {
		fences("fence.i on another", other);
		call_other(other);
	}
	there_and_back();
	migrate_enable();
	return -EAGAIN;
}

module_init(begin);
MODULE_DESCRIPTION("What calls of SBI take");
MODULE_LICENSE("GPL");
