/* SPDX-License-Identifier: GPL-2.0 WITH Linux-syscall-note */
/*
 * What a program asks of /dev/pmpmon. Each open file is one enclave, from its creation until the file is closed.
 *
 * An ioctl fails with
 *   EPROTO     the monitor refused: `refused` has its answer (include/pmpmon_calls.h)
 *   EINVAL     no text, more than 1024 private pages, no shared page or more than 256 (page counts), an image larger than the
 *              pages, a field that has to be zero
 *   EBUSY      this file has or had an enclave already
 *   ENOENT     this file has no enclave, or it is over
 *   ENOMEM     the pool or the kernel has no memory left
 *   EDQUOT     this process has as many enclaves as it may (the module's parameter `most`)
 *   EINTR      a signal came: the enclave is stopped, and can be run again
 *   ETIME      the time is over: the enclave is stopped, and can be run again
 *   EAGAIN     destroy alone: too few entries for what the host would see; try again, or close the file: then the enclave goes as
 *              soon as another one went
 *   EFAULT     an address of the caller's is wrong; of PMPMON_PEEK also: the page is the enclave's
 */
#ifndef PMPMON_IOCTL_H
#define PMPMON_IOCTL_H
#include <linux/ioctl.h>
#include <linux/types.h>

/* The first shared page is this many pages after the first private one (include/pmpmon_enclave.h: PMPMON_SHARED_AT). */
#define PMPMON_SHARED_AFTER 1024

/* The private pages are the image: text, then data. What the image does not have is zero. */
struct pmpmon_create_args {
	__u64 image, image_bytes; /* an address of the caller's, and a size */
	__u32 text_pages, data_pages, shared_pages;
	__u32 entry_offset;       /* in bytes, from the first page */
	__u32 flags, pad;         /* zero */
	__u64 id, base;           /* out: the monitor's id, and the address of the first page */
	__s64 refused;            /* out, with EPROTO: what the monitor answered */
};

struct pmpmon_run_args {
	__u64 most_ns;    /* how long at most, in nanoseconds, in steps of the kernel's tick; 0: no end */
	__s64 error;      /* out: 0 it exited, 1 it is stopped, or what the monitor refused with */
	__u64 value;      /* out: what it exited with */
	__u64 cause;      /* out: where it is stopped, as mcause has it; 8: it called */
	__u64 stop_value; /* out: as mtval has it */
	__u64 interrupts; /* out: how often an interrupt stopped it, after which it was resumed */
};

struct pmpmon_digest {
	__u8 bytes[32];
};

/* A word of a private page, which the kernel tries to read. It reads what is left there when the enclave is over: zero. */
struct pmpmon_peek_args {
	__u64 offset; /* in bytes, a multiple of 8 */
	__u64 value;  /* out */
};

/* The shared pages are mapped by mmap: MAP_SHARED, offset 0, at most `shared_pages` pages. */
#define PMPMON_CREATE_ENCLAVE _IOWR('P', 0x40, struct pmpmon_create_args)
#define PMPMON_RUN_ENCLAVE _IOWR('P', 0x41, struct pmpmon_run_args)
#define PMPMON_MEASURE_ENCLAVE _IOR('P', 0x42, struct pmpmon_digest)
#define PMPMON_DESTROY_ENCLAVE _IO('P', 0x43)
#define PMPMON_PEEK _IOWR('P', 0x44, struct pmpmon_peek_args)
#endif
