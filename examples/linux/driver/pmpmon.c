// SPDX-License-Identifier: GPL-2.0
/*
 * /dev/pmpmon: enclaves of the monitor for programs (pmpmon_ioctl.h). Each open file is one enclave.
 *
 * All pages are of a pool that the device tree has below /reserved-memory, with compatible = "pmpmon,pool" and no-map: the kernel
 * has a mapping of them only while it writes an image. The pool is used in units of 8 MiB: private pages are in the lower half
 * of a unit, shared ones at the same places of its upper half. So private pages of enclaves lie side by side, and the host's view
 * needs few entries.
 *
 * An enclave runs with the interrupts of this hart off, as a guest does: one that is enabled stops it all the same, is taken when
 * they are on again, and the enclave is resumed, perhaps on another hart.
 *
 * A destruction is refused where the host's view after it would need more entries than a hart has. Such an enclave is kept, with
 * its pages, in the list of blocks by address, and is tried again whenever another goes (`settle_all`).
 */
#include <linux/bitmap.h>
#include <linux/fs.h>
#include <linux/io.h>
#include <linux/ktime.h>
#include <linux/list.h>
#include <linux/miscdevice.h>
#include <linux/mm.h>
#include <linux/module.h>
#include <linux/mutex.h>
#include <linux/of.h>
#include <linux/of_address.h>
#include <linux/sched/signal.h>
#include <linux/slab.h>
#include <linux/uaccess.h>
#include <asm/sbi.h>
#include "pmpmon_ioctl.h"

/* The monitor's calls (include/pmpmon_calls.h). */
#define EXTENSION 0x08454E43
#define STOPS 0x0A454E43
enum { CREATE, DESTROY, RUN, STOP, RESUME, EXIT, MEASURE };
enum { STOP_CAUSE, STOP_VALUE };
#define STOPPED 1
#define NO_ENTRIES (-108)
#define NO_MEMORY (-109)
#define INTERRUPT (1ul << 63)

#define MOST_PRIVATE 1024
#define MOST_SHARED 256
#define HALF PMPMON_SHARED_AFTER   /* pages of half a unit */
#define MOST_UNITS 4

static ushort mode = 0600;
module_param(mode, ushort, 0444);
MODULE_PARM_DESC(mode, "permissions of /dev/pmpmon");
static uint most = 32;
module_param(most, uint, 0644);
MODULE_PARM_DESC(most, "enclaves that one process may have");

enum state { EMPTY, MADE, BEGUN, DONE, GONE };

/*
 * What pages of the pool are: a file's, with no enclave yet, with one, and after its end; those of an enclave that waits until it can
 * go, since its file is closed; and what only fills. The last two hold the module, since nothing else would end them.
 */
enum use { TAKEN, LIVE, OVER, KEPT, FILLER };

/* Pages of the pool, and the enclave that they are. */
struct block {
	struct list_head link;             /* in `blocks`, by address */
	u64 id;
	size_t unit, at, private, shared;  /* in pages */
	enum use use;
	pid_t owner;
};

struct enclave {
	struct mutex lock;                 /* of all but `block`, which does not change once it is there */
	enum state state;
	struct block *block;
};

static struct resource pool;
static size_t units;
/* A bit for each page of a half: those that a file has, and private ones that are closed to the host. */
static DECLARE_BITMAP(private_used[MOST_UNITS], HALF);
static DECLARE_BITMAP(shared_used[MOST_UNITS], HALF);
static DECLARE_BITMAP(closed[MOST_UNITS], HALF);
static LIST_HEAD(blocks);
/* How many entries the monitor refused last, of those that the pool needs; none since an enclave went. */
static uint refused_at = UINT_MAX;
static DEFINE_MUTEX(pool_lock); /* of the bitmaps, `blocks` and `refused_at` */

static struct sbiret monitor(int function, unsigned long first)
{
	return sbi_ecall(EXTENSION, function, first, 0, 0, 0, 0, 0);
}

static phys_addr_t base_of(const struct block *b)
{
	return pool.start + ((b->unit * 2 * HALF + b->at) << PAGE_SHIFT);
}

static phys_addr_t shared_base_of(const struct block *b)
{
	return base_of(b) + (HALF << PAGE_SHIFT);
}

/* The pool's blocks. */

static void mark(struct block *b, bool is_used)
{
	if (is_used) {
		bitmap_set(private_used[b->unit], b->at, b->private);
		bitmap_set(shared_used[b->unit], b->at, b->shared);
	} else {
		bitmap_clear(private_used[b->unit], b->at, b->private);
		bitmap_clear(shared_used[b->unit], b->at, b->shared);
	}
}

static void mark_closed(struct block *b, bool is_closed)
{
	if (is_closed)
		bitmap_set(closed[b->unit], b->at, b->private);
	else
		bitmap_clear(closed[b->unit], b->at, b->private);
}

/* Whether a block fits at b->unit, from b->at on: it is then at the first such place. */
static bool fits(struct block *b)
{
	/* As a power of two divides it, so its place: an entry can then have it. */
	size_t step = b->private & -b->private;
	for (; b->at + max(b->private, b->shared) <= HALF; b->at += step)
		if (find_next_bit(private_used[b->unit], b->at + b->private, b->at) >= b->at + b->private &&
		    find_next_bit(shared_used[b->unit], b->at + b->shared, b->at) >= b->at + b->shared)
			return true;
	return false;
}

static void enter(struct block *b)
{
	struct block *it;
	mark(b, true);
	list_for_each_entry(it, &blocks, link)
		if (base_of(it) > base_of(b))
			break;
	list_add_tail(&b->link, &it->link);
}

static void leave(struct block *b)
{
	mark(b, false);
	list_del(&b->link);
	kfree(b);
}

/* A block for the caller, with no enclave yet. */
static struct block *take_block(size_t private, size_t shared)
{
	struct block *b = kzalloc(sizeof(*b), GFP_KERNEL_ACCOUNT), *it;
	uint has = 0;

	if (!b)
		return ERR_PTR(-ENOMEM);
	b->private = private;
	b->shared = shared;
	b->owner = current->tgid;
	mutex_lock(&pool_lock);
	list_for_each_entry(it, &blocks, link)
		has += it->use <= OVER && it->owner == b->owner;
	if (has >= most) {
		mutex_unlock(&pool_lock);
		kfree(b);
		return ERR_PTR(-EDQUOT);
	}
	for (b->unit = 0; b->unit < units; b->unit++, b->at = 0)
		if (fits(b)) {
			enter(b);
			mutex_unlock(&pool_lock);
			return b;
		}
	mutex_unlock(&pool_lock);
	kfree(b);
	return ERR_PTR(-ENOMEM);
}

/* Enclaves that are to go, under the pool's lock. */

static bool is_closed(size_t unit, size_t at, size_t pages)
{
	return find_next_zero_bit(closed[unit], at + pages, at) >= at + pages;
}

/* How many entries of NAPOT an aligned block needs, where what is around is open to the host, and where it is closed. */
struct costs {
	uint open, closed;
};

static struct costs costs_of(size_t unit, size_t at, size_t pages)
{
	struct costs low, high;

	if (find_next_bit(closed[unit], at + pages, at) >= at + pages)
		return (struct costs){ 0, 1 };
	if (is_closed(unit, at, pages))
		return (struct costs){ 1, 0 };
	low = costs_of(unit, at, pages / 2);
	high = costs_of(unit, at + pages / 2, pages / 2);
	low.open += high.open;
	low.closed += high.closed;
	return (struct costs){ min(low.open, low.closed + 1), min(low.closed, low.open + 1) };
}

/*
 * An enclave goes, if it can. The monitor decides. Where it has refused a view that needs as many entries, and no enclave went since,
 * it is not asked again.
 */
static long end_enclave(struct block *b)
{
	uint needed = 0;
	struct sbiret gone = { .error = NO_ENTRIES };

	mark_closed(b, false);
	for (size_t unit = 0; unit < units; unit++)
		needed += costs_of(unit, 0, HALF).open;
	if (needed < refused_at)
		gone = monitor(DESTROY, b->id);
	if (!gone.error) {
		refused_at = UINT_MAX;
		return 0;
	}
	mark_closed(b, true);
	if (gone.error == NO_ENTRIES)
		refused_at = min(refused_at, needed);
	return gone.error == NO_ENTRIES || gone.error == NO_MEMORY ? -EAGAIN : -EPROTO;
}

/* The block stays without a file, for this, until it can go. A caller has a file open, which holds the module too. */
static void keep(struct block *b, enum use use)
{
	b->use = use;
	__module_get(THIS_MODULE);
}

/* The first by address of those that can go, of kept enclaves or of what fills: whether one went. */
static bool settle_one(enum use use)
{
	struct block *b, *next;

	list_for_each_entry_safe(b, next, &blocks, link)
		if (b->use == use && !end_enclave(b)) {
			leave(b);
			module_put(THIS_MODULE);
			return true;
		}
	return false;
}

static void settle_fillers(void)
{
	while (settle_one(FILLER))
		;
}

/* Free pages become an enclave, which only fills. */
static bool fill(size_t unit, size_t at, size_t pages)
{
	struct block *b = kzalloc(sizeof(*b), GFP_KERNEL);
	struct sbiret made;

	if (!b)
		return false;
	b->unit = unit;
	b->at = at;
	b->private = pages;
	made = sbi_ecall(EXTENSION, CREATE, base_of(b), pages, 0, 0, 0, 0);
	if (made.error) {
		kfree(b);
		return false;
	}
	b->id = made.value;
	enter(b);
	keep(b, FILLER);
	mark_closed(b, true);
	return true;
}

/* Whether a block can be closed as a whole: each page is closed already, or free. */
static bool is_closable(size_t unit, size_t at, size_t pages)
{
	for (size_t i = at; i < at + pages; i++)
		if (test_bit(i, private_used[unit]) && !test_bit(i, closed[unit]))
			return false;
	return true;
}

/*
 * In such an aligned block: what is free of the largest aligned one in it that has its free pages side by side, and closed ones. Then
 * the host's view needs no more entries than before, whatever is around it: what is closed as a whole takes one at most, and what
 * is mixed one at least.
 */
static bool fill_in(size_t unit, size_t at, size_t pages)
{
	for (size_t part = pages; part > 1; part /= 2)
		for (size_t i = at; i < at + pages; i += part) {
			size_t first = find_next_zero_bit(closed[unit], i + part, i), end = find_next_bit(closed[unit], i + part, first);

			if (first < end && end - first < part && is_closed(unit, end, i + part - end))
				return fill(unit, first, end - first);
		}
	return false;
}

/* The smallest aligned block that needs two entries or more, and can be closed as a whole, which needs one: a step on that way. */
static bool fill_one(void)
{
	for (size_t pages = 2; pages <= HALF; pages *= 2)
		for (size_t i = 0; i < units * HALF; i += pages)
			if (costs_of(i / HALF, i % HALF, pages).open > 1 && is_closable(i / HALF, i % HALF, pages))
				return fill_in(i / HALF, i % HALF, pages);
	return false;
}

static bool has(enum use use)
{
	const struct block *b;

	list_for_each_entry(b, &blocks, link)
		if (b->use == use)
			return true;
	return false;
}

/*
 * Each kept enclave goes that can, from the lowest address on. Where none can and no other enclave is live, free pages are filled,
 * one run after another, until one can; what fills goes as soon as it can. So all go: once all of a half is closed, the host's view
 * needs one entry for it, and any enclave can go. For what fills the monitor has to have ids left: there are 64, and two runs between
 * neighbours make an entry free.
 */
static void settle_all(void)
{
	while (has(KEPT)) {
		if (settle_one(KEPT))
			settle_fillers();
		else if (has(LIVE) || !fill_one())
			break;
		cond_resched();
	}
	settle_fillers();
}

static void give_block_back(struct block *b)
{
	mutex_lock(&pool_lock);
	leave(b);
	/* Its pages may have been in the way. */
	settle_all();
	mutex_unlock(&pool_lock);
}

/* What a file is asked. */

/* Pages of a block, for the kernel to read and write. */
static void *map_pages(phys_addr_t at, size_t pages)
{
	return memremap(at, pages << PAGE_SHIFT, MEMREMAP_WB);
}

static int write_image(const struct block *b, const void *image, size_t bytes)
{
	void *private = map_pages(base_of(b), b->private), *shared = map_pages(shared_base_of(b), b->shared);
	if (private && shared) {
		memcpy(private, image, bytes);
		memset(private + bytes, 0, (b->private << PAGE_SHIFT) - bytes);
		memset(shared, 0, b->shared << PAGE_SHIFT);
	}
	if (private)
		memunmap(private);
	if (shared)
		memunmap(shared);
	return private && shared ? 0 : -ENOMEM;
}

/* The caller's image: copied before a lock is taken, since the copy may wait for its pages. */
static void *image_of(const struct pmpmon_create_args *a)
{
	size_t private = (size_t)a->text_pages + a->data_pages;
	void *image;

	if (!a->text_pages || private > MOST_PRIVATE || !a->shared_pages || a->shared_pages > MOST_SHARED || a->flags || a->pad ||
	    a->image_bytes > private << PAGE_SHIFT)
		return ERR_PTR(-EINVAL);
	image = kvmalloc(max_t(size_t, a->image_bytes, 1), GFP_KERNEL_ACCOUNT);
	if (!image)
		return ERR_PTR(-ENOMEM);
	if (copy_from_user(image, u64_to_user_ptr(a->image), a->image_bytes)) {
		kvfree(image);
		return ERR_PTR(-EFAULT);
	}
	return image;
}

static int make(struct block *b, struct pmpmon_create_args *a, const void *image)
{
	struct sbiret made;
	int failed = write_image(b, image, a->image_bytes);
	if (failed)
		return failed;
	a->base = base_of(b);
	/* Under the lock, as `refused_at` is learnt from the pages that are closed. */
	mutex_lock(&pool_lock);
	made = sbi_ecall(EXTENSION, CREATE, a->base, a->text_pages, a->data_pages, shared_base_of(b), a->shared_pages, a->entry_offset);
	if (!made.error) {
		b->id = a->id = made.value;
		b->use = LIVE;
		mark_closed(b, true);
	}
	mutex_unlock(&pool_lock);
	a->refused = made.error;
	return made.error ? -EPROTO : 0;
}

static long create(struct enclave *e, struct pmpmon_create_args *a, const void *image)
{
	struct block *b;
	int failed;

	/* One for each file: a program may still have the shared pages of the last one. */
	if (e->state != EMPTY)
		return -EBUSY;
	b = take_block((size_t)a->text_pages + a->data_pages, a->shared_pages);
	if (IS_ERR(b))
		return PTR_ERR(b);
	failed = make(b, a, image);
	if (failed) {
		give_block_back(b);
		return failed;
	}
	e->state = MADE;
	/* map_shared reads it without the lock. */
	smp_store_release(&e->block, b);
	return 0;
}

/* The enclave goes, and with it those that waited for one to go. Its pages are the file's until it is closed. */
static long destroy(struct enclave *e)
{
	long failed;

	if (e->state == EMPTY || e->state == GONE)
		return -ENOENT;
	mutex_lock(&pool_lock);
	failed = end_enclave(e->block);
	if (!failed) {
		e->state = GONE;
		e->block->use = OVER;
		settle_all();
	}
	mutex_unlock(&pool_lock);
	return failed;
}

/* One entry into the enclave, with interrupts off. */
static struct sbiret enter_enclave(struct enclave *e, struct pmpmon_run_args *r)
{
	struct sbiret back = monitor(e->state == MADE ? RUN : RESUME, e->block->id);
	if (back.error == STOPPED) {
		/* Before this hart runs another enclave. */
		r->cause = sbi_ecall(STOPS, STOP_CAUSE, 0, 0, 0, 0, 0, 0).value;
		r->stop_value = sbi_ecall(STOPS, STOP_VALUE, 0, 0, 0, 0, 0, 0).value;
	}
	return back;
}

/* Until it exits, stops itself, does what it may not, a signal comes, or the time is over. */
static long run(struct enclave *e, struct pmpmon_run_args *r)
{
	/* (a limit beyond the clock's end is none) */
	u64 end = r->most_ns ? ktime_get_ns() + min_t(u64, r->most_ns, S64_MAX) : 0;

	*r = (struct pmpmon_run_args){ .most_ns = r->most_ns };
	if (e->state != MADE && e->state != BEGUN)
		return -ENOENT;
	for (;;) {
		struct sbiret back;

		if (signal_pending(current))
			return -EINTR;
		if (end && ktime_get_ns() >= end)
			return -ETIME;
		cond_resched();
		local_irq_disable();
		if (need_resched() || signal_pending(current)) {
			local_irq_enable();
			continue;
		}
		back = enter_enclave(e, r);
		local_irq_enable();
		r->error = back.error;
		if (back.error != STOPPED) {
			e->state = back.error ? e->state : DONE;
			r->value = back.value;
			r->cause = r->stop_value = 0;
			return 0;
		}
		e->state = BEGUN;
		if (!(r->cause & INTERRUPT))
			return 0;
		r->interrupts++;
	}
}

static long measure(struct enclave *e, struct pmpmon_digest *d)
{
	if (e->state == EMPTY || e->state == GONE)
		return -ENOENT;
	for (int k = 0; k < 4; k++) {
		struct sbiret word = sbi_ecall(EXTENSION, MEASURE, e->block->id, k, 0, 0, 0, 0);
		__le64 bytes = cpu_to_le64(word.value);

		if (word.error)
			return -EPROTO;
		memcpy(d->bytes + 8 * k, &bytes, 8);
	}
	return 0;
}

static long peek(struct enclave *e, struct pmpmon_peek_args *p)
{
	long failed;
	void *at;

	if (e->state == EMPTY)
		return -ENOENT;
	if (p->offset & 7 || p->offset >= e->block->private << PAGE_SHIFT)
		return -EINVAL;
	at = map_pages(base_of(e->block), e->block->private);
	if (!at)
		return -ENOMEM;
	failed = copy_from_kernel_nofault(&p->value, at + p->offset, 8);
	memunmap(at);
	return failed;
}

union args {
	struct pmpmon_create_args create;
	struct pmpmon_run_args run;
	struct pmpmon_digest digest;
	struct pmpmon_peek_args peek;
};

static long asked(struct enclave *e, unsigned int what, union args *a)
{
	void *image = what == PMPMON_CREATE_ENCLAVE ? image_of(&a->create) : NULL;
	long back;

	if (IS_ERR(image))
		return PTR_ERR(image);
	if (mutex_lock_interruptible(&e->lock)) {
		kvfree(image);
		return -EINTR;
	}
	switch (what) {
	case PMPMON_CREATE_ENCLAVE: back = create(e, &a->create, image); break;
	case PMPMON_RUN_ENCLAVE: back = run(e, &a->run); break;
	case PMPMON_MEASURE_ENCLAVE: back = measure(e, &a->digest); break;
	case PMPMON_DESTROY_ENCLAVE: back = destroy(e); break;
	default: back = peek(e, &a->peek);
	}
	mutex_unlock(&e->lock);
	kvfree(image);
	return back;
}

static long control(struct file *file, unsigned int what, unsigned long at)
{
	void __user *user = (void __user *)at;
	union args a = {};
	long back;

	switch (what) {
	case PMPMON_CREATE_ENCLAVE: case PMPMON_RUN_ENCLAVE: case PMPMON_MEASURE_ENCLAVE: case PMPMON_DESTROY_ENCLAVE: case PMPMON_PEEK: break;
	default: return -ENOTTY;
	}
	if (_IOC_DIR(what) & _IOC_WRITE && copy_from_user(&a, user, _IOC_SIZE(what)))
		return -EFAULT;
	back = asked(file->private_data, what, &a);
	if (_IOC_DIR(what) & _IOC_READ && (!back || back == -EPROTO || back == -EINTR || back == -ETIME) && copy_to_user(user, &a, _IOC_SIZE(what)))
		return -EFAULT;
	return back;
}

/* The shared pages. The file, and with it the block, stays while they are mapped. */
static int map_shared(struct file *file, struct vm_area_struct *vma)
{
	struct enclave *e = file->private_data;
	struct block *b = smp_load_acquire(&e->block);

	if (!b || vma->vm_pgoff || vma_pages(vma) > b->shared || !(vma->vm_flags & VM_SHARED))
		return -EINVAL;
	vma->vm_flags |= VM_DONTCOPY;
	return remap_pfn_range(vma, vma->vm_start, shared_base_of(b) >> PAGE_SHIFT, vma_pages(vma) << PAGE_SHIFT, vma->vm_page_prot);
}

static int open(struct inode *inode, struct file *file)
{
	struct enclave *e = kzalloc(sizeof(*e), GFP_KERNEL_ACCOUNT);

	if (!e)
		return -ENOMEM;
	mutex_init(&e->lock);
	file->private_data = e;
	return 0;
}

/* The file is closed, or its process died. */
static int release(struct inode *inode, struct file *file)
{
	struct enclave *e = file->private_data;

	if (e->block) {
		mutex_lock(&pool_lock);
		if (e->state == GONE)
			leave(e->block);
		else
			keep(e->block, KEPT);
		settle_all();
		mutex_unlock(&pool_lock);
	}
	kfree(e);
	return 0;
}

static const struct file_operations operations = {
	.owner = THIS_MODULE,
	.open = open,
	.release = release,
	.unlocked_ioctl = control,
	.mmap = map_shared,
};
static struct miscdevice device = { .minor = MISC_DYNAMIC_MINOR, .name = "pmpmon", .fops = &operations };

static int find_pool(void)
{
	struct device_node *node = of_find_compatible_node(NULL, NULL, "pmpmon,pool");
	bool is_right = node && !of_address_to_resource(node, 0, &pool) && of_property_read_bool(node, "no-map");

	of_node_put(node);
	/* Each half is aligned to its size, as `costs_of` takes it. */
	if (is_right)
		pool.start = round_up(pool.start, HALF << PAGE_SHIFT);
	units = is_right && pool.start < pool.end ? min_t(size_t, (resource_size(&pool) >> PAGE_SHIFT) / (2 * HALF), MOST_UNITS) : 0;
	if (units)
		return 0;
	pr_err("pmpmon: no pool of 8 MiB or more for enclaves: build the firmware with POOL=0x83000000,0x1000000\n");
	return -ENODEV;
}

static int __init begin(void)
{
	int failed;

	if (sbi_probe_extension(EXTENSION) <= 0) {
		pr_err("pmpmon: the firmware below this kernel is not the monitor: boot it with pmpmon-virt.elf of firmware/build\n");
		return -ENODEV;
	}
	failed = find_pool();
	if (failed)
		return failed;
	device.mode = mode & 0666;
	failed = misc_register(&device);
	if (!failed)
		pr_info("pmpmon: a pool of %zu MiB at %pa\n", units * 8, &pool.start);
	return failed;
}

static void __exit end(void)
{
	/* No block is left: each is a file's, or holds the module. */
	misc_deregister(&device);
}

module_init(begin);
module_exit(end);
MODULE_DESCRIPTION("Enclaves of the pmpmon monitor");
MODULE_LICENSE("GPL");
