/*
 * Restricts the platform of the image to what the board has, and edits the device tree for the host. The proved core does both
 * (crates/host_tree). One image serves boards with fewer harts and less memory.
 */
#include "board.h"
#include "heap.h"

/* The proved core (crates/pmpmon_monitor). Both return 0, or the reason why nothing was changed. */
int64_t pmpmon_find_platform(const uint8_t *tree, size_t room, struct platform_frame *platform);
int64_t pmpmon_put_host_tree(const struct platform_frame *platform, uint64_t pool_base, uint64_t pool_size, uint8_t *tree, size_t room);

#ifndef VERSION
#define VERSION "of no version"
#endif

/* The pool from the build: memory of the host, which its kernel uses only for enclaves. */
#ifndef POOL_BASE
#define POOL_BASE 0ul
#define POOL_SIZE 0ul
#endif
static const uint64_t pool_base = POOL_BASE, pool_size = POOL_SIZE;

/* Returns the number of consecutive bytes of the host's memory from `at` on. */
static uint64_t host_memory_at(uint64_t at)
{
    uint64_t monitor = platform->monitor_base;
    for (uint64_t i = 0; i < platform->ram_count; i++) {
        uint64_t base = platform->ram[i].base, end = base + platform->ram[i].size;
        if (at - base >= platform->ram[i].size)
            continue;
        if (at - monitor < platform->monitor_size)
            return 0;
        return (at < monitor && monitor < end ? monitor : end) - at;
    }
    return 0;
}

#define NEEDS_MEMORY 3
static void end_where(int64_t fault)
{
    static const char *const words[] = {"", "cannot be read", "has no room", "needs more memory than the monitor has"};
    if (!fault)
        return;
    put("monitor: the device tree ");
    put(words[fault & 3]);
    put("\n");
    power_off(1);
}

static void find_pool(void)
{
    if (!pool_size || host_memory_at(pool_base) >= pool_size)
        return;
    put("monitor: the board has no memory for the pool of enclaves, ");
    put_hex(pool_base);
    put("\n");
    power_off(1);
}

/* Finds the platform, and then edits the tree for the host. This comes last, so a fault leaves the tree unchanged. */
static int64_t read_tree(uint64_t tree, struct platform_frame *found)
{
    uint8_t *at = (uint8_t *)tree;
    int64_t fault = pmpmon_find_platform(at, host_memory_at(tree), found);
    return fault ? fault : pmpmon_put_host_tree(found, pool_base, pool_size, at, host_memory_at(tree));
}

/* If the heap is too small for a tree, uses the memory below the tree, which belongs to the host once it runs. */
#define MORE_HEAP (16ul << 20)
void find_board(uint64_t tree)
{
    static struct platform_frame found;
    const struct platform_frame *built = platform;
    int64_t fault;
    found = *built;
    fault = read_tree(tree, &found);
    if (fault == NEEDS_MEMORY && host_memory_at(tree - MORE_HEAP) >= MORE_HEAP) {
        begin_heap((void *)(tree - MORE_HEAP), MORE_HEAP);
        found = *built;
        fault = read_tree(tree, &found);
    }
    if (heap_blocks)
        fault = NEEDS_MEMORY;
    end_where(fault);
    begin_heap(0, 0);
    platform = &found;
    find_pool();
}

/* Memory that nobody has written holds zeros, which are no instruction. */
static int is_loaded(uint64_t at)
{
    return host_memory_at(at) >= sizeof(uint16_t) && *(const volatile uint16_t *)at;
}

void tell_start(uint64_t host)
{
    put("monitor: pmpmon " VERSION ", ");
    put_number((int64_t)harts.count);
    put(harts.count == 1 ? " hart, " : " harts, ");
    put_number(ENTRIES);
    put(is_loaded(host) ? " entries; the host is at " : " entries; no host is loaded at ");
    put_hex(host);
    put("\n");
}
