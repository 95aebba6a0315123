/*
 * Tries the device trees of the proved module (crates/host_tree) on Linux, where a sanitizer sees each byte that C reads of them.
 *
 *   trees one IN ROOM BASE SIZE OUT    the tree of IN as a host gets it, with the monitor's range, or why not; OUT has its bytes
 *   trees pool IN ROOM BASE SIZE OUT   the same with the range of a pool too
 *   trees board IN                     how many harts, and which memory of the platform the board has, or why they are not read
 *   trees random IN ROOM COUNT         so many times with some bytes changed: how many were taken, and how many refused trees were changed
 */
#include "frames.h"
#include "heap.h"
#include <stdio.h>
#include <stdlib.h>
#include <string.h>

#define MOST (1u << 20)

/* What the module's loop asks for, which is not called here. */
int32_t rattle_errno(void)
{
    return 0;
}

int64_t pmpmon_find_platform(const uint8_t *tree, size_t room, struct platform_frame *platform);
int64_t pmpmon_put_host_tree(const struct platform_frame *platform, uint64_t pool_base, uint64_t pool_size, uint8_t *tree, size_t room);
static const char *const words[] = {"taken", "cannot be read", "has no room", "needs more memory than the monitor has"};

static uint64_t seed = 1;

static uint32_t chance(uint32_t below)
{
    seed = seed * 6364136223846793005u + 1442695040888963407u;
    return (uint32_t)(seed >> 33) % below;
}

/* A copy with exactly `room` bytes, so that one more is seen. */
static uint8_t *copy(const uint8_t *from, size_t size, size_t room)
{
    uint8_t *to = calloc(1, room ? room : 1);
    memcpy(to, from, size < room ? size : room);
    return to;
}

/* Two harts, memory, and two devices of a page each. */
static const struct platform_frame platform = {
    .harts = 2,
    .monitor_base = 0x80000000,
    .monitor_size = 0x80000,
    .ram_count = 1,
    .device_count = 2,
    .ram = {{0x80000000, 0x8000000}},
    .device = {{0x10000000, 0x1000, 3}, {0x101000, 0x1000, 3}},
};

static int one(const uint8_t *tree, size_t size, char **given, int is_pool)
{
    size_t room = strtoul(given[0], 0, 0);
    uint8_t *at = copy(tree, size, room);
    struct platform_frame its = platform;
    its.monitor_base = strtoul(given[1], 0, 0);
    its.monitor_size = strtoul(given[2], 0, 0);
    int64_t why = pmpmon_put_host_tree(&its, 0x83000000, is_pool ? 0x1000000 : 0, at, room);
    FILE *out = fopen(given[3], "wb");
    fwrite(at, 1, room, out);
    fclose(out);
    puts(words[why]);
    free(at);
    return heap_blocks != 0;
}

static int board(const uint8_t *tree, size_t size)
{
    struct platform_frame its = {.harts = 4, .ram_count = 3, .ram = {{0x80000000, 0x8000800}, {0x100000000, 0x80000000}, {0x200000000, 0x1000}}};
    uint8_t *at = copy(tree, size, size);
    int64_t why = pmpmon_find_platform(at, size, &its);
    free(at);
    if (why)
        return puts(words[why]) < 0;
    printf("harts %lu", its.harts);
    for (uint64_t i = 0; i < its.ram_count; i++)
        printf(", %lx %lx", its.ram[i].base, its.ram[i].size);
    printf("\n");
    return 0;
}

static int many(const uint8_t *tree, size_t size, char **given)
{
    size_t room = strtoul(given[0], 0, 0), taken = 0, changed = 0;
    for (size_t count = strtoul(given[1], 0, 0); count; count--) {
        struct platform_frame its = platform;
        uint8_t *at = copy(tree, size, room), *before;
        /* A quarter of the changes is in the header. */
        for (uint32_t n = 1 + chance(4); n; n--)
            at[chance(chance(4) ? (uint32_t)size : 40)] ^= (uint8_t)(1u << chance(8));
        before = copy(at, room, room);
        pmpmon_find_platform(at, room, &its);
        if (!pmpmon_put_host_tree(&platform, 0, 0, at, room))
            taken++;
        else
            changed += memcmp(at, before, room) != 0;
        free(at);
        free(before);
    }
    printf("%zu %zu\n", taken, changed);
    return heap_blocks != 0;
}

int main(int argc, char **argv)
{
    static uint8_t tree[MOST];
    FILE *in = argc > 2 ? fopen(argv[2], "rb") : 0;
    if (!in)
        return 2;
    size_t size = fread(tree, 1, MOST, in);
    fclose(in);
    if (!strcmp(argv[1], "board"))
        return board(tree, size);
    if (!strcmp(argv[1], "random"))
        return many(tree, size, argv + 3);
    return one(tree, size, argv + 3, !strcmp(argv[1], "pool"));
}
