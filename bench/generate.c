/*
 * Makes the inputs of the bench in the folder that it is given: large maps and long traces, the
 * same ones each time.
 *
 *   edges.map      4096 runs, parted by gaps, whose 8192 edges lie at odd pages all over the space: no map
 *                  has a larger certificate
 *   pages.map      4096 single pages all over the space, in random order
 *   dense.map      4096 runs of one to four pages that touch one another, in 64 MiB
 *   rewritten.map  a map file of just under 1 MiB, whose lines override one another
 *   board.map      a board as it is: RAM, firmware, a serial port, an enclave's text and data
 *   larger.map     a map that needs more than 16 entries and no more than 64
 *   tidy.trace     1,000,000 accesses on board.map
 *   messy.trace    the same with comments, tabs, CRs, and numbers in other spellings
 *   larger.trace   1,000,000 accesses on larger.map
 *   apart-N.map    N runs, for N from 256 to 4096, whose edges alternate bits: the fewest entries are 32 for each
 *                  run, no two of which meet, so that they mean the map in any order
 *   tiny.trace, short.trace, long.trace   100, 100,000 and 4,000,000 accesses on board.map, as in tidy.trace
 *   platform.toml, platform-64.toml   a board with one hart of 16 entries, and with two harts of 64
 *   mixed.trace    1,000,000 events of every kind on platform.toml: accesses of the host and of five enclaves,
 *                  registers, interrupts, calls
 *   mixed-64.trace the same on the two harts of platform-64.toml, with twenty enclaves
 *   pairs.trace    20,000 times an enclave of one page, made and destroyed
 *   churn.trace    40,000 creations and destructions on platform-64.toml, up to 25 enclaves alive
 *   worlds.trace   100,000 changes of world: an enclave is resumed and stops itself, in turn
 *   zeros.trace    ten enclaves of nearly 4 MiB that nobody wrote, each of another layout, made and destroyed
 *   memory.trace   1,000,000 loads and stores of eight bytes, at random places of 8192 pages
 */
#include <inttypes.h>
#include <stdint.h>
#include <stdio.h>
#include <stdlib.h>
#include <string.h>

static uint64_t state = 0x9e3779b97f4a7c15u;

static uint64_t draw(void)
{
    state ^= state << 13;
    state ^= state >> 7;
    state ^= state << 17;
    return state;
}

static uint64_t below(uint64_t n)
{
    return draw() % n;
}

static const char *const PERMS[] = {"r", "rw", "x", "rx", "rwx"};

static FILE *make(const char *folder, const char *name)
{
    char path[4096];
    FILE *file;
    snprintf(path, sizeof path, "%s/%s", folder, name);
    file = fopen(path, "w");
    if (!file) {
        perror(path);
        exit(1);
    }
    return file;
}

static void range(FILE *map, uint64_t first, uint64_t count, const char *perm)
{
    fprintf(map, "0x%" PRIx64 " 0x%" PRIx64 " %s\n", first << 12, count << 12, perm);
}

/* Run i begins in block 2i of 2^31 pages and ends in block 2i + 1. */
static void edges(const char *folder)
{
    FILE *map = make(folder, "edges.map");
    for (uint64_t i = 0; i < 4096; i++) {
        uint64_t first = (2 * i << 31) + (below(1u << 31) | 1);
        uint64_t end = ((2 * i + 1) << 31) + (below(1u << 31) | 1);
        range(map, first, end - first, PERMS[below(5)]);
    }
    fclose(map);
}

static void pages(const char *folder)
{
    FILE *map = make(folder, "pages.map");
    uint64_t order[4096];
    for (int i = 0; i < 4096; i++)
        order[i] = i;
    for (int i = 4095; i > 0; i--) {
        int j = below(i + 1);
        uint64_t held = order[i];
        order[i] = order[j];
        order[j] = held;
    }
    for (int i = 0; i < 4096; i++)
        range(map, (order[i] << 32) + below((uint64_t)1 << 32), 1, PERMS[below(5)]);
    fclose(map);
}

static void dense(const char *folder)
{
    FILE *map = make(folder, "dense.map");
    uint64_t first = 0x80000;
    int last = -1;
    for (int i = 0; i < 4096; i++) {
        uint64_t count = 1 + below(4);
        int perm = below(5);
        if (perm == last)
            perm = (perm + 1) % 5;
        range(map, first, count, PERMS[perm]);
        first += count;
        last = perm;
    }
    fclose(map);
}

static void rewritten(const char *folder)
{
    FILE *map = make(folder, "rewritten.map");
    while (ftell(map) < (1 << 20) - 64)
        range(map, below(4000), 1 + below(3), PERMS[below(5)]);
    fclose(map);
}

static void boards(const char *folder)
{
    FILE *map = make(folder, "board.map");
    fputs("0x80000000 0x8000000 rwx\n0x80000000 0x200000 none\n0x10000000 0x1000 rw\n"
          "0x80208000 0x7000 rx\n0x8020f000 0x3000 rw\n", map);
    fclose(map);
    map = make(folder, "larger.map");
    fputs("0x80000000 0x8000000 rwx\n0x80000000 0x200000 none\n", map);
    for (uint64_t i = 0; i < 24; i++)
        range(map, 0x80200 + 5 * i, 2, PERMS[i % 4]);
    fclose(map);
}

static void address(FILE *trace, uint64_t addr, int spelling)
{
    if (spelling == 1)
        fprintf(trace, "%" PRIu64, addr);
    else if (spelling == 2)
        fprintf(trace, "0X%016" PRIX64, addr);
    else
        fprintf(trace, "0x%" PRIx64, addr);
}

static void access_line(FILE *trace, uint64_t from, uint64_t bytes, int messy)
{
    static const char *const KINDS[] = {"load", "load", "store", "fetch"};
    static const int SIZES[] = {1, 2, 4, 8};
    int kind = below(4), style = messy ? (int)below(4) : 0;
    int size = kind == 3 ? SIZES[1 + below(2)] : SIZES[below(4)];
    uint64_t place = below(100), addr = from + below(bytes);
    if (place >= 95)
        addr = below((uint64_t)1 << 57);
    else if (place >= 90)
        addr = 0x10000000 + below(0x2000);
    if (below(50))
        addr -= addr % size;
    if (messy && below(20) == 0)
        fputs("\n  # a line of its own\n", trace);
    fprintf(trace, style == 1 ? "\t%s\t%s  %d " : "%s %s %d ", KINDS[kind], below(2) ? "s" : "u", size);
    address(trace, addr, style);
    if (kind == 2)
        fprintf(trace, " 0x%" PRIx64, draw());
    fputs(style == 1 ? "   # a remark\r\n" : "\n", trace);
}

/* Run i begins in block 2i of 2^31 pages and ends in block 2i + 1, at pages whose low bits alternate. */
static void apart(const char *folder)
{
    static const uint64_t LOW[] = {0x2AAAAAAB, 0x55555555};
    for (uint64_t runs = 256; runs <= 4096; runs *= 2) {
        char name[32];
        FILE *map;
        snprintf(name, sizeof name, "apart-%" PRIu64 ".map", runs);
        map = make(folder, name);
        for (uint64_t i = 0; i < runs; i++) {
            uint64_t first = (2 * i << 31) + LOW[i & 1];
            uint64_t end = ((2 * i + 1) << 31) + LOW[i / 2 & 1];
            range(map, first, end - first, PERMS[i % 5]);
        }
        fclose(map);
    }
}

static void accesses(const char *folder, const char *name, int lines)
{
    FILE *trace = make(folder, name);
    for (int i = 0; i < lines; i++)
        access_line(trace, 0x80000000, 0x8000000, 0);
    fclose(trace);
}

static void traces(const char *folder)
{
    FILE *tidy = make(folder, "tidy.trace");
    FILE *messy = make(folder, "messy.trace");
    FILE *larger = make(folder, "larger.trace");
    for (int i = 0; i < 1000000; i++) {
        access_line(tidy, 0x80000000, 0x8000000, 0);
        access_line(messy, 0x80000000, 0x8000000, 1);
        access_line(larger, 0x80200000, 0x80000, 0);
    }
    fclose(tidy);
    fclose(messy);
    fclose(larger);
    accesses(folder, "short.trace", 100000);
    accesses(folder, "long.trace", 4000000);
}

static void platforms(const char *folder)
{
    static const char *const NAMES[] = {"platform.toml", "platform-64.toml"};
    static const char *const HEADS[] = {"", "harts = 2\nentries = 64\n\n"};
    for (int i = 0; i < 2; i++) {
        FILE *file = make(folder, NAMES[i]);
        fprintf(file, "%s[monitor]\nbase = 0x80000000\nsize = 0x200000\n\n[[ram]]\nbase = 0x80000000\nsize = 0x8000000\n\n"
                "[[device]]\nbase = 0x10000000\nsize = 0x1000\nperm = \"rw\"\n", HEADS[i]);
        fclose(file);
    }
}

#define CALL "ecall 0x08454E43 "

/* Enclave i, from 1, has a page of text and one of data, and shares a page. */
static uint64_t private_base(int i) { return 0x80200000 + (uint64_t)(i - 1) * 0x4000; }
static uint64_t shared_base(int i) { return 0x81000000 + (uint64_t)(i - 1) * 0x1000; }

static void create(FILE *trace, int i)
{
    fprintf(trace, CALL "0 0x%" PRIx64 " 1 1 0x%" PRIx64 " 1 0\n", private_base(i), shared_base(i));
}

/* Events of every kind. The enclaves' states are followed, so that most calls are allowed: 'f' fresh, 'r' running,
   's' stopped, 'x' exited. */
static void mixed(const char *folder, const char *name, int harts, int enclaves)
{
    FILE *trace = make(folder, name);
    char state[65];
    int world[4] = {0};
    for (int i = 1; i <= enclaves; i++) {
        create(trace, i);
        state[i] = 'f';
    }
    for (int left = 1000000 - enclaves; left > 0; left--) {
        int hart = below(harts), here = world[hart], what = below(1000), other = 1 + below(enclaves);
        if (harts > 1)
            fprintf(trace, "@%d ", hart);
        if (what < 600) {
            if (here && below(5))
                access_line(trace, below(2) ? private_base(here) : shared_base(here), 0x1000, 0);
            else
                access_line(trace, 0x80200000, 0x80000, 0);
        } else if (what < 750) {
            fprintf(trace, "reg x%d 0x%" PRIx64 "\n", (int)below(32), draw());
        } else if (what < 800) {
            fputs("irq\n", trace);
            if (here)
                state[here] = 's';
            world[hart] = 0;
        } else if (here && what < 900) {
            fprintf(trace, CALL "6 %d %d\n", here, (int)below(4));
        } else if (here) {
            int leaves = what < 999;
            if (leaves)
                fputs(CALL "3\n", trace);
            else
                fprintf(trace, CALL "5 0x%x\n", (unsigned)below(1u << 31));
            state[here] = leaves ? 's' : 'x';
            world[hart] = 0;
        } else if (state[other] == 'x') {
            fprintf(trace, CALL "1 %d\n", other);
            if (harts > 1)
                fprintf(trace, "@%d ", hart);
            create(trace, other);
            state[other] = 'f';
            left--;
        } else if (state[other] == 'r' || what < 820) {
            fprintf(trace, "ecall %d %d\n", (int)below(100), (int)below(10));
        } else {
            fprintf(trace, CALL "%d %d\n", state[other] == 'f' ? 2 : 4, other);
            state[other] = 'r';
            world[hart] = other;
        }
    }
    fclose(trace);
}

static void pairs(const char *folder)
{
    FILE *trace = make(folder, "pairs.trace");
    for (uint64_t i = 0; i < 20000; i++)
        fprintf(trace, CALL "0 0x%" PRIx64 " 1 0 0 0 0\n" CALL "1 1\n", 0x80200000 + i % 1000 * 0x1000);
    fclose(trace);
}

/* Enclaves of two pages at 256 places; ids are given from the least free one on. */
static void churn(const char *folder)
{
    FILE *trace = make(folder, "churn.trace");
    int place[65] = {0}, taken[256] = {0}, live = 0;
    for (int i = 0; i < 40000; i++) {
        int id = 1, at = below(256);
        if (live == 25 || (live && below(5) < 2)) {
            while (!place[id = 1 + below(64)])
                ;
            taken[place[id] - 1] = 0;
            place[id] = 0;
            live--;
            fprintf(trace, CALL "1 %d\n", id);
            continue;
        }
        while (place[id])
            id++;
        while (taken[at])
            at = below(256);
        taken[at] = 1;
        place[id] = at + 1;
        live++;
        fprintf(trace, CALL "0 0x%" PRIx64 " 1 1 0 0 0\n", 0x80200000 + (uint64_t)at * 0x2000);
    }
    fclose(trace);
}

/* An enclave goes on and stops, again and again. */
static void worlds(const char *folder)
{
    FILE *trace = make(folder, "worlds.trace");
    create(trace, 1);
    fputs(CALL "2 1\n" CALL "3\n", trace);
    for (int i = 1; i < 50000; i++)
        fputs(CALL "4 1\n" CALL "3\n", trace);
    fclose(trace);
}

/* Enclaves of so many unwritten pages that no two layouts are the same. */
static void zeros(const char *folder)
{
    FILE *trace = make(folder, "zeros.trace");
    for (int i = 0; i < 10; i++)
        fprintf(trace, CALL "0 0x80200000 %d 1 0x87000000 1 0\n" CALL "1 1\n", 1000 + i);
    fclose(trace);
}

static void memory(const char *folder)
{
    FILE *trace = make(folder, "memory.trace");
    for (int i = 0; i < 1000000; i++) {
        uint64_t addr = 0x80200000 + (below(8192) << 12) + below(512) * 8;
        if (below(2))
            fprintf(trace, "load s 8 0x%" PRIx64 "\n", addr);
        else
            fprintf(trace, "store s 8 0x%" PRIx64 " 0x%" PRIx64 "\n", addr, draw());
    }
    fclose(trace);
}

int main(int count, char **words)
{
    if (count != 2) {
        fputs("generate FOLDER\n", stderr);
        return 2;
    }
    edges(words[1]);
    pages(words[1]);
    dense(words[1]);
    rewritten(words[1]);
    boards(words[1]);
    traces(words[1]);
    apart(words[1]);
    platforms(words[1]);
    mixed(words[1], "mixed.trace", 1, 5);
    mixed(words[1], "mixed-64.trace", 2, 20);
    pairs(words[1]);
    churn(words[1]);
    accesses(words[1], "tiny.trace", 100);
    worlds(words[1]);
    zeros(words[1]);
    memory(words[1]);
    return 0;
}
