/* A program for Linux that links the library, and prints what it answers as `pmpmon` prints it.
 *
 *   from_c plan MAP ENTRIES       the entries and the registers; `needs N entries` where they do not fit
 *   from_c judge MAP < TRACE      each access by the registers of 64 entries: `N ok`, `N fault CODE`
 *   from_c check MAP CERTIFICATE  the number that pmpmon_check answers
 *   from_c refusals               how many refusals there are, and how many of them are wrong
 *   from_c many                   what becomes of 4097 ranges: the result and the number of the setting
 */
#include <inttypes.h>
#include <stdio.h>
#include <stdlib.h>
#include <string.h>
#include "pmpmon.h"
#include "refusals.h"

static struct pmpmon_setting settings[8192];
static size_t count;
static struct pmpmon_registers registers;
static uint64_t at_fault;

static uint64_t perm_of(const char *word)
{
    return strcmp(word, "none") == 0 ? 0 : (strchr(word, 'r') ? 1 : 0) + (strchr(word, 'w') ? 2 : 0) + (strchr(word, 'x') ? 4 : 0);
}

static void read_map(const char *name)
{
    char line[1024], perm[8];
    uint64_t base, size;
    FILE *file = fopen(name, "r");
    if (!file)
        exit(3);
    while (count < 8192 && fgets(line, sizeof line, file)) {
        line[strcspn(line, "#")] = 0;
        if (sscanf(line, "%" SCNi64 " %" SCNi64 " %7s", (int64_t *)&base, (int64_t *)&size, perm) == 3)
            settings[count++] = (struct pmpmon_setting){base, size, perm_of(perm)};
    }
    fclose(file);
}

static int print_plan(uint64_t entries)
{
    int64_t needed = pmpmon_plan(settings, count, entries, &registers, &at_fault);
    if (needed < 0 || needed != pmpmon_needed(settings, count, &at_fault))
        return 1;
    if ((uint64_t)needed > entries || needed > 64) {
        printf("needs %" PRId64 " entries\n", needed);
        return 0;
    }
    printf("entries %" PRId64 "\n", needed);
    for (int64_t i = 0; i < needed; i++)
        printf("%" PRId64 " 0x%02x 0x%016" PRIx64 "\n", i, (unsigned)(registers.cfg[i / 8] >> (8 * (i % 8)) & 255), registers.addr[i]);
    for (uint64_t i = 0; i < entries / 8; i++)
        printf("pmpcfg%" PRIu64 " 0x%016" PRIx64 "\n", 2 * i, registers.cfg[i]);
    return 0;
}

static int judge_trace(void)
{
    char kind[8], mode[4], line[256];
    struct pmpmon_access access;
    uint64_t number = 0;
    if (pmpmon_plan(settings, count, 64, &registers, &at_fault) < 0)
        return 1;
    while (fgets(line, sizeof line, stdin)) {
        if (sscanf(line, "%7s %3s %" SCNi64 " %" SCNi64, kind, mode, (int64_t *)&access.size, (int64_t *)&access.address) != 4)
            return 1;
        access.kind = kind[0] == 'l' ? PMPMON_LOAD : kind[0] == 's' ? PMPMON_STORE : PMPMON_FETCH;
        access.mode = mode[0] == 's' ? PMPMON_SUPERVISOR : PMPMON_USER;
        int64_t answer = pmpmon_judge(&registers, 64, &access);
        if (answer == PMPMON_ALLOWED)
            printf("%" PRIu64 " ok\n", ++number);
        else
            printf("%" PRIu64 " fault %" PRId64 "\n", ++number, answer);
    }
    return 0;
}

static int check_file(const char *name)
{
    static uint8_t bytes[1 << 20];
    FILE *file = fopen(name, "rb");
    if (!file)
        return 3;
    size_t size = fread(bytes, 1, sizeof bytes, file);
    fclose(file);
    printf("%" PRId64 "\n", pmpmon_check(settings, count, bytes, size, &at_fault));
    return 0;
}

/* Every second page: the setting of number 4096 makes the range of number 4097. */
static int print_many(void)
{
    for (count = 0; count < 4200; count++)
        settings[count] = (struct pmpmon_setting){8192 * count, 4096, PMPMON_R};
    int64_t result = pmpmon_plan(settings, count, 16, &registers, &at_fault);
    printf("%" PRId64 " %" PRIu64 "\n", result, at_fault);
    return 0;
}

int main(int argc, char **argv)
{
    const char *what = argc > 1 ? argv[1] : "";
    if (argc > 2)
        read_map(argv[2]);
    if (strcmp(what, "plan") == 0 && argc == 4)
        return print_plan(strtoull(argv[3], 0, 10));
    if (strcmp(what, "judge") == 0 && argc == 3)
        return judge_trace();
    if (strcmp(what, "check") == 0 && argc == 4)
        return check_file(argv[3]);
    if (strcmp(what, "many") == 0)
        return print_many();
    if (strcmp(what, "refusals") != 0)
        return 2;
    printf("%u %u\n", refusals_count, refusals_wrong());
    return 0;
}
