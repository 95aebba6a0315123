/*
 * Runs an enclave of a file to its first stop, and then tries to read its pages in each way that root has.
 *
 *   pmpmon-look ENCLAVE.elf
 *
 * It ends with 0 where no way gave a word of a private page while it was the enclave's, and they were zero afterwards.
 */
#define _GNU_SOURCE
#include "enclave_file.h"
#include <elf.h>
#include <errno.h>
#include <fcntl.h>
#include <setjmp.h>
#include <signal.h>
#include <stdio.h>
#include <stdlib.h>
#include <string.h>
#include <sys/ioctl.h>
#include <sys/mman.h>
#include <unistd.h>

static sigjmp_buf back;
static int words_read;

static void faulted(int number)
{
    siglongjmp(back, number);
}

/* What a way came to: the word, or why there is none. */
static void print_way(const char *what, const char *way, bool is_read, uint64_t word, const char *why)
{
    if (is_read)
        printf("%s, %s: 0x%016lx\n", what, way, word);
    else
        printf("%s, %s: %s\n", what, way, why);
    words_read += is_read;
}

static void by_read(const char *what, uint64_t at)
{
    uint64_t word = 0;
    int file = open("/dev/mem", O_RDONLY | O_CLOEXEC);
    ssize_t bytes = file < 0 ? -1 : pread(file, &word, sizeof word, (off_t)at);
    print_way(what, "read of /dev/mem", bytes == sizeof word, word, strerror(errno));
    if (file >= 0)
        close(file);
}

static void by_mmap(const char *what, uint64_t at)
{
    int file = open("/dev/mem", O_RDONLY | O_CLOEXEC), number;
    volatile uint64_t *page = mmap(0, PAGE_BYTES, PROT_READ, MAP_SHARED, file, (off_t)(at & -PAGE_BYTES));
    if (page == MAP_FAILED) {
        print_way(what, "mmap of /dev/mem", false, 0, strerror(errno));
    } else {
        struct sigaction act = {.sa_handler = faulted};
        sigaction(SIGSEGV, &act, 0);
        sigaction(SIGBUS, &act, 0);
        number = sigsetjmp(back, 1);
        if (number)
            print_way(what, "mmap of /dev/mem", false, 0, strsignal(number));
        else
            print_way(what, "mmap of /dev/mem", true, page[at % PAGE_BYTES / 8], "");
        munmap((void *)page, PAGE_BYTES);
    }
    if (file >= 0)
        close(file);
}

/* /proc/kcore is an ELF of what the kernel maps: a segment that has the address, if there is one. */
static void by_kcore(const char *what, uint64_t at)
{
    Elf64_Ehdr head;
    int file = open("/proc/kcore", O_RDONLY | O_CLOEXEC);
    if (file < 0 || pread(file, &head, sizeof head, 0) != sizeof head) {
        print_way(what, "/proc/kcore", false, 0, strerror(errno));
        return;
    }
    for (uint64_t i = 0; i < head.e_phnum; i++) {
        Elf64_Phdr one;
        uint64_t word = 0;
        if (pread(file, &one, sizeof one, (off_t)(head.e_phoff + i * sizeof one)) != sizeof one)
            break;
        if (one.p_type != PT_LOAD || one.p_paddr == 0 || one.p_paddr == ~0ul || at - one.p_paddr >= one.p_memsz)
            continue;
        ssize_t bytes = pread(file, &word, sizeof word, (off_t)(one.p_offset + (at - one.p_paddr)));
        print_way(what, "/proc/kcore", bytes == sizeof word && word != 0, word, bytes == sizeof word ? "zero" : strerror(errno));
        close(file);
        return;
    }
    print_way(what, "/proc/kcore", false, 0, "no segment has it");
    close(file);
}

static void by_driver(const struct loaded *it, const char *what, uint64_t offset)
{
    struct pmpmon_peek_args peek = {.offset = offset};
    bool is_read = !ioctl(it->file, PMPMON_PEEK, &peek);
    print_way(what, "the driver", is_read, peek.value, strerror(errno));
}

static void each_way(const struct loaded *it, const char *what, uint64_t offset)
{
    by_read(what, it->made.base + offset);
    by_mmap(what, it->made.base + offset);
    by_kcore(what, it->made.base + offset);
    by_driver(it, what, offset);
}

/* Whether all private pages are zero. */
static bool is_zero(const struct loaded *it, uint64_t pages)
{
    for (uint64_t at = 0; at < pages * PAGE_BYTES; at += 8) {
        struct pmpmon_peek_args peek = {.offset = at};
        if (ioctl(it->file, PMPMON_PEEK, &peek) || peek.value)
            return false;
    }
    return true;
}

int main(int count, char **words)
{
    struct image image;
    struct loaded it;
    struct pmpmon_run_args at_stop = {.most_ns = 1000000000};
    program_name = "pmpmon-look";
    if (count != 2) {
        fprintf(stderr, "usage: pmpmon-look ENCLAVE.elf\n");
        return 2;
    }
    if (!read_image(words[1], &image) || !load_image(&image, &it))
        return 1;
    if (ioctl(it.file, PMPMON_RUN_ENCLAVE, &at_stop) && errno != ETIME)
        return complain("run: %s", strerror(errno)), 1;
    printf("pages at 0x%llx, stopped by %s\n", it.made.base, pmpmon_cause_name(at_stop.cause));
    each_way(&it, "text", 0);
    each_way(&it, "data", image.text_pages * PAGE_BYTES);
    if (words_read)
        return complain("a private page was read"), 1;
    if (ioctl(it.file, PMPMON_DESTROY_ENCLAVE))
        return complain("destroy: %s", strerror(errno)), 1;
    if (!is_zero(&it, image.text_pages + image.data_pages))
        return complain("a page is not zero after the end"), 1;
    printf("destroyed: all its pages are zero\n");
    return 0;
}
