/* An enclave of a file: enclave_file.h. */
#define _GNU_SOURCE
#include "enclave_file.h"
#include <elf.h>
#include <errno.h>
#include <fcntl.h>
#include <stdarg.h>
#include <stdio.h>
#include <stdlib.h>
#include <string.h>
#include <sys/ioctl.h>
#include <sys/mman.h>
#include <sys/random.h>
#include <sys/stat.h>
#include <unistd.h>

#define MOST_PRIVATE 1024u
#define MOST_SHARED 256u
#define MOST_FILE_BYTES (16ul << 20)

struct named {
    int64_t number;
    const char *name;
};

/* docs/formats/calls.md, "Calls of the monitor". */
static const struct named refusals[] = {
    {PMPMON_NOT_SUPPORTED, "no call of the monitor"},
    {PMPMON_WRONG_WORLD, "the caller is not the host"},
    {PMPMON_BAD_COUNT, "no text, or too many pages"},
    {PMPMON_BAD_RANGE, "a base is no multiple of a page, or a range ends above 2^56"},
    {PMPMON_BAD_ENTRY_OFFSET, "the entry offset is odd, or after the text"},
    {PMPMON_NOT_RAM, "a page is not RAM: the board has less memory than the pool needs"},
    {PMPMON_NOT_YOURS, "a page is not the host's"},
    {PMPMON_TOO_MANY, "64 enclaves are live: end one of them"},
    {PMPMON_NO_ENTRIES, "too few entries: end another enclave"},
    {PMPMON_NO_MEMORY, "the monitor is out of memory: end another enclave"},
    {PMPMON_NO_ENCLAVE, "no such enclave"},
    {PMPMON_WRONG_STATE, "the enclave is in another state"},
    {PMPMON_BAD_WORD, "a digest has the words 0 to 3"},
};

const char *program_name = "pmpmon";

const char *refusal_name(int64_t error)
{
    for (size_t i = 0; i < sizeof refusals / sizeof *refusals; i++)
        if (refusals[i].number == error)
            return refusals[i].name;
    return "an answer that is not known";
}

bool complain(const char *format, ...)
{
    va_list words;
    fprintf(stderr, "%s: ", program_name);
    va_start(words, format);
    vfprintf(stderr, format, words);
    va_end(words);
    fputc('\n', stderr);
    return false;
}

void digest_text(const uint8_t *digest, char text[2 * DIGEST_BYTES + 1])
{
    for (int i = 0; i < DIGEST_BYTES; i++)
        sprintf(text + 2 * i, "%02x", digest[i]);
}

static uint8_t *whole_file(const char *path, size_t *size)
{
    struct stat about;
    uint8_t *bytes = 0;
    size_t at = 0;
    int file = open(path, O_RDONLY | O_CLOEXEC);
    if (file < 0 || fstat(file, &about)) {
        complain("%s: %s", path, strerror(errno));
    } else if (!S_ISREG(about.st_mode) || (size_t)about.st_size > MOST_FILE_BYTES) {
        complain("%s: no file, or larger than 16 MiB", path);
    } else if ((bytes = calloc(1, (size_t)about.st_size + 1))) {
        ssize_t some;
        *size = (size_t)about.st_size;
        while (at < *size && (some = read(file, bytes + at, *size - at)) > 0)
            at += (size_t)some;
        *size = at;
    }
    if (file >= 0)
        close(file);
    return bytes;
}

/* The parts of the file: 0 text, 1 data, 2 shared. Whether each is there once, within the file. */
static bool find_parts(const uint8_t *file, size_t size, const Elf64_Ehdr *head, Elf64_Phdr parts[3])
{
    bool has[3] = {false, false, false};
    for (uint64_t i = 0; i < head->e_phnum; i++) {
        Elf64_Phdr one;
        uint64_t at = head->e_phoff + i * sizeof one;
        if (head->e_phoff > size || at + sizeof one > size)
            return false;
        memcpy(&one, file + at, sizeof one);
        if (one.p_type != PT_LOAD && one.p_type != PMPMON_PT_SHARED)
            continue;
        int part = one.p_type == PMPMON_PT_SHARED ? 2 : one.p_flags & PF_X ? 0 : 1;
        if (has[part] || one.p_offset > size || one.p_filesz > size - one.p_offset || one.p_filesz > one.p_memsz)
            return false;
        parts[part] = one;
        has[part] = true;
    }
    return has[0] && has[1] && has[2];
}

static uint64_t pages_of(const Elf64_Phdr *part)
{
    return part->p_memsz / PAGE_BYTES + (part->p_memsz % PAGE_BYTES != 0);
}

/* Text from 0 on, data in the page after it, the shared pages where all have them. */
static bool is_layout(const char *path, const Elf64_Phdr parts[3], uint64_t entry)
{
    uint64_t text = pages_of(&parts[0]), data = pages_of(&parts[1]), shared = pages_of(&parts[2]);
    if (text == 0 || text > MOST_PRIVATE || data > MOST_PRIVATE - text)
        return complain("%s: %lu pages of text and %lu of data: an enclave has 1 to %u pages, of which one is text", path, text, data, MOST_PRIVATE);
    if (shared == 0 || shared > MOST_SHARED)
        return complain("%s: %lu shared pages: an enclave has 1 to %u (PMPMON_SHARED_PAGES of enclave.ld)", path, shared, MOST_SHARED);
    if (entry % 2 || entry >= text * PAGE_BYTES)
        return complain("%s: its entry, 0x%lx, is odd or outside its text: link it with -Wl,-T,enclave.ld", path, entry);
    if (parts[0].p_vaddr != 0 || parts[1].p_vaddr != text * PAGE_BYTES || parts[2].p_vaddr != PMPMON_SHARED_AT)
        return complain("%s: its parts are at other places than enclave.ld gives them: link it with -Wl,-T,enclave.ld", path);
    return true;
}

bool read_image(const char *path, struct image *it)
{
    size_t size = 0;
    Elf64_Phdr parts[3];
    Elf64_Ehdr head;
    uint8_t *file = whole_file(path, &size);
    bool is_right = false;
    memset(it, 0, sizeof *it);
    if (!file)
        return false;
    if (size >= sizeof head)
        memcpy(&head, file, sizeof head);
    if (size < sizeof head || memcmp(head.e_ident, ELFMAG, SELFMAG) || head.e_ident[EI_CLASS] != ELFCLASS64 || head.e_machine != EM_RISCV)
        complain("%s: no ELF for RV64: examples/linux/enclaves/Makefile makes one", path);
    else if (head.e_phentsize != sizeof *parts || !find_parts(file, size, &head, parts))
        complain("%s: no enclave: text, data or shared pages are missing: link it with -Wl,-T,enclave.ld", path);
    else if (is_layout(path, parts, head.e_entry)) {
        it->text_pages = (uint32_t)pages_of(&parts[0]), it->data_pages = (uint32_t)pages_of(&parts[1]);
        it->shared_pages = (uint32_t)pages_of(&parts[2]), it->entry_offset = (uint32_t)head.e_entry;
        it->bytes = calloc(it->text_pages + it->data_pages, PAGE_BYTES);
        is_right = it->bytes || complain("%s: out of memory", path);
    }
    for (int i = 0; i < 2 && is_right; i++)
        memcpy(it->bytes + parts[i].p_vaddr, file + parts[i].p_offset, parts[i].p_filesz);
    free(file);
    return is_right;
}

static bool open_device(int *file)
{
    *file = open("/dev/pmpmon", O_RDWR | O_CLOEXEC);
    if (*file >= 0)
        return true;
    if (errno == ENOENT)
        return complain("no /dev/pmpmon: load the driver, pmpmon.ko. Where it is not taken, the kernel's log says what it lacks");
    return complain("/dev/pmpmon: %s", strerror(errno));
}

static bool create(struct loaded *it)
{
    if (!ioctl(it->file, PMPMON_CREATE_ENCLAVE, &it->made))
        return true;
    switch (errno) {
    case EPROTO:
        return complain("the monitor refused, %lld: %s", it->made.refused, refusal_name(it->made.refused));
    case ENOMEM:
        return complain("the pool has no room for it: end another enclave, or build the firmware with a larger pool");
    case EDQUOT:
        return complain("this process has as many enclaves as it may (the driver's parameter `most`)");
    default:
        return complain("create: %s", strerror(errno));
    }
}

static void fill_page(const struct image *it, volatile struct pmpmon_page *page)
{
    uint64_t seed[4] = {0};
    if (getrandom(seed, sizeof seed, GRND_NONBLOCK) < 0)
        memset(seed, 0, sizeof seed);
    page->magic = PMPMON_PAGE_MAGIC;
    page->text_pages = it->text_pages, page->data_pages = it->data_pages, page->shared_pages = it->shared_pages;
    for (int i = 0; i < 4; i++)
        page->untrusted_seed[i] = seed[i];
}

bool load_image(const struct image *it, struct loaded *made)
{
    size_t shared = it->shared_pages * PAGE_BYTES;
    struct pmpmon_digest digest;
    void *pages;
    memset(made, 0, sizeof *made);
    made->made = (struct pmpmon_create_args){.image = (uintptr_t)it->bytes,
                                             .image_bytes = (it->text_pages + it->data_pages) * PAGE_BYTES,
                                             .text_pages = it->text_pages,
                                             .data_pages = it->data_pages,
                                             .shared_pages = it->shared_pages,
                                             .entry_offset = it->entry_offset};
    if (!open_device(&made->file))
        return false;
    if (!create(made)) {
        close(made->file);
        return false;
    }
    pages = mmap(0, shared, PROT_READ | PROT_WRITE, MAP_SHARED, made->file, 0);
    if (pages == MAP_FAILED || ioctl(made->file, PMPMON_MEASURE_ENCLAVE, &digest)) {
        complain("the shared pages or the digest: %s", strerror(errno));
        close(made->file);
        return false;
    }
    memcpy(made->digest, digest.bytes, sizeof made->digest);
    made->page = pages;
    made->buffer = (uint8_t *)pages + PAGE_BYTES, made->buffer_bytes = shared - PAGE_BYTES;
    fill_page(it, made->page);
    return true;
}
