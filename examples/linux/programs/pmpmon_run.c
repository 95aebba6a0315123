/*
 * Runs an enclave of a file, and ends with what it exits with.
 *
 *   pmpmon-run [-i FILE] [-t SECONDS] ENCLAVE.elf [WORD...]
 *
 * -i puts a file's bytes into the shared pages. -t ends it after that time, however often it stops by itself. The words are in its
 * first shared page, and what it says there at a stop is printed. It ends with the lowest byte of the enclave's exit value; with 125
 * where the enclave was not made or did not exit; with 124 where the time was over.
 */
#include "enclave_file.h"
#include <errno.h>
#include <fcntl.h>
#include <stdio.h>
#include <stdlib.h>
#include <string.h>
#include <sys/ioctl.h>
#include <time.h>
#include <unistd.h>

enum { TIME_OVER = 124, NOT_RUN = 125 };

struct words {
    const char *enclave, *input;
    uint64_t most_ns;
    char **more;
};

static int usage(void)
{
    fprintf(stderr, "usage: pmpmon-run [-i FILE] [-t SECONDS] ENCLAVE.elf [WORD...]\n");
    return 2;
}

static bool read_words(int count, char **words, struct words *it)
{
    int letter;
    memset(it, 0, sizeof *it);
    while ((letter = getopt(count, words, "+i:t:")) != -1) {
        char *end = "x";
        double seconds = letter == 't' ? strtod(optarg, &end) : 1;
        if (letter == 'i')
            it->input = optarg;
        else if (letter == 't' && !*end && seconds > 0 && seconds < 1e9)
            it->most_ns = (uint64_t)(seconds * 1e9) + 1;
        else
            return false;
    }
    it->enclave = words[optind];
    it->more = words + optind + (optind < count);
    return it->enclave != 0;
}

/* The words of the enclave, each with a zero after it. */
static bool give_words(char **words, volatile struct pmpmon_page *page)
{
    size_t at = 0;
    for (; *words; words++) {
        size_t bytes = strlen(*words) + 1;
        if (bytes > sizeof page->words - at)
            return complain("its words are longer than %zu bytes", sizeof page->words);
        for (size_t i = 0; i < bytes; i++)
            page->words[at++] = (*words)[i];
    }
    page->words_bytes = at;
    return true;
}

static bool give_input(const char *path, struct loaded *it)
{
    size_t at = 0;
    ssize_t some = 1;
    int file = open(path, O_RDONLY | O_CLOEXEC);
    uint8_t more;
    if (file < 0)
        return complain("%s: %s", path, strerror(errno));
    while (at < it->buffer_bytes && (some = read(file, it->buffer + at, it->buffer_bytes - at)) > 0)
        at += (size_t)some;
    if (some > 0 && read(file, &more, 1) > 0)
        some = complain("%s: larger than the %zu bytes of the shared pages", path, it->buffer_bytes) - 1;
    else if (some < 0)
        complain("%s: %s", path, strerror(errno));
    close(file);
    it->page->in_bytes = at;
    return some >= 0;
}

/* What the enclave has said: it may be anything, so that no other bytes than text are printed. */
static void print_said(volatile struct pmpmon_page *page)
{
    uint64_t bytes = page->said_bytes;
    for (uint64_t i = 0; i < bytes && i < sizeof page->said; i++) {
        char one = page->said[i];
        putchar(one == '\n' || one == '\t' || (one >= ' ' && one <= '~') ? one : '?');
    }
    page->said_bytes = 0;
    fflush(stdout);
}

static uint64_t now_ns(void)
{
    struct timespec t;
    clock_gettime(CLOCK_MONOTONIC, &t);
    return (uint64_t)t.tv_sec * 1000000000u + (uint64_t)t.tv_nsec;
}

static int time_is_over(void)
{
    complain("the time is over");
    return TIME_OVER;
}

/* Runs it to its end. A run begins anew after each stop, with what is left of the time. */
static int run(struct loaded *it, uint64_t most_ns)
{
    uint64_t end = most_ns ? now_ns() + most_ns : 0;
    for (;;) {
        uint64_t now = now_ns();
        if (end && now >= end)
            return time_is_over();
        struct pmpmon_run_args back = {.most_ns = end ? end - now : 0};
        if (ioctl(it->file, PMPMON_RUN_ENCLAVE, &back)) {
            if (errno == EINTR)
                continue;
            if (errno == ETIME)
                return time_is_over();
            complain("run: %s", strerror(errno));
            return NOT_RUN;
        }
        print_said(it->page);
        if (back.error == 0) {
            printf("exited with %llu\n", back.value);
            return (int)(back.value & 255);
        }
        if (back.error != PMPMON_STOPPED) {
            complain("the monitor refused, %lld: %s", back.error, refusal_name(back.error));
            return NOT_RUN;
        }
        if (back.cause != 8) {
            printf("stopped by %s, at 0x%016llx\n", pmpmon_cause_name(back.cause), back.stop_value);
            return NOT_RUN;
        }
    }
}

int main(int count, char **all)
{
    struct words words;
    struct image image;
    struct loaded it;
    char digest[2 * DIGEST_BYTES + 1];
    program_name = "pmpmon-run";
    if (!read_words(count, all, &words))
        return usage();
    if (!read_image(words.enclave, &image) || !load_image(&image, &it))
        return NOT_RUN;
    digest_text(it.digest, digest);
    printf("digest %s\n", digest);
    if (!give_words(words.more, it.page) || (words.input && !give_input(words.input, &it)))
        return NOT_RUN;
    return run(&it, words.most_ns);
}
