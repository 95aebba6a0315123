/*
 * What a program above /dev/pmpmon can do, and cannot. It ends with 0 where all was right.
 *
 *   enclaves faults          what an enclave may not: memory of others; and that it computes in floating point and reads the time
 *   enclaves wrong           calls with wrong words, in a wrong order, and by a user that is not root
 *   enclaves times           time limits and signals
 *   enclaves user            a user that is not root makes and runs one, where the driver's parameter `mode` lets it
 *   enclaves killed          the process of an enclave that never stops is killed
 *   enclaves fit PAGES N     64 enclaves of so many pages in the pool, and all go, in N random orders
 *   enclaves stuck GAP       enclaves of which none can go but by filled gaps of so many pages, beside a file whose enclave is over
 *   enclaves limit N         a process has N enclaves at most (the driver's parameter)
 *   enclaves lives WORKERS N SECONDS LOADS
 *                            so many processes make, run and end N enclaves each, or fewer in that time, beside others that load the machine
 *   enclaves parallel N      two enclaves at once on two CPUs, N millions of rounds each
 *   enclaves costs N         what a run to the next stop takes by ioctl, a creation, and how long another CPU stands still
 *   enclaves fuzz SECONDS    four threads with calls of random words
 */
#define _GNU_SOURCE
#include "enclave_file.h"
#include "tried.h"
#include <errno.h>
#include <fcntl.h>
#include <pthread.h>
#include <sched.h>
#include <signal.h>
#include <stdatomic.h>
#include <stdio.h>
#include <stdlib.h>
#include <string.h>
#include <sys/ioctl.h>
#include <sys/mman.h>
#include <sys/resource.h>
#include <sys/syscall.h>
#include <sys/time.h>
#include <sys/wait.h>
#include <time.h>
#include <ucontext.h>
#include <unistd.h>

#define MOST_LIVE 64
#define LOADS 4

static int wrong;

static double now(void)
{
    struct timespec t;
    /* By the system call: a kernel without CONFIG_JUMP_LABEL may fault in the vDSO while it sets the time. */
    syscall(SYS_clock_gettime, CLOCK_MONOTONIC, &t);
    return (double)t.tv_sec + 1e-9 * (double)t.tv_nsec;
}

static void pin(unsigned cpu)
{
    cpu_set_t set;
    CPU_ZERO(&set);
    CPU_SET(cpu, &set);
    sched_setaffinity(0, sizeof set, &set);
}

/* Counts what is not as it should be, and says it. */
static void want(bool is_right, const char *what)
{
    if (!is_right)
        printf("WRONG: %s (%s)\n", what, strerror(errno));
    wrong += !is_right;
}

static struct image tried_image(void)
{
    struct image it;
    if (!read_image("/enclaves/tried.elf", &it))
        exit(2);
    return it;
}

/* An enclave that is asked for something. */
static bool tried(const struct image *it, struct loaded *made, enum tried what, uint64_t first, uint64_t second)
{
    if (!load_image(it, made))
        return false;
    volatile uint64_t *asked = (volatile uint64_t *)made->buffer;
    asked[0] = what, asked[1] = first, asked[2] = second;
    return true;
}

static void end(struct loaded *it)
{
    munmap((void *)it->page, PAGE_BYTES + it->buffer_bytes);
    close(it->file);
}

static int run_for(int file, struct pmpmon_run_args *r, uint64_t most_ns)
{
    *r = (struct pmpmon_run_args){.most_ns = most_ns};
    return ioctl(file, PMPMON_RUN_ENCLAVE, r);
}

/* Without a file: an enclave of zeros of so many pages, and one shared. -1 where it was refused, with errno. */
static int zeros(unsigned pages, struct pmpmon_create_args *made)
{
    int file = open("/dev/pmpmon", O_RDWR | O_CLOEXEC);
    *made = (struct pmpmon_create_args){.text_pages = pages, .shared_pages = 1};
    if (file < 0 || !ioctl(file, PMPMON_CREATE_ENCLAVE, made))
        return file;
    int why = errno;
    close(file);
    errno = why;
    return -1;
}

static void fault(const char *name, enum tried what, uint64_t address, uint64_t cause)
{
    struct image it = tried_image();
    struct loaded made;
    struct pmpmon_run_args r;
    want(tried(&it, &made, what, address, 0) && !run_for(made.file, &r, 0), name);
    printf("%s: error %lld, cause %lld, value %llx\n", name, r.error, r.cause, r.stop_value);
    want(r.error == PMPMON_STOPPED && r.cause == cause && (cause == 2 || r.stop_value == address), name);
    end(&made);
    free(it.bytes);
}

/* Two enclaves and this program add in turn, and each enclave is stopped within its sum again and again. */
static void floats(const struct image *it)
{
    struct loaded made[2];
    struct pmpmon_run_args r[2];
    bool is_over[2] = {false, false};
    uint64_t stops = 0, added = 0, bits;
    double own = 0;
    for (unsigned i = 0; i < 2; i++)
        want(tried(it, &made[i], FLOATS, 1000000, 3 + i), "an enclave that adds");
    while (!is_over[0] || !is_over[1])
        for (unsigned i = 0; i < 2; i++)
            if (!is_over[i]) {
                is_over[i] = !run_for(made[i].file, &r[i], 1000000) || errno != ETIME;
                stops += !is_over[i];
                own += 1 / (double)(5 + added++);
            }
    for (unsigned i = 0; i < 2; i++) {
        want(r[i].error == 0 && r[i].value == sum(1000000, 3 + i), "an enclave computes in floating point");
        end(&made[i]);
    }
    memcpy(&bits, &own, sizeof bits);
    want(stops && bits == sum(added, 5), "and so does its host");
    printf("two enclaves add in floating point: stopped %lu times\n", stops);
}

/* Linux lets its programs read the time, and so an enclave reads the same. */
static void reads_time(const struct image *it)
{
    struct loaded made;
    struct pmpmon_run_args r;
    uint64_t before, after;
    want(tried(it, &made, TIME, 0, 0), "an enclave that reads the time");
    __asm__ volatile("rdtime %0" : "=r"(before));
    want(!run_for(made.file, &r, 0) && r.error == 0, "it is not stopped");
    __asm__ volatile("rdtime %0" : "=r"(after));
    want(before <= r.value && r.value <= after, "it is the time");
    end(&made);
}

static int faults(void)
{
    struct image it = tried_image();
    struct loaded other;
    struct pmpmon_run_args r;
    want(tried(&it, &other, READ, 0, 0), "another enclave");
    fault("an enclave reads the monitor", READ, 0x80000000, 5);
    fault("an enclave reads the kernel", READ, 0x80200000, 5);
    fault("an enclave writes to the kernel", WRITE, 0x80200000, 7);
    fault("an enclave jumps into the kernel", JUMP, 0x80200000, 1);
    fault("an enclave reads the serial port", READ, 0x10000000, 5);
    fault("an enclave reads the CLINT", READ, 0x200bff8, 5);
    fault("an enclave reads another", READ, other.made.base, 5);
    /* What it may. */
    ((volatile uint64_t *)other.buffer)[1] = other.made.base;
    want(!run_for(other.file, &r, 0) && r.error == 0 && r.value, "an enclave reads its own text");
    end(&other);
    floats(&it);
    reads_time(&it);
    return wrong;
}

/* A creation that has to fail, with its errno and, if that is EPROTO, what the monitor answered. */
static void refuses(const char *what, struct pmpmon_create_args a, int error, int64_t refused)
{
    int file = open("/dev/pmpmon", O_RDWR | O_CLOEXEC), back = ioctl(file, PMPMON_CREATE_ENCLAVE, &a);
    want(back == -1 && errno == error && (error != EPROTO || a.refused == refused), what);
    close(file);
}

static void wrong_creations(void)
{
    static uint8_t page[4096];
    uint64_t at = (uintptr_t)page;
    refuses("no text", (struct pmpmon_create_args){.shared_pages = 1}, EINVAL, 0);
    refuses("no shared page", (struct pmpmon_create_args){.text_pages = 1}, EINVAL, 0);
    refuses("too many shared pages", (struct pmpmon_create_args){.text_pages = 1, .shared_pages = 257}, EINVAL, 0);
    refuses("too many pages", (struct pmpmon_create_args){.text_pages = 1000, .data_pages = 25, .shared_pages = 1}, EINVAL, 0);
    refuses("a sum beyond 32 bits", (struct pmpmon_create_args){.text_pages = 1, .data_pages = ~0u, .shared_pages = 1}, EINVAL, 0);
    refuses("a large image", (struct pmpmon_create_args){.text_pages = 1, .shared_pages = 1, .image = at, .image_bytes = 4097}, EINVAL, 0);
    refuses("no image there", (struct pmpmon_create_args){.text_pages = 1, .shared_pages = 1, .image = 8, .image_bytes = 8}, EFAULT, 0);
    refuses("an image of the kernel's", (struct pmpmon_create_args){.text_pages = 1, .shared_pages = 1, .image = ~0ul << 38, .image_bytes = 8}, EFAULT, 0);
    refuses("a flag", (struct pmpmon_create_args){.text_pages = 1, .shared_pages = 1, .flags = 1}, EINVAL, 0);
    refuses("an odd entry", (struct pmpmon_create_args){.text_pages = 1, .shared_pages = 1, .entry_offset = 1}, EPROTO, PMPMON_BAD_ENTRY_OFFSET);
    refuses("an entry outside", (struct pmpmon_create_args){.text_pages = 1, .shared_pages = 1, .entry_offset = 4096}, EPROTO, PMPMON_BAD_ENTRY_OFFSET);
}

/* Calls in a wrong order, and mappings that are none of the shared pages. */
static void wrong_orders(void)
{
    struct pmpmon_create_args a;
    struct pmpmon_run_args r;
    struct pmpmon_digest digest;
    struct pmpmon_peek_args peek = {.offset = 4};
    int empty = open("/dev/pmpmon", O_RDWR | O_CLOEXEC), file = zeros(1, &a);
    want(run_for(empty, &r, 0) && errno == ENOENT, "a run before a creation");
    want(ioctl(empty, PMPMON_MEASURE_ENCLAVE, &digest) && errno == ENOENT, "a digest before a creation");
    want(ioctl(empty, PMPMON_DESTROY_ENCLAVE) && errno == ENOENT, "an end before a creation");
    want(mmap(0, 4096, PROT_READ, MAP_SHARED, empty, 0) == MAP_FAILED && errno == EINVAL, "mmap before a creation");
    want(file >= 0 && ioctl(file, PMPMON_CREATE_ENCLAVE, &a) && errno == EBUSY, "a second creation");
    want(ioctl(file, _IO('P', 0x50)) && errno == ENOTTY, "no such call");
    want(ioctl(file, PMPMON_PEEK, &peek) && errno == EINVAL, "a peek between two words");
    peek.offset = 4096;
    want(ioctl(file, PMPMON_PEEK, &peek) && errno == EINVAL, "a peek after the pages");
    want(mmap(0, 4096, PROT_READ, MAP_PRIVATE, file, 0) == MAP_FAILED, "a private mapping");
    want(mmap(0, 4096, PROT_READ, MAP_SHARED, file, 4096) == MAP_FAILED, "a mapping of another offset");
    want(mmap(0, 8192, PROT_READ, MAP_SHARED, file, 0) == MAP_FAILED, "a mapping of more than is shared");
    want(!ioctl(file, PMPMON_DESTROY_ENCLAVE), "an end");
    want(ioctl(file, PMPMON_DESTROY_ENCLAVE) && errno == ENOENT, "a second end");
    want(run_for(file, &r, 0) && errno == ENOENT, "a run after the end");
    close(file);
    close(empty);
}

static int wrong_words(void)
{
    int status;
    wrong_creations();
    wrong_orders();
    pid_t child = fork();
    if (!child) {
        if (setuid(1000))
            _exit(2);
        _exit(open("/dev/pmpmon", O_RDWR) >= 0 || errno != EACCES);
    }
    waitpid(child, &status, 0);
    want(status == 0, "another user than root opens it");
    return wrong;
}

static int user(void)
{
    struct image it = tried_image();
    struct loaded made;
    struct pmpmon_run_args r;
    uint64_t words[512] = {0};
    want(!setgid(1000) && !setuid(1000), "another user than root");
    want(tried(&it, &made, WORK, 1000, 7) && !run_for(made.file, &r, 0) && r.error == 0 && r.value == work(words, 1000, 7), "it has an enclave");
    want(open("/dev/mem", O_RDONLY) < 0, "and no memory of others");
    return wrong;
}

static void nothing(int number)
{
    (void)number;
}

static int times(void)
{
    struct image it = tried_image();
    struct loaded made;
    struct pmpmon_run_args r;
    struct itimerval once = {.it_value = {0, 50000}};
    struct sigaction act = {.sa_handler = nothing};
    want(tried(&it, &made, FOREVER, 0, 0), "an enclave that never stops");
    for (int i = 0; i < 3; i++) {
        double begun = now();
        want(run_for(made.file, &r, 50000000) && errno == ETIME, "its time is over");
        printf("50 ms: over after %.0f ms\n", (now() - begun) * 1e3);
        want(now() - begun >= 0.05 && now() - begun < 2, "after 50 ms");
    }
    sigaction(SIGALRM, &act, 0);
    setitimer(ITIMER_REAL, &once, 0);
    want(run_for(made.file, &r, 0) && errno == EINTR, "a signal comes");
    setitimer(ITIMER_REAL, &once, 0);
    want(run_for(made.file, &r, ~0ul) && errno == EINTR, "a signal comes before the end of a time that has none");
    want(!ioctl(made.file, PMPMON_DESTROY_ENCLAVE), "it ends where it is stopped");
    end(&made);
    want(tried(&it, &made, STOPS, 0, 0), "an enclave that stops");
    for (int i = 0; i < 100; i++)
        want(!run_for(made.file, &r, 0) && r.error == PMPMON_STOPPED && r.cause == 8, "it stops by its own call");
    end(&made);
    return wrong;
}

static int killed(void)
{
    struct image it = tried_image();
    struct pmpmon_create_args a;
    for (int i = 0; i < 5; i++) {
        pid_t child = fork();
        if (!child) {
            struct loaded made;
            struct pmpmon_run_args r;
            if (tried(&it, &made, FOREVER, 0, 0))
                run_for(made.file, &r, 0);
            _exit(1);
        }
        int status;
        usleep(200000);
        double begun = now();
        kill(child, SIGKILL);
        waitpid(child, &status, 0);
        printf("an enclave that never stops: its process was killed after %.0f ms\n", (now() - begun) * 1e3);
        want(WIFSIGNALED(status) && WTERMSIG(status) == SIGKILL && now() - begun < 2, "its process is killed");
    }
    int file = zeros(1, &a);
    want(file >= 0 && a.id == 1, "its id is free again");
    close(file);
    return wrong;
}

static unsigned random_below(unsigned *state, unsigned below)
{
    *state = *state * 1103515245u + 12345u;
    return (*state >> 8) % below;
}

/* As many enclaves as the monitor has, of so many pages; where one is refused, it says why. */
static int fill(int *files, unsigned pages)
{
    struct pmpmon_create_args a;
    int n = 0;
    while (n < MOST_LIVE && (files[n] = zeros(pages, &a)) >= 0)
        n++;
    if (n < MOST_LIVE)
        printf("%d enclaves of %u pages, then %s, %lld\n", n, pages, strerror(errno), a.refused);
    return n;
}

/* Closes all files, in random order, beginning anywhere. */
static void close_all(int *files, int n, unsigned seed)
{
    for (int left = n; left; left--) {
        int i = (int)random_below(&seed, (unsigned)left);
        close(files[i]);
        files[i] = files[left - 1];
    }
}

static int fit(unsigned pages, unsigned orders)
{
    int files[MOST_LIVE], refused = 0;
    struct pmpmon_create_args a;
    want(fill(files, pages) == MOST_LIVE, "64 enclaves fit");
    want(zeros(pages, &a) < 0 && (errno == ENOMEM || errno == EDQUOT || (errno == EPROTO && a.refused == PMPMON_TOO_MANY)), "and no more");
    for (unsigned seed = 1; seed <= orders; seed++) {
        /* Some by an ioctl, which may be refused, before all are closed. */
        for (int i = 0; i < MOST_LIVE; i += 3)
            refused += ioctl(files[i], PMPMON_DESTROY_ENCLAVE) && errno == EAGAIN;
        close_all(files, MOST_LIVE, seed);
        want(fill(files, pages) == MOST_LIVE, "64 enclaves fit after all are closed in random order");
    }
    close_all(files, MOST_LIVE, orders + 1);
    printf("fit: 64 enclaves of %u pages, closed in %u random orders; %d destructions were refused at first\n", pages, orders, refused);
    return wrong;
}

/*
 * Twelve blocks of four pages, each of four enclaves, with an enclave of `gap` pages between two. Then those between go, so that
 * the host's view needs all entries: of a block none can go, since three pages take one entry more than four. Of those that went
 * each has its file.
 */
static void make_stuck(unsigned gap, int *of_blocks, int *between)
{
    struct pmpmon_create_args a;
    int refused = 0;
    for (int i = 0; i < 59; i++) {
        bool is_between = i % 5 == 4;
        int file = zeros(is_between ? gap : 1, &a);
        want(file >= 0, "59 enclaves");
        *(is_between ? &between[i / 5] : &of_blocks[i - i / 5]) = file;
    }
    for (int i = 0; i < 11; i++)
        want(!ioctl(between[i], PMPMON_DESTROY_ENCLAVE), "those between go");
    for (int i = 0; i < 48; i++)
        refused += ioctl(of_blocks[i], PMPMON_DESTROY_ENCLAVE) && errno == EAGAIN;
    printf("stuck: of 48 enclaves %d cannot be destroyed\n", refused);
    want(refused == 48, "none of a block can be destroyed");
}

/* How many files and kept enclaves hold the driver. */
static int holders(void)
{
    int n = -1;
    FILE *file = fopen("/sys/module/pmpmon/refcnt", "r");
    if (file && fscanf(file, "%d", &n) != 1)
        n = -1;
    if (file)
        fclose(file);
    return n;
}

static int stuck(unsigned gap)
{
    struct pmpmon_create_args a;
    int of_blocks[48], between[11], files[MOST_LIVE];
    make_stuck(gap, of_blocks, between);
    for (int i = 1; i < 11; i++)
        close(between[i]);
    close_all(of_blocks + 1, 47, 1);
    want(holders() == 47 + 2, "47 that are kept hold the driver, and two files");
    close(of_blocks[0]);
    files[0] = zeros(1, &a);
    want(files[0] >= 0 && a.id == 1, "all go beside a file whose enclave is over");
    close(files[0]);
    close(between[0]);
    want(holders() == 0, "nothing holds the driver then");
    want(fill(files, 4) == MOST_LIVE, "64 enclaves fit after all are closed");
    close_all(files, MOST_LIVE, 1);
    return wrong;
}

static int limit(unsigned most)
{
    int files[MOST_LIVE], status;
    struct pmpmon_create_args a;
    for (unsigned i = 0; i < most; i++)
        want((files[i] = zeros(1, &a)) >= 0, "an enclave below the limit");
    want(zeros(1, &a) < 0 && errno == EDQUOT, "one more than a process may have");
    pid_t child = fork();
    if (!child)
        _exit(zeros(1, &a) < 0);
    waitpid(child, &status, 0);
    want(status == 0, "another process has its own");
    close_all(files, (int)most, 1);
    want((files[0] = zeros(1, &a)) >= 0, "after an end there is room");
    close(files[0]);
    return wrong;
}

/* Loads until it is killed: memory and processes. */
static void load_memory(void)
{
    size_t n = 8ul << 20;
    for (uint64_t round = 1;; round++) {
        uint64_t *at = mmap(0, n, PROT_READ | PROT_WRITE, MAP_PRIVATE | MAP_ANONYMOUS, -1, 0);
        if (at == MAP_FAILED)
            continue;
        for (size_t i = 0; i < n / 8; i += 64)
            at[i] = i ^ round;
        for (size_t i = 0; i < n / 8; i += 64)
            if (at[i] != (i ^ round))
                printf("WRONG: memory of a load\n"), _exit(1);
        munmap(at, n);
        if (round % 8 == 0) {
            pid_t child = fork();
            if (!child)
                _exit(0);
            waitpid(child, 0, 0);
        }
    }
}

/* Timers and floating point. */
static void load_timer(void)
{
    struct itimerval every = {{0, 1000}, {0, 1000}};
    double x = 1;
    signal(SIGALRM, nothing);
    setitimer(ITIMER_REAL, &every, 0);
    for (uint64_t i = 1;; i++) {
        x = x * 0.5 + 1;
        if (i % 1000000 == 0 && x != 2)
            printf("WRONG: floating point of a load\n"), _exit(1);
    }
}

struct counts {
    uint64_t done, wrong, refused, interrupts, again;
};

/* A word that is read by the kernel, or -1 with errno. */
static int peek_at(int file, uint64_t offset, uint64_t *value)
{
    struct pmpmon_peek_args peek = {.offset = offset};
    int back = ioctl(file, PMPMON_PEEK, &peek);
    *value = peek.value;
    return back;
}

/* A life: it is made, its answer compared, its pages are closed to the kernel, and zero when it is over. */
static void live(const struct image *it, struct counts *c, uint64_t rounds, uint64_t seed)
{
    struct loaded made;
    struct pmpmon_run_args r;
    uint64_t words[512] = {0}, value, data = it->text_pages * PAGE_BYTES;
    if (!tried(it, &made, WORK, rounds, seed)) {
        c->refused++;
        return;
    }
    while (run_for(made.file, &r, 0) && errno == EINTR)
        c->again++;
    c->interrupts += r.interrupts;
    bool is_right = r.error == 0 && r.value == work(words, rounds, seed);
    is_right &= peek_at(made.file, data, &value) == -1 && errno == EFAULT;
    while (ioctl(made.file, PMPMON_DESTROY_ENCLAVE) && errno == EAGAIN) {
        c->again++;
        usleep(1000);
    }
    is_right &= peek_at(made.file, data, &value) == 0 && value == 0;
    if (!is_right && ++c->wrong < 4)
        printf("WRONG: a life: error %lld, value %llx, cause %llx, at %llx\n", r.error, r.value, r.cause, r.stop_value);
    end(&made);
    c->done++;
}

static void start_loads(pid_t *loads, unsigned count)
{
    for (unsigned i = 0; i < count; i++) {
        loads[i] = fork();
        if (loads[i])
            continue;
        setpriority(PRIO_PROCESS, 0, 5);
        if (i % 2)
            load_timer();
        load_memory();
    }
}

static void end_loads(pid_t *loads, unsigned count)
{
    int status;
    for (unsigned i = 0; i < count; i++) {
        want(waitpid(loads[i], &status, WNOHANG) == 0, "a load goes on");
        kill(loads[i], SIGKILL);
        waitpid(loads[i], &status, 0);
    }
}

static int lives(unsigned workers, unsigned n, unsigned seconds, unsigned load_count)
{
    struct image it = tried_image();
    struct counts *counts = mmap(0, 4096, PROT_READ | PROT_WRITE, MAP_SHARED | MAP_ANONYMOUS, -1, 0), all = {0};
    pid_t child[16], loads[LOADS];
    int status;
    double begun = now();
    workers = workers > 16 ? 16 : workers;
    start_loads(loads, load_count);
    for (unsigned w = 0; w < workers; w++) {
        child[w] = fork();
        if (child[w])
            continue;
        for (unsigned i = 0; i < n && now() - begun < seconds; i++)
            live(&it, &counts[w], 1000 + (i * 7919) % 200000, w * 1000003 + i);
        _exit(0);
    }
    for (unsigned w = 0; w < workers; w++) {
        waitpid(child[w], &status, 0);
        want(status == 0, "a worker ends");
        all.done += counts[w].done, all.wrong += counts[w].wrong, all.refused += counts[w].refused;
        all.interrupts += counts[w].interrupts, all.again += counts[w].again;
    }
    end_loads(loads, load_count);
    printf("lives: %u workers, %lu lives, %lu wrong, %lu refused, %lu interrupts stopped an enclave, %lu tries again, %.1f s\n", workers, all.done, all.wrong,
           all.refused, all.interrupts, all.again, now() - begun);
    return wrong || all.wrong || all.refused || all.done < workers;
}

static int one_of_two(const struct image *it, unsigned cpu, uint64_t rounds)
{
    static uint64_t words[512];
    struct loaded made;
    struct pmpmon_run_args r;
    pin(cpu);
    if (!tried(it, &made, WORK, rounds, cpu))
        return 1;
    double begun = now(), ended;
    int back = run_for(made.file, &r, 0);
    ended = now();
    bool is_right = !back && r.error == 0 && r.value == work(words, rounds, cpu);
    printf("parallel: enclave %llu on CPU %u: %s, %llu interrupts, %.2f s; the host takes %.2f s for the same\n", made.made.id, cpu, is_right ? "right" : "WRONG",
           r.interrupts, ended - begun, now() - ended);
    return !is_right;
}

static int parallel(uint64_t millions)
{
    struct image it = tried_image();
    int status;
    for (unsigned at_once = 1; at_once <= 2; at_once++) {
        pid_t child[2];
        for (unsigned w = 0; w < at_once; w++)
            if (!(child[w] = fork()))
                _exit(one_of_two(&it, w, millions * 1000000));
        for (unsigned w = 0; w < at_once; w++) {
            waitpid(child[w], &status, 0);
            want(status == 0, "it answers right");
        }
    }
    return wrong;
}

/* The longest gap between two looks at the clock, kept for another process. */
static void look_for_gaps(volatile double *longest)
{
    pin(1);
    for (double before = now(), t;; before = t) {
        t = now();
        if (t - before > *longest)
            *longest = t - before;
    }
}

static int costs(unsigned n)
{
    struct image it = tried_image();
    struct loaded made;
    struct pmpmon_run_args r;
    struct pmpmon_create_args a;
    volatile double *longest = mmap(0, 4096, PROT_READ | PROT_WRITE, MAP_SHARED | MAP_ANONYMOUS, -1, 0);
    pin(0);
    want(tried(&it, &made, STOPS, 0, 0), "an enclave that stops");
    for (int k = 0; k < 3; k++) {
        double begun = now();
        for (unsigned i = 0; i < n; i++)
            want(!run_for(made.file, &r, 0), "it stops");
        printf("costs: there and back by ioctl: %.1f us\n", (now() - begun) / n * 1e6);
    }
    end(&made);
    pid_t child = fork();
    if (!child)
        look_for_gaps(longest);
    for (unsigned pages = 1; pages <= 1024; pages *= 4) {
        usleep(100000);
        *longest = 0;
        double begun = now();
        int file = zeros(pages, &a);
        double created = now() - begun;
        usleep(20000);
        double gap = *longest;
        want(file >= 0, "a creation");
        begun = now();
        want(!ioctl(file, PMPMON_DESTROY_ENCLAVE), "a destruction");
        printf("costs: %u pages: created in %.2f ms, while CPU 1 stood still for %.2f ms; destroyed in %.2f ms\n", pages, created * 1e3, gap * 1e3, (now() - begun) * 1e3);
        close(file);
    }
    kill(child, SIGKILL);
    waitpid(child, 0, 0);
    return wrong;
}

/* Files that threads share, closed and opened meanwhile. */
#define FUZZ_FILES 8
static _Atomic int fuzz_files[FUZZ_FILES];
static double fuzz_end;

static uint64_t odd_number(unsigned *state)
{
    static const uint64_t numbers[] = {0, 1, 2, 3, 4, 7, 8, 16, 255, 256, 257, 1023, 1024, 1025, 4096, 4097, 1ul << 31, ~0u, 1ul << 32, 1ul << 63, ~0ul};
    return numbers[random_below(state, sizeof numbers / sizeof *numbers)];
}

/* Numbers at random, some of them addresses that are right, so that calls go through. */
static void odd_words(unsigned *state, uint64_t *words, uint64_t page)
{
    for (int i = 0; i < 16; i++)
        words[i] = odd_number(state) | (random_below(state, 4) ? 0 : odd_number(state) << 32);
    if (random_below(state, 2)) {
        struct pmpmon_create_args a = {.image = page, .image_bytes = random_below(state, 4097), .text_pages = 1 + random_below(state, 4)};
        a.data_pages = random_below(state, 4), a.shared_pages = 1 + random_below(state, 3), a.entry_offset = 2 * random_below(state, 2049);
        memcpy(words, &a, sizeof a);
    }
}

static void odd_mapping(unsigned *state, int file)
{
    size_t bytes = (1 + random_below(state, 3)) * 4096;
    uint8_t *at = mmap(0, bytes, PROT_READ | PROT_WRITE, MAP_SHARED, file, 4096 * (random_below(state, 8) == 0));
    if (at == MAP_FAILED)
        return;
    for (size_t i = 0; i < bytes; i += 512)
        at[i] = (uint8_t)i;
    munmap(at, bytes);
}

static void *fuzz_thread(void *given)
{
    unsigned state = (unsigned)(uintptr_t)given;
    uint64_t words[16], calls = 0;
    static uint8_t page[8192];
    static const unsigned all[] = {PMPMON_CREATE_ENCLAVE, PMPMON_RUN_ENCLAVE, PMPMON_MEASURE_ENCLAVE, PMPMON_DESTROY_ENCLAVE, PMPMON_PEEK};
    for (size_t i = 0; i < sizeof page; i += 2)
        page[i] = (uint8_t)(i & 2 ? 0xa0 : 0x01); /* c.nop and others: it faults soon */
    for (; now() < fuzz_end; calls++) {
        unsigned at = random_below(&state, FUZZ_FILES), what = all[random_below(&state, 5)];
        if (random_below(&state, 8) == 0) {
            int old = atomic_exchange(&fuzz_files[at], open("/dev/pmpmon", O_RDWR));
            close(old);
            continue;
        }
        odd_words(&state, words, (uintptr_t)page);
        if (what == PMPMON_RUN_ENCLAVE)
            words[0] = 1000000 + random_below(&state, 3000000);
        if (random_below(&state, 16) == 0)
            what ^= 1u << random_below(&state, 32);
        ioctl(fuzz_files[at], what, random_below(&state, 16) ? (uint64_t)(uintptr_t)words : odd_number(&state));
        if (random_below(&state, 4) == 0)
            odd_mapping(&state, fuzz_files[at]);
    }
    return (void *)(uintptr_t)calls;
}

static void report_fault(int number, siginfo_t *info, void *context)
{
    unsigned long pc = (unsigned long)((ucontext_t *)context)->uc_mcontext.__gregs[0];
    printf("WRONG: signal %d, code %d, at %p, pc %lx\n", number, info->si_code, info->si_addr, pc);
    _exit(1);
}

static int fuzz(unsigned seconds)
{
    struct sigaction act = {.sa_sigaction = report_fault, .sa_flags = SA_SIGINFO};
    sigaction(SIGSEGV, &act, 0);
    pthread_t threads[4];
    uint64_t calls = 0;
    int files[MOST_LIVE];
    fuzz_end = now() + seconds;
    for (unsigned i = 0; i < FUZZ_FILES; i++)
        fuzz_files[i] = open("/dev/pmpmon", O_RDWR);
    for (unsigned i = 0; i < 4; i++)
        pthread_create(&threads[i], 0, fuzz_thread, (void *)(uintptr_t)(i + 1));
    for (unsigned i = 0; i < 4; i++) {
        void *some;
        pthread_join(threads[i], &some);
        calls += (uintptr_t)some;
    }
    for (unsigned i = 0; i < FUZZ_FILES; i++)
        close(fuzz_files[i]);
    want(fill(files, 4) == MOST_LIVE, "64 enclaves fit afterwards");
    close_all(files, MOST_LIVE, 1);
    printf("fuzz: %lu calls in %u s\n", calls, seconds);
    return wrong;
}

int main(int count, char **words)
{
    const char *what = count > 1 ? words[1] : "";
    unsigned first = count > 2 ? (unsigned)atoi(words[2]) : 1, second = count > 3 ? (unsigned)atoi(words[3]) : 1, third = count > 4 ? (unsigned)atoi(words[4]) : 900;
    unsigned fourth = count > 5 ? (unsigned)atoi(words[5]) % (LOADS + 1) : LOADS;
    program_name = "enclaves";
    setvbuf(stdout, 0, _IOLBF, 0);
    if (!strcmp(what, "faults"))
        return faults();
    if (!strcmp(what, "wrong"))
        return wrong_words();
    if (!strcmp(what, "user"))
        return user();
    if (!strcmp(what, "times"))
        return times();
    if (!strcmp(what, "killed"))
        return killed();
    if (!strcmp(what, "fit"))
        return fit(first, second);
    if (!strcmp(what, "stuck"))
        return stuck(first);
    if (!strcmp(what, "limit"))
        return limit(first);
    if (!strcmp(what, "lives"))
        return lives(first, second, third, fourth);
    if (!strcmp(what, "parallel"))
        return parallel(first);
    if (!strcmp(what, "costs"))
        return costs(first);
    if (!strcmp(what, "fuzz"))
        return fuzz(first);
    return complain("no test %s", what), 2;
}
