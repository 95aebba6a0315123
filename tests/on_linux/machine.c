/*
 * The first process of a test's initramfs: it makes the tests that the kernel's command line names (tests=a,b,c), reports each,
 * counts what the kernel's log complains of, and powers off.
 *
 *   basic            the machine below the kernel: processes, clocks, floating point, signals, fences, memory
 *   hotplug          CPUs stop and start
 *   load[:WORDS]     the driver is loaded, with parameters apart by `;`; `unload` unloads it
 *   sbi              what SBI's calls take (sbi_bench.c)
 *   both:N           N lives of enclaves by each of four workers, or fewer in 15 seconds, while CPUs stop and start
 *   PROGRAM:WORD...  a program of /bin with its words, which has to end with 0
 */
#define _GNU_SOURCE
#include <errno.h>
#include <fcntl.h>
#include <linux/membarrier.h>
#include <pthread.h>
#include <sched.h>
#include <setjmp.h>
#include <signal.h>
#include <stdatomic.h>
#include <stdarg.h>
#include <stdint.h>
#include <stdio.h>
#include <stdlib.h>
#include <string.h>
#include <sys/klog.h>
#include <sys/mman.h>
#include <sys/mount.h>
#include <sys/reboot.h>
#include <sys/stat.h>
#include <sys/syscall.h>
#include <sys/time.h>
#include <sys/timerfd.h>
#include <sys/wait.h>
#include <time.h>
#include <unistd.h>

static int passed, failed;
static unsigned cpus;
static char line[2048];

static double now(void)
{
    struct timespec t;
    /* By the system call: the counter may be closed to a program. */
    syscall(SYS_clock_gettime, CLOCK_MONOTONIC, &t);
    return (double)t.tv_sec + 1e-9 * (double)t.tv_nsec;
}

static void report(const char *what, int right, const char *format, ...)
{
    char how[256];
    va_list list;
    va_start(list, format);
    vsnprintf(how, sizeof how, format, list);
    va_end(list);
    passed += !!right, failed += !right;
    printf("%s: %s: %s\n", right ? "ok" : "FAILED", what, how);
    fflush(stdout);
}

static const char *ended(int status)
{
    static char how[64];
    if (WIFSIGNALED(status))
        snprintf(how, sizeof how, "signal %d, %s", WTERMSIG(status), strsignal(WTERMSIG(status)));
    else
        snprintf(how, sizeof how, "status %d", WEXITSTATUS(status));
    return how;
}

/* A child does it, so that what kills it is seen; it may take so many seconds. */
static int in_child(int (*what)(void), unsigned seconds)
{
    int status = -1;
    fflush(stdout);
    pid_t child = fork();
    if (child == 0) {
        alarm(seconds);
        _exit(what());
    }
    waitpid(child, &status, 0);
    return status;
}

static void pin(unsigned cpu)
{
    cpu_set_t set;
    CPU_ZERO(&set);
    CPU_SET(cpu, &set);
    sched_setaffinity(0, sizeof set, &set);
}

static void show_file(const char *path, int lines)
{
    FILE *file = fopen(path, "r");
    while (file && lines-- && fgets(line, sizeof line, file))
        printf("    %s", line);
    if (file)
        fclose(file);
}

/* Counters in user mode: the time, and none that would tell what an enclave does. */
static int by_vdso(void) { struct timespec t; return clock_gettime(CLOCK_MONOTONIC, &t); }
static int by_call(void) { struct timespec t; return (int)syscall(SYS_clock_gettime, CLOCK_MONOTONIC, &t); }
static int by_rdtime(void) { uint64_t t; __asm__ volatile("rdtime %0" : "=r"(t)); return t == 0; }
static int by_rdcycle(void) { uint64_t t; __asm__ volatile("rdcycle %0" : "=r"(t)); return t == 0; }
static int by_rdinstret(void) { uint64_t t; __asm__ volatile("rdinstret %0" : "=r"(t)); return t == 0; }
/* Time is there for all; the firmware closes the other two, which are illegal instructions then. */
static void counters(void)
{
    static const struct { const char *name; int (*what)(void), signal; } all[] = {
        {"clock_gettime by system call", by_call, 0}, {"clock_gettime by the vDSO", by_vdso, 0}, {"rdtime", by_rdtime, 0},
        {"rdcycle is closed", by_rdcycle, SIGILL}, {"rdinstret is closed", by_rdinstret, SIGILL}};
    for (unsigned i = 0; i < sizeof all / sizeof *all; i++) {
        int status = in_child(all[i].what, 5);
        int right = all[i].signal ? WIFSIGNALED(status) && WTERMSIG(status) == all[i].signal : status == 0;
        report(all[i].name, right, "%s", ended(status));
    }
}

static void forks(void)
{
    double begun = now();
    int wrong = 0, n = 100;
    for (int i = 0; i < n; i++) {
        int status = -1;
        pid_t child = vfork();
        if (child == 0) {
            execl("/machine", "machine", "child", (char *)0);
            _exit(1);
        }
        waitpid(child, &status, 0);
        wrong += !WIFEXITED(status) || WEXITSTATUS(status) != 7;
    }
    report("fork and exec", !wrong, "%d, %d wrong, %.2f s", n, wrong, now() - begun);
}

static atomic_ulong sum;
static void *one_cpu(void *at)
{
    unsigned cpu = (unsigned)(uintptr_t)at;
    uint64_t x = cpu + 1, wrong = 0;
    pin(cpu);
    for (int i = 0; i < 2000000; i++) {
        x = x * 6364136223846793005ul + 1;
        if (i % 65536 == 0)
            wrong += (unsigned)sched_getcpu() != cpu;
    }
    uint64_t again = cpu + 1;
    for (int i = 0; i < 2000000; i++)
        again = again * 6364136223846793005ul + 1;
    atomic_fetch_add(&sum, wrong + (x != again));
    return 0;
}
static int threads_(void)
{
    pthread_t t[64];
    for (unsigned i = 0; i < cpus; i++)
        if (pthread_create(&t[i], 0, one_cpu, (void *)(uintptr_t)i))
            return 100;
    for (unsigned i = 0; i < cpus; i++)
        pthread_join(t[i], 0);
    return sum != 0;
}
static void threads(void)
{
    int status = in_child(threads_, 60);
    report("a thread on each CPU", status == 0, "%u CPUs, %s", cpus, ended(status));
}

static pthread_mutex_t mutex = PTHREAD_MUTEX_INITIALIZER;
static uint64_t counted;
static void *counts(void *at)
{
    (void)at;
    for (int i = 0; i < 50000; i++) {
        pthread_mutex_lock(&mutex);
        counted++;
        pthread_mutex_unlock(&mutex);
    }
    return 0;
}
static int futex_(void)
{
    pthread_t t[8];
    for (int i = 0; i < 8; i++)
        pthread_create(&t[i], 0, counts, 0);
    for (int i = 0; i < 8; i++)
        pthread_join(t[i], 0);
    for (int i = 0; i < 200; i++)
        if (syscall(SYS_membarrier, MEMBARRIER_CMD_GLOBAL, 0, 0))
            return 2;
    return counted != 8 * 50000;
}

static sigjmp_buf back;
static volatile sig_atomic_t caught_code;
static void caught(int number, siginfo_t *info, void *context)
{
    (void)context;
    caught_code = info->si_code;
    siglongjmp(back, number);
}
static void catch(void)
{
    struct sigaction act = {.sa_sigaction = caught, .sa_flags = SA_SIGINFO | SA_NODEFER};
    sigaction(SIGSEGV, &act, 0);
    sigaction(SIGBUS, &act, 0);
    sigaction(SIGILL, &act, 0);
    sigaction(SIGTRAP, &act, 0);
}

static int mmap_(void)
{
    size_t n = 24ul << 20;
    catch();
    uint64_t *at = mmap(0, n, PROT_READ | PROT_WRITE, MAP_PRIVATE | MAP_ANONYMOUS, -1, 0);
    if (at == MAP_FAILED)
        return 1;
    for (size_t i = 0; i < n / 8; i++)
        if (at[i])
            return 2;
    for (size_t i = 0; i < n / 8; i++)
        at[i] = i * 0x9e3779b97f4a7c15ul;
    pid_t child = fork();
    if (!child) {
        for (size_t i = 0; i < n / 8; i += 512)
            at[i] = 0;
        _exit(0);
    }
    waitpid(child, 0, 0);
    for (size_t i = 0; i < n / 8; i++)
        if (at[i] != i * 0x9e3779b97f4a7c15ul)
            return 3;
    mprotect(at, 4096, PROT_READ);
    if (sigsetjmp(back, 1) == 0) {
        *(volatile uint64_t *)at = 1;
        return 4;
    }
    if (caught_code != SEGV_ACCERR)
        return 5;
    munmap(at, n);
    if (sigsetjmp(back, 1) == 0) {
        (void)*(volatile uint64_t *)at;
        return 6;
    }
    if (caught_code != SEGV_MAPERR)
        return 7;
    int file = open("/tmp/file", O_RDWR | O_CREAT, 0600);
    if (ftruncate(file, 1 << 20))
        return 8;
    char *a = mmap(0, 1 << 20, PROT_READ | PROT_WRITE, MAP_SHARED, file, 0), *b = mmap(0, 1 << 20, PROT_READ, MAP_SHARED, file, 0);
    for (int i = 0; i < 1 << 20; i += 4096)
        a[i] = (char)(i >> 12);
    for (int i = 0; i < 1 << 20; i += 4096)
        if (b[i] != (char)(i >> 12))
            return 9;
    return 0;
}

/* Code that is written anew, and run on each CPU. */
static int code_(void)
{
    uint32_t *code = mmap(0, 4096, PROT_READ | PROT_WRITE | PROT_EXEC, MAP_PRIVATE | MAP_ANONYMOUS, -1, 0);
    for (int i = 0; i < 100; i++) {
        code[0] = 0x00000513u | (uint32_t)(i & 0x7ff) << 20; /* li a0, i */
        code[1] = 0x00008067u;                               /* ret */
        __builtin___clear_cache((char *)code, (char *)(code + 2));
        pin((unsigned)i % cpus);
        if (((int (*)(void))code)() != i)
            return 1;
    }
    return 0;
}

static int traps_(void)
{
    catch();
    int n = sigsetjmp(back, 1);
    if (!n) {
        __asm__ volatile(".word 0xffffffff");
        return 1;
    }
    if (n != SIGILL)
        return 2;
    n = sigsetjmp(back, 1);
    if (!n) {
        __asm__ volatile("ebreak");
        return 3;
    }
    if (n != SIGTRAP)
        return 4;
    n = sigsetjmp(back, 1);
    if (!n) {
        __asm__ volatile("csrr t0, sstatus" ::: "t0");
        return 5;
    }
    if (n != SIGILL)
        return 6;
    n = sigsetjmp(back, 1);
    if (!n) {
        uint64_t words[2] = {0, 0};
        __asm__ volatile("lr.d t0, (%0)" ::"r"((char *)words + 1) : "t0", "memory");
        return 7;
    }
    return n == SIGBUS || n == SIGSEGV ? 0 : 8;
}
static int misaligned_(void)
{
    uint8_t bytes[32];
    for (int i = 0; i < 32; i++)
        bytes[i] = (uint8_t)i;
    for (int i = 0; i < 16; i++) {
        uint64_t word;
        __asm__ volatile("ld %0, (%1)\n sd %0, (%1)" : "=&r"(word) : "r"(bytes + i) : "memory");
        for (int k = 0; k < 8; k++)
            if ((uint8_t)(word >> 8 * k) != i + k)
                return 1;
    }
    return 0;
}

/* Floating point in several processes at once: each has its own numbers, and is preempted. */
static double floats_of(unsigned seed, int rounds)
{
    double a = seed + 0.5, b = 1.0 / (seed + 3), c = 0, d = seed * 0.125, e = 1, f = 2, g = 3, h = 4;
    for (int i = 1; i < rounds; i++) {
        a = a * 0.999 + b, b = b * 1.0001 + 1.0 / i, c += a / (b + 1), d = d * 0.5 + c, e += d * 1e-6, f = f * 0.99 + e, g += f * 1e-3, h = h * 0.9 + g;
        if (i % 20000 == 0)
            sched_yield();
    }
    return a + b + c + d + e + f + g + h;
}
static void floats(void)
{
    enum { PROCESSES = 12 };
    double want[PROCESSES];
    int wrong = 0;
    pid_t child[PROCESSES];
    for (unsigned i = 0; i < PROCESSES; i++)
        want[i] = floats_of(i, 400000);
    fflush(stdout);
    for (unsigned i = 0; i < PROCESSES; i++) {
        child[i] = fork();
        if (child[i] == 0) {
            double before, after;
            __asm__ volatile("fmv.d.x fs11, %0" ::"r"(0x4000000000000000ul + i) : "fs11");
            int bad = 0;
            for (int k = 0; k < 5; k++)
                bad |= floats_of(i, 400000) != want[i];
            before = floats_of(i, 1000);
            usleep(1000 * (i + 1));
            after = floats_of(i, 1000);
            _exit(bad || before != after);
        }
    }
    for (unsigned i = 0; i < PROCESSES; i++) {
        int status;
        waitpid(child[i], &status, 0);
        wrong += status != 0;
    }
    report("floating point in several processes", !wrong, "%d processes, %d wrong", PROCESSES, wrong);
}

static volatile int ticks;
static void tick(int n) { (void)n; ticks++; }
static int timers_(void)
{
    struct itimerval every = {{0, 1000}, {0, 1000}}, off = {{0, 0}, {0, 0}};
    signal(SIGALRM, tick);
    double begun = now();
    setitimer(ITIMER_REAL, &every, 0);
    while (now() - begun < 1)
        ;
    setitimer(ITIMER_REAL, &off, 0);
    int file = timerfd_create(CLOCK_MONOTONIC, 0);
    struct itimerspec fast = {{0, 500000}, {0, 500000}};
    uint64_t n = 0, all = 0;
    timerfd_settime(file, 0, &fast, 0);
    begun = now();
    while (all < 1000 && read(file, &n, 8) == 8)
        all += n;
    double took = now() - begun;
    begun = now();
    for (int i = 0; i < 100; i++)
        usleep(1000);
    double slept = now() - begun;
    printf("    1 kHz signals in a second: %d; 1000 periods of 0.5 ms took %.3f s; 100 sleeps of 1 ms took %.3f s\n", ticks, took, slept);
    return !(ticks > 50 && took > 0.49 && took < 5 && slept >= 0.1 && slept < 5);
}

static int signals_(void)
{
    sigset_t set;
    sigemptyset(&set);
    sigaddset(&set, SIGUSR1);
    sigprocmask(SIG_BLOCK, &set, 0);
    pid_t parent = getpid(), child = fork();
    int got;
    if (!child) {
        pin(cpus - 1);
        for (int i = 0; i < 1000; i++) {
            sigwait(&set, &got);
            kill(parent, SIGUSR1);
        }
        _exit(0);
    }
    pin(0);
    double begun = now();
    for (int i = 0; i < 1000; i++) {
        kill(child, SIGUSR1);
        sigwait(&set, &got);
    }
    printf("    a signal there and back on two CPUs: %.1f us\n", (now() - begun) / 1000 * 1e6);
    return 0;
}

static int pipes_(void)
{
    int a[2], b[2], n = 1000;
    char c = 0;
    if (pipe(a) || pipe(b))
        return 1;
    if (!fork()) {
        pin(cpus - 1);
        for (int i = 0; i < n; i++)
            if (read(a[0], &c, 1) != 1 || write(b[1], &c, 1) != 1)
                _exit(1);
        _exit(0);
    }
    pin(0);
    double begun = now();
    for (int i = 0; i < n; i++)
        if (write(a[1], &c, 1) != 1 || read(b[0], &c, 1) != 1)
            return 1;
    printf("    a byte there and back on two CPUs: %.1f us\n", (now() - begun) / n * 1e6);
    return 0;
}

/* A page is taken away and comes again with another content, while threads on all CPUs read it. */
static uint64_t *volatile watched;
static atomic_ulong generation, seen_wrong, reads_;
static atomic_int over;
static void *watches(void *at)
{
    pin((unsigned)(uintptr_t)at);
    while (!over) {
        uint64_t before = generation, value = *(volatile uint64_t *)watched, after = generation;
        reads_++;
        if (value < before || value > after + 1)
            seen_wrong++;
    }
    return 0;
}
static int shootdown_(void)
{
    pthread_t t[64];
    int file = memfd_create("generations", 0);
    if (ftruncate(file, 4096 * 512l))
        return 1;
    uint64_t *all = mmap(0, 4096 * 512, PROT_READ | PROT_WRITE, MAP_SHARED, file, 0);
    for (uint64_t i = 0; i < 512; i++)
        all[i * 512] = i;
    watched = mmap(0, 4096, PROT_READ, MAP_SHARED, file, 0);
    for (unsigned i = 0; i < cpus; i++)
        pthread_create(&t[i], 0, watches, (void *)(uintptr_t)i);
    double begun = now();
    for (uint64_t i = 1; i < 512; i++) {
        /* A remap over the old page: whoever reads an older one after `generation` is announced has a stale entry. */
        if (mmap((void *)watched, 4096, PROT_READ, MAP_SHARED | MAP_FIXED, file, (off_t)(4096 * i)) == MAP_FAILED)
            return 2;
        generation = i;
    }
    double took = now() - begun;
    over = 1;
    for (unsigned i = 0; i < cpus; i++)
        pthread_join(t[i], 0);
    printf("    511 pages taken away, %lu reads meanwhile, %lu of them stale, %.1f us each\n", reads_, seen_wrong, took / 511 * 1e6);
    return seen_wrong != 0;
}

static long free_kilobytes(void)
{
    long kb = 0;
    FILE *file = fopen("/proc/meminfo", "r");
    while (fgets(line, sizeof line, file))
        if (sscanf(line, "MemAvailable: %ld", &kb) == 1)
            break;
    fclose(file);
    return kb;
}
static int memory_(void)
{
    /* In several processes together five sixths of what is free; twice. */
    for (int round = 0; round < 2; round++) {
        size_t each = (size_t)free_kilobytes() * 1024 / 6 * 5 / 6 / 4096 * 4096;
        pid_t child[6];
        for (int i = 0; i < 6; i++) {
            child[i] = fork();
            if (child[i] == 0) {
                uint64_t *at = mmap(0, each, PROT_READ | PROT_WRITE, MAP_PRIVATE | MAP_ANONYMOUS, -1, 0), wrong = 0;
                for (size_t k = 0; k < each / 8; k++)
                    at[k] = k ^ (uint64_t)i << 56;
                for (size_t k = 0; k < each / 8; k++)
                    wrong += at[k] != (k ^ (uint64_t)i << 56);
                _exit(wrong != 0);
            }
        }
        for (int i = 0; i < 6; i++) {
            int status;
            waitpid(child[i], &status, 0);
            if (status)
                return WIFSIGNALED(status) ? 50 + WTERMSIG(status) : 1;
        }
    }
    return 0;
}
static int greedy_(void)
{
    int file = open("/proc/self/oom_score_adj", O_WRONLY);
    if (write(file, "1000", 4) != 4)
        return 1;
    for (;;) {
        char *at = mmap(0, 1 << 22, PROT_READ | PROT_WRITE, MAP_PRIVATE | MAP_ANONYMOUS, -1, 0);
        if (at == MAP_FAILED)
            return 2;
        memset(at, 1, 1 << 22);
    }
}

/* The monitor's own memory, through the kernel. */
static int monitors_(void)
{
    catch();
    int file = open("/dev/mem", O_RDONLY), n;
    uint64_t word = 0;
    if (file < 0)
        return 2;
    long got = pread(file, &word, 8, 0x80000000);
    printf("    read of /dev/mem at the monitor: %s\n", got == 8 ? "a word" : strerror(errno));
    volatile uint64_t *at = mmap(0, 4096, PROT_READ, MAP_SHARED, file, 0x80000000);
    if (at == MAP_FAILED) {
        printf("    mmap of /dev/mem at the monitor: %s\n", strerror(errno));
        return 3;
    }
    n = sigsetjmp(back, 1);
    if (!n) {
        word = *at;
        printf("    mmap of /dev/mem at the monitor: the word %lx\n", word);
        return 1;
    }
    printf("    mmap of /dev/mem at the monitor: %s, code %d\n", strsignal(n), caught_code);
    return got == 8;
}

static int write_text(const char *path, const char *text)
{
    int file = open(path, O_WRONLY);
    long n = file < 0 ? -1 : write(file, text, strlen(text));
    int why = errno;
    if (file >= 0)
        close(file);
    return n < 0 ? why : 0;
}

/* CPUs go and come while threads run. */
static void hotplug(void)
{
    int wrong = 0, again = 0, rounds = 5;
    double begun = now();
    for (int round = 0; round < rounds; round++)
        for (unsigned cpu = 1; cpu < cpus; cpu++) {
            char path[80];
            snprintf(path, sizeof path, "/sys/devices/system/cpu/cpu%u/online", cpu);
            int off = write_text(path, "0"), on = write_text(path, "1");
            /* Linux asks for a hart to start that has not quite stopped yet: ALREADY_AVAILABLE, above OpenSBI too. */
            for (int i = 0; i < 20 && on; i++, again++) {
                usleep(20000);
                on = write_text(path, "1");
            }
            if (off || on) {
                wrong++;
                if (wrong == 1)
                    printf("    %s: off %s, on %s\n", path, strerror(off), strerror(on));
            }
        }
    unsigned online = (unsigned)sysconf(_SC_NPROCESSORS_ONLN);
    report("CPUs stop and start", !wrong && online == cpus, "%d rounds, %d wrong, %d starts tried again, %u of %u online, %.2f s", rounds, wrong, again, online, cpus, now() - begun);
}

static void reported(const char *name, int (*what)(void), unsigned seconds)
{
    double begun = now();
    int status = in_child(what, seconds);
    report(name, status == 0, "%s, %.2f s", ended(status), now() - begun);
}

static void basic(void)
{
    show_file("/proc/version", 1);
    show_file("/proc/cpuinfo", 6);
    show_file("/proc/meminfo", 3);
    show_file("/proc/iomem", 40);
    counters();
    forks();
    threads();
    reported("threads with one lock, and membarrier", futex_, 60);
    reported("mmap, copy on write, mprotect, files", mmap_, 60);
    reported("code written anew on each CPU", code_, 60);
    reported("traps become signals", traps_, 10);
    reported("misaligned loads and stores", misaligned_, 10);
    floats();
    reported("timers", timers_, 30);
    reported("signals", signals_, 60);
    reported("pipes", pipes_, 60);
    reported("pages taken away (remote fences)", shootdown_, 60);
    reported("memory pressure", memory_, 600);
    int status = in_child(greedy_, 120);
    report("more memory than there is", WIFSIGNALED(status) && WTERMSIG(status) == SIGKILL, "%s", ended(status));
    reported("the monitor's memory", monitors_, 10);
    show_file("/proc/interrupts", 40);
}

/* A program of /bin and its words, apart by colons; it may take so many seconds. */
static pid_t start(char *words, unsigned seconds)
{
    char *all[8] = {0}, path[64];
    for (int i = 0; i < 7 && words; i++)
        all[i] = strsep(&words, ":");
    snprintf(path, sizeof path, "/bin/%s", all[0]);
    fflush(stdout);
    pid_t child = fork();
    if (child)
        return child;
    alarm(seconds);
    execv(path, all);
    _exit(127);
}

static void program(const char *words)
{
    int status = -1;
    double begun = now();
    char *copy = strdup(words);
    waitpid(start(copy, 7200), &status, 0);
    report(words, status == 0, "%s, %.2f s", ended(status), now() - begun);
    free(copy);
}

/* Lives of enclaves while CPUs go and come. */
static void both(const char *lives)
{
    int status = -1;
    char words[64];
    snprintf(words, sizeof words, "enclaves:lives:4:%s:15", lives);
    pid_t child = start(words, 900);
    do {
        hotplug();
    } while (waitpid(child, &status, WNOHANG) == 0);
    report("enclaves while CPUs stop and start", status == 0, "%s", ended(status));
}

static int load(const char *path, const char *words)
{
    int file = open(path, O_RDONLY | O_CLOEXEC);
    int why = file < 0 || syscall(SYS_finit_module, file, words, 0) ? errno : 0;
    if (file >= 0)
        close(file);
    return why;
}

static void load_driver(const char *words)
{
    char parameters[64];
    snprintf(parameters, sizeof parameters, "%s", words);
    for (char *at = parameters; *at; at++)
        *at = *at == ';' ? ' ' : *at;
    int why = load("/pmpmon.ko", parameters);
    report("the driver", !why, "%s", why ? strerror(why) : "loaded");
}

static void unload_driver(void)
{
    long wrong = syscall(SYS_delete_module, "pmpmon", 0);
    report("the driver goes", !wrong, "%s", wrong ? strerror(errno) : "unloaded");
}

/* It writes to the kernel's log, and does not stay. */
static void sbi(void)
{
    int why = load("/sbi_bench.ko", "");
    report("SBI's calls", why == EAGAIN, "%s", strerror(why));
}

/* A line of the kernel's log that complains. What the test of more memory than there is brings is none: it wants the killer to come. */
static int is_complaint(const char *text)
{
    static const char *const wrong[] = {"WARNING", "BUG", "Oops", "stall", "lockup", "blocked for more", "Call Trace", "scheduling while", "Bad page", "nable to handle"};
    static int is_of_killer;
    if (strstr(text, "invoked oom-killer"))
        is_of_killer = 1;
    if (strstr(text, "Call Trace") && is_of_killer) {
        is_of_killer = 0;
        return 0;
    }
    for (unsigned i = 0; i < sizeof wrong / sizeof *wrong; i++)
        if (strstr(text, wrong[i]))
            return 1;
    return 0;
}

static void complaints(void)
{
    static char log[1 << 18];
    int n = klogctl(3, log, sizeof log - 1), found = 0;
    log[n > 0 ? n : 0] = 0;
    for (char *rest = log, *text; (text = strsep(&rest, "\n")) != 0;)
        if (is_complaint(text) && ++found <= 20)
            printf("    log: %s\n", text);
    report("complaints of the kernel", n > 0 && !found, "%d", found);
}

static void one_test(const char *name)
{
    if (!strcmp(name, "basic"))
        basic();
    else if (!strcmp(name, "hotplug"))
        hotplug();
    else if (!strcmp(name, "sbi"))
        sbi();
    else if (!strncmp(name, "both:", 5))
        both(name + 5);
    else if (!strncmp(name, "load", 4))
        load_driver(name[4] ? name + 5 : "");
    else if (!strcmp(name, "unload"))
        unload_driver();
    else
        program(name);
}

static void mount_all(void)
{
    static const char *const kinds[][2] = {{"proc", "/proc"}, {"sysfs", "/sys"}, {"devtmpfs", "/dev"}, {"tmpfs", "/tmp"}};
    for (unsigned i = 0; i < sizeof kinds / sizeof *kinds; i++) {
        mkdir(kinds[i][1], 0755);
        mount(kinds[i][0], kinds[i][1], kinds[i][0], 0, 0);
    }
    int file = open("/dev/console", O_RDWR);
    for (int i = 0; i < 3 && file >= 0; i++)
        dup2(file, i);
}

int main(int argc, char **argv)
{
    static char command[2048];
    if (argc > 1 && !strcmp(argv[1], "child"))
        return 7;
    mount_all();
    setvbuf(stdout, 0, _IOLBF, 0);
    cpus = (unsigned)sysconf(_SC_NPROCESSORS_ONLN);
    int file = open("/proc/cmdline", O_RDONLY);
    if (read(file, command, sizeof command - 1) < 0)
        command[0] = 0;
    close(file);
    printf("machine: %u CPUs, %ld MB free, %.3f s since the boot\n", cpus, free_kilobytes() / 1024, now());
    char *tests = strstr(command, "tests=");
    tests = tests ? strtok(tests + 6, " \n") : "";
    for (char *rest = tests, *name; (name = strsep(&rest, ",")) != 0;)
        if (name[0])
            one_test(name);
    complaints();
    printf("machine: %d passed, %d failed, %.3f s since the boot\n", passed, failed, now());
    sync();
    reboot(RB_POWER_OFF);
    for (;;)
        pause();
}
