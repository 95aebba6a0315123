/*
 * The first process of examples/linux: it mounts what is needed, loads the driver, and is a small shell on the serial port.
 *
 * A line is a program of /bin with its words, apart by blanks. `status` prints how the last one ended, `help` what there is, and
 * `poweroff` ends it all. Debian has no shell for riscv64 among its cross packages: whoever has one puts it into out/root/bin.
 */
#define _GNU_SOURCE
#include <dirent.h>
#include <errno.h>
#include <fcntl.h>
#include <signal.h>
#include <stdio.h>
#include <stdlib.h>
#include <string.h>
#include <sys/mount.h>
#include <sys/reboot.h>
#include <sys/stat.h>
#include <sys/syscall.h>
#include <sys/wait.h>
#include <unistd.h>

#define MOST_WORDS 32

static int last_status;

static void mount_all(void)
{
    static const char *const kinds[][2] = {{"proc", "/proc"}, {"sysfs", "/sys"}, {"devtmpfs", "/dev"}, {"tmpfs", "/tmp"}};
    for (unsigned i = 0; i < sizeof kinds / sizeof *kinds; i++) {
        mkdir(kinds[i][1], 0755);
        mount(kinds[i][0], kinds[i][1], kinds[i][0], 0, 0);
    }
    int file = open("/dev/console", O_RDWR);
    for (int i = 0; i < 3 && file >= 0; i++)
        dup2(file, i);
    if (file > 2)
        close(file);
}

static void load_driver(void)
{
    int file = open("/pmpmon.ko", O_RDONLY | O_CLOEXEC);
    if (file < 0 || syscall(SYS_finit_module, file, "", 0))
        printf("init: no driver: /pmpmon.ko: %s\n", strerror(errno));
    if (file >= 0)
        close(file);
}

static void list_folder(const char *path)
{
    struct dirent **names;
    int count = scandir(path, &names, 0, alphasort);
    printf("%s:", path);
    for (int i = 0; i < count; i++)
        if (names[i]->d_name[0] != '.')
            printf(" %s", names[i]->d_name);
    printf("\n");
}

static void help(void)
{
    list_folder("/bin");
    list_folder("/enclaves");
    printf("here: help status poweroff\n");
}

static void run(char **words)
{
    int status = 0;
    pid_t child = fork();
    if (child == 0) {
        signal(SIGINT, SIG_DFL);
        execvp(words[0], words);
        fprintf(stderr, "%s: %s\n", words[0], strerror(errno));
        _exit(127);
    }
    if (child < 0 || waitpid(child, &status, 0) < 0)
        perror("init");
    last_status = WIFSIGNALED(status) ? 128 + WTERMSIG(status) : WEXITSTATUS(status);
}

static void obey(char *line)
{
    char *words[MOST_WORDS + 1] = {0};
    int count = 0;
    for (char *word = strtok(line, " \t\r\n"); word && count < MOST_WORDS; word = strtok(0, " \t\r\n"))
        words[count++] = word;
    if (!count)
        return;
    if (!strcmp(words[0], "help"))
        help();
    else if (!strcmp(words[0], "status"))
        printf("%d\n", last_status);
    else if (!strcmp(words[0], "poweroff"))
        reboot(RB_POWER_OFF);
    else
        run(words);
}

int main(void)
{
    char line[4096];
    mount_all();
    signal(SIGINT, SIG_IGN);
    setenv("PATH", "/bin", 1);
    load_driver();
    if (chdir("/enclaves"))
        perror("init: /enclaves");
    for (;;) {
        printf("# ");
        fflush(stdout);
        if (!fgets(line, sizeof line, stdin))
            reboot(RB_POWER_OFF);
        obey(line);
    }
}
