/*
 * Runs a command some times, with its standard output in a file, and prints the least wall time in
 * seconds, the most memory that was resident in KiB, and the status of the last run.
 *
 *   measure TIMES OUT COMMAND WORD..
 */
#include <fcntl.h>
#include <stdio.h>
#include <stdlib.h>
#include <sys/resource.h>
#include <sys/wait.h>
#include <time.h>
#include <unistd.h>

static double now(void)
{
    struct timespec t;
    clock_gettime(CLOCK_MONOTONIC, &t);
    return t.tv_sec + t.tv_nsec / 1e9;
}

int main(int count, char **words)
{
    double least = 1e9;
    long peak = 0;
    int status = 0;
    if (count < 4) {
        fputs("measure TIMES OUT COMMAND WORD..\n", stderr);
        return 2;
    }
    for (int i = 0; i < atoi(words[1]); i++) {
        struct rusage used;
        double begun = now(), took;
        pid_t child = fork();
        if (child == 0) {
            int out = open(words[2], O_WRONLY | O_CREAT | O_TRUNC, 0600), none = open("/dev/null", O_WRONLY);
            dup2(out, 1);
            dup2(none, 2);
            execv(words[3], words + 3);
            _exit(127);
        }
        if (child < 0 || wait4(child, &status, 0, &used) != child) {
            perror("measure");
            return 1;
        }
        took = now() - begun;
        if (took < least)
            least = took;
        if (used.ru_maxrss > peak)
            peak = used.ru_maxrss;
    }
    printf("%.6f %ld %d\n", least, peak, WIFEXITED(status) ? WEXITSTATUS(status) : 128 + WTERMSIG(status));
    return 0;
}
