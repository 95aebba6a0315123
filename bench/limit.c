/*
 * Reads files once, in pieces of 128 KiB, and looks for the end of each line: what a program that does anything with its input
 * takes at the least. It prints how many lines there are.
 *
 *   limit FILE..
 */
#include <fcntl.h>
#include <stdio.h>
#include <string.h>
#include <unistd.h>

static char piece[128 << 10];

int main(int count, char **words)
{
    long lines = 0;
    for (int i = 1; i < count; i++) {
        int file = open(words[i], O_RDONLY);
        ssize_t come;
        if (file < 0) {
            perror(words[i]);
            return 1;
        }
        while ((come = read(file, piece, sizeof piece)) > 0)
            for (char *at = piece; (at = memchr(at, '\n', piece + come - at)); at++)
                lines++;
        close(file);
    }
    printf("%ld\n", lines);
    return 0;
}
