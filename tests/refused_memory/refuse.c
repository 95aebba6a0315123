/*
 * A library to be preloaded (LD_PRELOAD) that makes one call of the C library fail, so that a
 * test can show what a program does then. The environment says which:
 *
 *   REFUSE=memory   a call of malloc, calloc, realloc, aligned_alloc or posix_memalign
 *   REFUSE=read     a read of a descriptor fails (EIO)
 *   REFUSE=write    a write of a descriptor fails (EIO)
 *   REFUSE=sync     a sync of a file fails (EIO)
 *   REFUSE=move     a rename of a file fails (EIO)
 *   REFUSE=signal   a read or write of a descriptor is interrupted before it begins (EINTR)
 *   REFUSE=short    each write takes one byte
 *   REFUSE_AT=K     the K-th such call, from 1 (not for short)
 *   REFUSE_ON=1     each such call from the K-th on
 *   REFUSE_NOTE=F   the file F is made when a call was refused
 *
 * Nothing of this is part of the program: it is loaded in front of the C library at a test.
 */
#define _GNU_SOURCE
#include <dlfcn.h>
#include <errno.h>
#include <fcntl.h>
#include <stddef.h>
#include <stdlib.h>
#include <string.h>
#include <sys/syscall.h>
#include <sys/types.h>
#include <unistd.h>

extern void *__libc_malloc(size_t);
extern void *__libc_calloc(size_t, size_t);
extern void *__libc_realloc(void *, size_t);
extern void *__libc_memalign(size_t, size_t);

enum kind { NONE, MEMORY, READ, WRITE, SYNC, MOVE, SIGNAL, SHORT };

static enum kind kind = NONE;
static unsigned long at = 0;
static int on = 0;
static const char *note = 0;
static unsigned long calls = 0;

/* Runs before main; what was called until then is not counted. */
__attribute__((constructor)) static void begin(void)
{
    const char *what = getenv("REFUSE");
    const char *which = getenv("REFUSE_AT");
    note = getenv("REFUSE_NOTE");
    on = getenv("REFUSE_ON") != 0;
    at = which ? strtoul(which, 0, 10) : 0;
    if (!what)
        return;
    if (!strcmp(what, "memory"))
        kind = MEMORY;
    else if (!strcmp(what, "read"))
        kind = READ;
    else if (!strcmp(what, "write"))
        kind = WRITE;
    else if (!strcmp(what, "sync"))
        kind = SYNC;
    else if (!strcmp(what, "move"))
        kind = MOVE;
    else if (!strcmp(what, "signal"))
        kind = SIGNAL;
    else if (!strcmp(what, "short"))
        kind = SHORT;
}

static int refused(enum kind call)
{
    if (kind != call)
        return 0;
    calls += 1;
    if (calls != at && !(on && calls > at))
        return 0;
    if (note)
        syscall(SYS_close, (int)syscall(SYS_open, note, O_WRONLY | O_CREAT, 0600));
    return 1;
}

void *malloc(size_t size)
{
    if (refused(MEMORY)) {
        errno = ENOMEM;
        return 0;
    }
    return __libc_malloc(size);
}

void *calloc(size_t count, size_t size)
{
    if (refused(MEMORY)) {
        errno = ENOMEM;
        return 0;
    }
    return __libc_calloc(count, size);
}

void *realloc(void *old, size_t size)
{
    if (refused(MEMORY)) {
        errno = ENOMEM;
        return 0;
    }
    return __libc_realloc(old, size);
}

void *aligned_alloc(size_t align, size_t size)
{
    if (refused(MEMORY)) {
        errno = ENOMEM;
        return 0;
    }
    return __libc_memalign(align, size);
}

int posix_memalign(void **to, size_t align, size_t size)
{
    void *made;
    if (refused(MEMORY))
        return ENOMEM;
    made = __libc_memalign(align, size);
    if (!made)
        return ENOMEM;
    *to = made;
    return 0;
}

ssize_t read(int fd, void *buf, size_t count)
{
    if (refused(READ)) {
        errno = EIO;
        return -1;
    }
    if (refused(SIGNAL)) {
        errno = EINTR;
        return -1;
    }
    return syscall(SYS_read, fd, buf, count);
}

int rename(const char *from, const char *to)
{
    if (refused(MOVE)) {
        errno = EIO;
        return -1;
    }
    return (int)syscall(SYS_renameat2, AT_FDCWD, from, AT_FDCWD, to, 0);
}

int fsync(int fd)
{
    if (refused(SYNC)) {
        errno = EIO;
        return -1;
    }
    return (int)syscall(SYS_fsync, fd);
}

static ssize_t put(int fd, const void *buf, size_t count)
{
    if (refused(WRITE)) {
        errno = EIO;
        return -1;
    }
    if (refused(SIGNAL)) {
        errno = EINTR;
        return -1;
    }
    if (kind == SHORT && count > 1)
        count = 1;
    return syscall(SYS_write, fd, buf, count);
}

ssize_t write(int fd, const void *buf, size_t count)
{
    return put(fd, buf, count);
}

/* The C library's other name of write. */
ssize_t __write(int fd, const void *buf, size_t count)
{
    return put(fd, buf, count);
}
