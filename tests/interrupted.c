/* Loaded before the C library (LD_PRELOAD): a `read` and a `write` that a signal seems to
 * interrupt, as often before each call that moves bytes as INTERRUPTIONS says, and that move at
 * most MOVED bytes at a time, where it is set. Into the file WRITES, where that is set, goes a line
 * for each write to standard output, with how many bytes were handed over. */
#define _GNU_SOURCE
#include <dlfcn.h>
#include <errno.h>
#include <stdio.h>
#include <stdlib.h>
#include <sys/types.h>

static int interrupted(int *left)
{
    const char *most = getenv("INTERRUPTIONS");
    if (*left < 0)
        *left = most ? atoi(most) : 0;
    errno = EINTR;
    return (*left)-- > 0;
}

static size_t moved(size_t length)
{
    const char *most = getenv("MOVED");
    size_t n = most ? (size_t)atol(most) : length;
    return n < length ? n : length;
}

static void noted(int fd, size_t length)
{
    const char *name = getenv("WRITES");
    FILE *file = name && fd == 1 ? fopen(name, "a") : NULL;
    if (!file)
        return;
    fprintf(file, "%zu\n", length);
    fclose(file);
}

ssize_t read(int fd, void *bytes, size_t length)
{
    static int left = -1;
    static ssize_t (*real)(int, void *, size_t);
    if (interrupted(&left))
        return -1;
    if (!real)
        *(void **)&real = dlsym(RTLD_NEXT, "read");
    return real(fd, bytes, moved(length));
}

ssize_t write(int fd, const void *bytes, size_t length)
{
    static int left = -1;
    static ssize_t (*real)(int, const void *, size_t);
    if (fd != 2 && interrupted(&left))
        return -1;
    if (!real)
        *(void **)&real = dlsym(RTLD_NEXT, "write");
    noted(fd, length);
    return real(fd, bytes, moved(length));
}
