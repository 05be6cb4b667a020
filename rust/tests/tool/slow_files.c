/*
 * Loaded before the C library: makes a file system without nameless files (NO_NAMELESS is set), and
 * one whose renaming takes a while (SLOW_RENAME milliseconds), so that tests can hit the moments
 * between.
 */
#define _GNU_SOURCE
#include <dlfcn.h>
#include <errno.h>
#include <fcntl.h>
#include <stdarg.h>
#include <stdio.h>
#include <stdlib.h>
#include <time.h>

int open64(const char *path, int flags, ...)
{
    static int (*real)(const char *, int, ...);
    va_list rest;
    va_start(rest, flags);
    int mode = va_arg(rest, int);
    va_end(rest);
    if ((flags & O_TMPFILE) == O_TMPFILE && getenv("NO_NAMELESS")) {
        errno = EOPNOTSUPP;
        return -1;
    }
    if (!real)
        *(void **)&real = dlsym(RTLD_NEXT, "open64");
    return real(path, flags, mode);
}

int rename(const char *from, const char *to)
{
    static int (*real)(const char *, const char *);
    const char *wait = getenv("SLOW_RENAME");
    if (wait) {
        long milliseconds = atol(wait);
        struct timespec left = {milliseconds / 1000, milliseconds % 1000 * 1000000};
        while (nanosleep(&left, &left) != 0 && errno == EINTR) {
        }
    }
    if (!real)
        *(void **)&real = dlsym(RTLD_NEXT, "rename");
    return real(from, to);
}
