/* examples/inventory.c with its calls of the system under watch, for tests/inventory/run: with CUT=k in the environment the program ends before the
   k-th call, as in a power cut, with FAIL=k the k-th call fails, and with CUT_LOG=FILE the names of the calls are written there. */
#define _POSIX_C_SOURCE 200809L
#include <errno.h>
#include <fcntl.h>
#include <stdarg.h>
#include <stdio.h>
#include <stdlib.h>
#include <unistd.h>

enum { CUT_STATUS = 77 };

static long asked(const char *name)
{
    const char *k = getenv(name);
    return k == NULL ? 0 : strtol(k, NULL, 10);
}

/* Counts a call: is it to fail? */
static int fails(const char *name)
{
    static long calls;
    const char *log = getenv("CUT_LOG");
    FILE *f = log == NULL ? NULL : fopen(log, "a");
    if (f != NULL && (fprintf(f, "%s\n", name) < 0 || fclose(f) != 0))
        _exit(CUT_STATUS);
    calls++;
    if (calls == asked("CUT"))
        _exit(CUT_STATUS);
    if (calls != asked("FAIL"))
        return 0;
    errno = EIO;
    return 1;
}

static int cut_open(const char *name, int flags, ...)
{
    va_list rest;
    va_start(rest, flags);
    unsigned mode = flags & O_CREAT ? va_arg(rest, unsigned) : 0;
    va_end(rest);
    return fails("open") ? -1 : open(name, flags, mode);
}

static int cut_fcntl(int file, int command, struct flock *lock)
{
    return fails("fcntl") ? -1 : fcntl(file, command, lock);
}

/* Some bytes at a time, so that there are cuts within the file. */
static ssize_t cut_write(int file, const void *bytes, size_t size)
{
    return fails("write") ? -1 : write(file, bytes, size < 7 ? size : 7);
}

static int cut_fsync(int file)
{
    return fails("fsync") ? -1 : fsync(file);
}

static int cut_close(int file)
{
    int failed = fails("close"), closed = close(file);
    if (failed)
        errno = EIO;
    return failed ? -1 : closed;
}

static int cut_rename(const char *from, const char *to)
{
    return fails("rename") ? -1 : rename(from, to);
}

static int cut_unlink(const char *name)
{
    return fails("unlink") ? -1 : unlink(name);
}

#define open cut_open
#define fcntl cut_fcntl
#define write cut_write
#define fsync cut_fsync
#define close cut_close
#define rename cut_rename
#define unlink cut_unlink
#include "../examples/inventory.c"
