/* Linked into examples/shift.c by tests/shift, in front of the calls of the system
 * that write (--wrap): a disk that keeps nothing before it is told to, and a
 * power cut.
 *
 *     CUT=n     the power is cut at the n-th of these calls, which is then not
 *               made; with 0 when the program has ended
 *     LOSE=1    a name that was given and not yet made sure of (fsync of the
 *               directory) is lost then; with 0 it stays
 *
 * Bytes that were written and not made sure of (fsync of the file) are always
 * lost.  A write takes at most 100 bytes, as a write may. */
#define _XOPEN_SOURCE 700
#include <fcntl.h>
#include <stdarg.h>
#include <stdbool.h>
#include <stdio.h>
#include <stdlib.h>
#include <string.h>
#include <sys/stat.h>
#include <unistd.h>

#define NAME 4200
#define CUT_STATUS 99

int __real_open(const char *path, int flags, ...);
ssize_t __real_write(int file, const void *bytes, size_t length);
int __real_fsync(int file);
int __real_rename(const char *from, const char *to);

int __wrap_open(const char *path, int flags, ...);
ssize_t __wrap_write(int file, const void *bytes, size_t length);
int __wrap_fsync(int file);
int __wrap_rename(const char *from, const char *to);

static unsigned made;
static int unsure_file = -1;                        /* has bytes that are not on the disk */
static bool unsure_name;                            /* "given" was given, and "earlier" has what it named */
static char given[NAME], earlier[NAME + 8];

static unsigned number(const char *name)
{
    const char *value = getenv(name);
    return value == NULL ? 0 : (unsigned)strtoul(value, NULL, 10);
}

static void lose(void)
{
    if (unsure_file >= 0 && ftruncate(unsure_file, 0) != 0)
        _exit(2);
    if (unsure_name && number("LOSE") == 1 && __real_rename(earlier, given) != 0)
        unlink(given); /* it named nothing before */
}

/* Before each call, and when the program has ended. */
static void next(void)
{
    if (made++ == 0)
        atexit(lose);
    if (made != number("CUT"))
        return;
    lose();
    _exit(CUT_STATUS);
}

int __wrap_open(const char *path, int flags, ...)
{
    va_list rest;
    va_start(rest, flags);
    unsigned mode = flags & O_CREAT ? va_arg(rest, unsigned) : 0;
    va_end(rest);
    next();
    return __real_open(path, flags, mode);
}

ssize_t __wrap_write(int file, const void *bytes, size_t length)
{
    next();
    if (unsure_file < 0)
        unsure_file = dup(file);
    return __real_write(file, bytes, length < 100 ? length : 100);
}

int __wrap_fsync(int file)
{
    struct stat what;
    next();
    if (fstat(file, &what) == 0 && S_ISDIR(what.st_mode)) {
        unsure_name = false;
    } else if (unsure_file >= 0) {
        close(unsure_file);
        unsure_file = -1;
    }
    return __real_fsync(file);
}

int __wrap_rename(const char *from, const char *to)
{
    next();
    snprintf(given, sizeof given, "%s", to);
    snprintf(earlier, sizeof earlier, "%s.was", given);
    unlink(earlier);
    if (link(given, earlier) != 0)
        earlier[0] = '\0';
    unsure_name = true;
    return __real_rename(from, to);
}
