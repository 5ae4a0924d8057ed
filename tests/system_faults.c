/*
 * Has the system fail the host program bands where the variable FAULT says so, to see
 * that it is told and that nothing is left behind. Linked with a -Wl,--wrap for each
 * function.
 */
#define _POSIX_C_SOURCE 200809L

#include "faults.h"

#include <errno.h>
#include <stdarg.h>
#include <stdio.h>
#include <sys/stat.h>
#include <sys/types.h>
#include <time.h>
#include <unistd.h>

FILE *__real_fdopen(int, const char *);
FILE *__wrap_fdopen(int, const char *);
int __real_fchmod(int, mode_t);
int __wrap_fchmod(int, mode_t);
int __real_fclose(FILE *);
int __wrap_fclose(FILE *);
int __real_fflush(FILE *);
int __wrap_fflush(FILE *);
int __real_fsync(int);
int __wrap_fsync(int);
int __real_mkstemp(char *);
int __wrap_mkstemp(char *);
int __real_prctl(int, ...);
int __wrap_prctl(int, ...);
int __real_rename(const char *, const char *);
int __wrap_rename(const char *, const char *);
int __real_unlink(const char *);
int __wrap_unlink(const char *);
pid_t __real_fork(void);
pid_t __wrap_fork(void);

static bool fails(const char *name)
{
    if (!fault(name))
        return false;
    errno = EIO;
    return true;
}

FILE *__wrap_fdopen(int file, const char *mode)
{
    return fails("fdopen") ? NULL : __real_fdopen(file, mode);
}

int __wrap_fchmod(int file, mode_t mode)
{
    return fails("fchmod") ? -1 : __real_fchmod(file, mode);
}

/* The file is closed all the same, as the system does. */
int __wrap_fclose(FILE *file)
{
    int closed = __real_fclose(file);
    return fails("fclose") ? EOF : closed;
}

/* Not what is flushed before a fork. */
int __wrap_fflush(FILE *file)
{
    return file != NULL && fails("fflush") ? EOF : __real_fflush(file);
}

int __wrap_fsync(int file)
{
    const struct timespec minute = {.tv_sec = 60};
    if (fault("disk-hangs"))
        nanosleep(&minute, NULL);
    return fails("fsync") ? -1 : __real_fsync(file);
}

int __wrap_mkstemp(char *path)
{
    return fails("mkstemp") ? -1 : __real_mkstemp(path);
}

/* As on a system that does not end a child with its parent. */
int __wrap_prctl(int option, ...)
{
    va_list more;
    va_start(more, option);
    unsigned long argument = va_arg(more, unsigned long);
    va_end(more);
    return fault("no-death-signal") ? 0 : __real_prctl(option, argument);
}

int __wrap_rename(const char *from, const char *to)
{
    return fails("rename") ? -1 : __real_rename(from, to);
}

int __wrap_unlink(const char *path)
{
    return fails("unlink") ? -1 : __real_unlink(path);
}

pid_t __wrap_fork(void)
{
    return fails("fork") ? -1 : __real_fork();
}
