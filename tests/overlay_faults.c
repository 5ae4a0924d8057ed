/*
 * Has the system fail the program overlay where the variables say so, to see that it is told and
 * that no answer is invented. Loaded with LD_PRELOAD; without FAULT it does nothing.
 *
 * FAULT_FILE is a film's name as the program gets it, and AT and TIME below are the variables
 * FAULT_AT and FAULT_TIME. Once the fault is met with, the file named by FAULT_MET is made.
 *
 *   read          the byte at place AT cannot be read from the TIME-th try on; what stands before it can
 *   shrink        the film is cut to AT bytes before the TIME-th call for it
 *   grow          the film is lengthened to AT bytes before the TIME-th call for it
 *   open          the film cannot be opened
 *   seek          the TIME-th call of lseek for the film fails
 *   interrupted   the TIME-th read of the film is broken off by a signal
 *   short-reads   a read gives AT bytes at most
 *   write         the standard output takes AT bytes and no more
 *   short-writes  a write takes AT bytes at most
 */
#define _GNU_SOURCE

#include <errno.h>
#include <fcntl.h>
#include <stdarg.h>
#include <stdbool.h>
#include <stdlib.h>
#include <string.h>
#include <sys/stat.h>
#include <sys/syscall.h>
#include <sys/types.h>
#include <unistd.h>

static int film = -1;

static const char *variable(const char *name)
{
    const char *value = getenv(name);
    return value != NULL ? value : "";
}

static bool fault(const char *name)
{
    return strcmp(variable("FAULT"), name) == 0;
}

static off_t at(void)
{
    return (off_t)strtoll(variable("FAULT_AT"), NULL, 10);
}

static bool is_time(long count)
{
    return count == strtol(variable("FAULT_TIME"), NULL, 10);
}

static int system_open(const char *name, int flags, mode_t mode)
{
    return (int)syscall(SYS_openat, AT_FDCWD, name, flags, mode);
}

static void met(void)
{
    int file = system_open(variable("FAULT_MET"), O_WRONLY | O_CREAT | O_CLOEXEC, 0666);
    if (file >= 0)
        syscall(SYS_close, file);
}

static int failed(int number)
{
    met();
    errno = number;
    return -1;
}

/* Before each call for the film: another process may change it meanwhile. */
static void meanwhile(void)
{
    static long calls;
    if (!(fault("shrink") || fault("grow")) || !is_time(++calls))
        return;
    met();
    if (truncate(variable("FAULT_FILE"), at()) != 0)
        abort();
}

static int opened(const char *name, int file)
{
    if (file >= 0 && strcmp(name, variable("FAULT_FILE")) == 0)
        film = file;
    return file;
}

static bool is_open_fault(const char *name)
{
    return fault("open") && strcmp(name, variable("FAULT_FILE")) == 0;
}

int open(const char *name, int flags, ...)
{
    va_list more;
    va_start(more, flags);
    mode_t mode = flags & O_CREAT ? va_arg(more, mode_t) : 0;
    va_end(more);
    return is_open_fault(name) ? failed(EMFILE) : opened(name, system_open(name, flags, mode));
}

int open64(const char *name, int flags, ...)
{
    va_list more;
    va_start(more, flags);
    mode_t mode = flags & O_CREAT ? va_arg(more, mode_t) : 0;
    va_end(more);
    return is_open_fault(name) ? failed(EMFILE) : opened(name, system_open(name, flags, mode));
}

int close(int file)
{
    if (file == film)
        film = -1;
    return (int)syscall(SYS_close, file);
}

off_t lseek(int file, off_t offset, int whence)
{
    static long seeks;
    if (file == film) {
        meanwhile();
        if (fault("seek") && is_time(++seeks))
            return failed(EIO);
    }
    return syscall(SYS_lseek, file, offset, whence);
}

off64_t lseek64(int file, off64_t offset, int whence)
{
    return lseek(file, offset, whence);
}

int fstat(int file, struct stat *status)
{
    if (file == film)
        meanwhile();
    return (int)syscall(SYS_fstat, file, status);
}

/* How many bytes may be read from this place, or -1. */
static ssize_t readable(off_t place, size_t length)
{
    static long reads, tries;
    meanwhile();
    if (fault("interrupted") && is_time(++reads))
        return failed(EINTR);
    if (fault("short-reads") && length > (size_t)at()) {
        met();
        return (ssize_t)at();
    }
    if (!fault("read") || at() < place || (size_t)(at() - place) >= length)
        return (ssize_t)length;
    /* The byte is asked for. Once it cannot be read it stays so. */
    tries += tries < strtol(variable("FAULT_TIME"), NULL, 10);
    if (!is_time(tries))
        return (ssize_t)length;
    return at() > place ? (ssize_t)(at() - place) : failed(EIO);
}

ssize_t read(int file, void *buffer, size_t length)
{
    if (file != film)
        return syscall(SYS_read, file, buffer, length);
    ssize_t most = readable(syscall(SYS_lseek, file, 0, SEEK_CUR), length);
    return most < 0 ? -1 : syscall(SYS_read, file, buffer, (size_t)most);
}

ssize_t pread(int file, void *buffer, size_t length, off_t place)
{
    if (file != film)
        return syscall(SYS_pread64, file, buffer, length, place);
    ssize_t most = readable(place, length);
    return most < 0 ? -1 : syscall(SYS_pread64, file, buffer, (size_t)most, place);
}

ssize_t pread64(int file, void *buffer, size_t length, off64_t place)
{
    return pread(file, buffer, length, place);
}

ssize_t write(int file, const void *buffer, size_t length)
{
    static off_t written;
    if (file != STDOUT_FILENO)
        return syscall(SYS_write, file, buffer, length);
    if (fault("short-writes") && length > (size_t)at()) {
        met();
        length = (size_t)at();
    }
    if (fault("write") && written + (off_t)length > at()) {
        length = (size_t)(at() - written);
        if (length == 0)
            return failed(ENOSPC);
    }
    ssize_t taken = syscall(SYS_write, file, buffer, length);
    written += taken > 0 ? taken : 0;
    return taken;
}
