/* Loaded into a program before its libraries (LD_PRELOAD), this fails one of its calls on files.
 *
 * FAIL_CALL says which: the first is 1. With FAIL_LATER set, all calls after it fail too. A call is a read or
 * a write at an offset, a look at the length, a change of it, a sync, advice, a lock or an opening; what fails
 * does nothing. Calls count from the first write to standard output on; with FAIL_EARLY set, from the first
 * opening of a file whose name ends in .db. If a call fails, the file that FAIL_TELL names is made. */

#define _GNU_SOURCE
#include <dlfcn.h>
#include <errno.h>
#include <fcntl.h>
#include <stdarg.h>
#include <stdbool.h>
#include <stdlib.h>
#include <string.h>
#include <sys/stat.h>
#include <sys/types.h>
#include <unistd.h>

static bool has_begun;

ssize_t write(int file, const void *bytes, size_t count)
{
    static ssize_t (*next)(int, const void *, size_t);
    if (next == NULL)
        next = (ssize_t(*)(int, const void *, size_t))dlsym(RTLD_NEXT, "write");
    has_begun = has_begun || (file == STDOUT_FILENO && getenv("FAIL_EARLY") == NULL);
    return next(file, bytes, count);
}

static bool fails(void)
{
    static unsigned long calls;
    const char *call = getenv("FAIL_CALL"), *tell = getenv("FAIL_TELL");
    unsigned long failing = call ? strtoul(call, NULL, 10) : 0;
    if (!has_begun)
        return false;
    calls++;
    if (failing == 0 || calls < failing || (calls > failing && getenv("FAIL_LATER") == NULL))
        return false;
    if (tell != NULL && mknod(tell, S_IFREG | 0600, 0) < 0 && errno != EEXIST)
        abort();
    errno = EIO;
    return true;
}

#define CALL(result, name, failed, parameters, arguments)                                \
    result name parameters                                                               \
    {                                                                                    \
        static result(*next) parameters;                                                 \
        if (next == NULL)                                                                \
            next = (result(*) parameters)dlsym(RTLD_NEXT, #name);                        \
        return fails() ? failed : next arguments;                                        \
    }

CALL(ssize_t, pread, -1, (int file, void *bytes, size_t count, off_t at), (file, bytes, count, at))
CALL(ssize_t, pread64, -1, (int file, void *bytes, size_t count, off64_t at), (file, bytes, count, at))
CALL(ssize_t, pwrite, -1, (int file, const void *bytes, size_t count, off_t at), (file, bytes, count, at))
CALL(ssize_t, pwrite64, -1, (int file, const void *bytes, size_t count, off64_t at), (file, bytes, count, at))
CALL(int, ftruncate, -1, (int file, off_t length), (file, length))
CALL(int, ftruncate64, -1, (int file, off64_t length), (file, length))
CALL(int, fsync, -1, (int file), (file))
CALL(int, fdatasync, -1, (int file), (file))
CALL(int, fstat, -1, (int file, struct stat *found), (file, found))
CALL(int, fstat64, -1, (int file, struct stat64 *found), (file, found))
CALL(int, statx, -1, (int folder, const char *restrict path, int flags, unsigned int wanted, struct statx *restrict found),
     (folder, path, flags, wanted, found))
CALL(int, flock, -1, (int file, int how), (file, how))
CALL(int, posix_fadvise, EIO, (int file, off_t at, off_t length, int advice), (file, at, length, advice))
CALL(int, posix_fadvise64, EIO, (int file, off64_t at, off64_t length, int advice), (file, at, length, advice))

static bool names_database(const char *path)
{
    size_t length = strlen(path);
    return length >= 3 && strcmp(path + length - 3, ".db") == 0;
}

#define OPENING(name)                                                                    \
    int name(const char *path, int flags, ...)                                           \
    {                                                                                    \
        static int (*next)(const char *, int, ...);                                      \
        va_list rest;                                                                    \
        va_start(rest, flags);                                                           \
        mode_t mode = va_arg(rest, mode_t);                                              \
        va_end(rest);                                                                    \
        if (next == NULL)                                                                \
            next = (int (*)(const char *, int, ...))dlsym(RTLD_NEXT, #name);             \
        has_begun = has_begun || (names_database(path) && getenv("FAIL_EARLY") != NULL); \
        return fails() ? -1 : next(path, flags, mode);                                   \
    }

OPENING(open)
OPENING(open64)
