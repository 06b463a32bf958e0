/* Loaded into a program before its libraries (LD_PRELOAD), this ends it at one of its calls that change files, as kill -9 does.
 *
 * STOP_CALL says before which: the first is 1. A call is a write at an offset, a change of length, a sync or a removal; the
 * exit status is then 99. */

#define _GNU_SOURCE
#include <dlfcn.h>
#include <stdlib.h>
#include <sys/types.h>
#include <unistd.h>

static void step(void)
{
    static unsigned long calls;
    const char *call = getenv("STOP_CALL");
    if (call != NULL && ++calls == strtoul(call, NULL, 10))
        _exit(99);
}

#define CALL(result, name, parameters, arguments)                                        \
    result name parameters                                                               \
    {                                                                                    \
        static result(*next) parameters;                                                 \
        if (next == NULL)                                                                \
            next = (result(*) parameters)dlsym(RTLD_NEXT, #name);                        \
        step();                                                                          \
        return next arguments;                                                           \
    }

CALL(ssize_t, pwrite, (int file, const void *bytes, size_t count, off_t at), (file, bytes, count, at))
CALL(ssize_t, pwrite64, (int file, const void *bytes, size_t count, off64_t at), (file, bytes, count, at))
CALL(int, ftruncate, (int file, off_t length), (file, length))
CALL(int, ftruncate64, (int file, off64_t length), (file, length))
CALL(int, fsync, (int file), (file))
CALL(int, fdatasync, (int file), (file))
CALL(int, unlink, (const char *path), (path))
