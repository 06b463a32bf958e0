/* Loaded into a program before its libraries (LD_PRELOAD), this makes each of its syncs wait first, as a slow disk does.
 *
 * SLOW_SYNC says how many microseconds. */

#define _GNU_SOURCE
#include <dlfcn.h>
#include <stdlib.h>
#include <unistd.h>

static void wait_first(void)
{
    const char *microseconds = getenv("SLOW_SYNC");
    if (microseconds != NULL)
        usleep((useconds_t)strtoul(microseconds, NULL, 10));
}

#define CALL(name)                                                         \
    int name(int file)                                                     \
    {                                                                      \
        static int (*next)(int);                                           \
        if (next == NULL)                                                  \
            next = (int (*)(int))dlsym(RTLD_NEXT, #name);                  \
        wait_first();                                                      \
        return next(file);                                                 \
    }

CALL(fsync)
CALL(fdatasync)
