/* Loaded into a program before its libraries (LD_PRELOAD), this refuses one of its calls for memory.
 *
 * REFUSE_CALL says which: the first is 1. With REFUSE_LATER set, all calls after it are refused too.
 * REFUSE_TELL is the number of an open file that a byte is written to if a call is refused.
 * Calls count from the start of main on. */

#define _GNU_SOURCE
#include <dlfcn.h>
#include <stdbool.h>
#include <stddef.h>
#include <stdlib.h>
#include <unistd.h>

static void *(*take)(size_t);
static void *(*resize)(void *, size_t);
static unsigned long refused, calls;
static bool later;
static int tell;

__attribute__((constructor)) static void begin(void)
{
    const char *call = getenv("REFUSE_CALL"), *file = getenv("REFUSE_TELL");
    take = dlsym(RTLD_NEXT, "malloc");
    resize = dlsym(RTLD_NEXT, "realloc");
    later = getenv("REFUSE_LATER") != NULL;
    tell = file ? atoi(file) : -1;
    calls = 0;
    refused = call ? strtoul(call, NULL, 10) : 0;
}

static bool is_refused(void)
{
    calls++;
    if (refused == 0 || calls < refused || (calls > refused && !later))
        return false;
    if (tell >= 0 && write(tell, ".", 1) < 0)
        abort();
    return true;
}

void *malloc(size_t size)
{
    if (take == NULL)
        take = dlsym(RTLD_NEXT, "malloc");
    return is_refused() ? NULL : take(size);
}

void *realloc(void *block, size_t size)
{
    if (resize == NULL)
        resize = dlsym(RTLD_NEXT, "realloc");
    return is_refused() ? NULL : resize(block, size);
}
