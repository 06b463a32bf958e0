/* Loaded into a program before its libraries (LD_PRELOAD), this fails the first FAIL_TIMES reads of the file at the path that
 * FAIL_PATH names, by the error whose number FAIL_ERROR says. With FAIL_AFTER set, so many reads are done before. */

#define _GNU_SOURCE
#include <dlfcn.h>
#include <errno.h>
#include <stdbool.h>
#include <stdio.h>
#include <stdlib.h>
#include <string.h>
#include <unistd.h>

static bool is_named(int file)
{
    char link[40], path[4096];
    snprintf(link, sizeof link, "/proc/self/fd/%d", file);
    ssize_t length = readlink(link, path, sizeof path - 1);
    if (length < 0)
        return false;
    path[length] = 0;
    return strcmp(path, getenv("FAIL_PATH")) == 0;
}

ssize_t read(int file, void *bytes, size_t size)
{
    static ssize_t (*next)(int, void *, size_t);
    static int done, failed;
    if (next == NULL)
        next = (ssize_t(*)(int, void *, size_t))dlsym(RTLD_NEXT, "read");
    const char *after = getenv("FAIL_AFTER");
    if (failed < atoi(getenv("FAIL_TIMES")) && is_named(file) && done++ >= (after ? atoi(after) : 0)) {
        failed++;
        errno = atoi(getenv("FAIL_ERROR"));
        return -1;
    }
    return next(file, bytes, size);
}
