/* Loaded into a program before its libraries (LD_PRELOAD), this fails its first call of accept4 by the error whose number
 * FAIL_ACCEPT says. The connection that waits stays there for the next call. */

#define _GNU_SOURCE
#include <dlfcn.h>
#include <errno.h>
#include <stdlib.h>
#include <sys/socket.h>

int accept4(int listener, struct sockaddr *restrict address, socklen_t *restrict length, int flags)
{
    static int (*next)(int, struct sockaddr *, socklen_t *, int);
    static int calls;
    if (next == NULL)
        next = (int (*)(int, struct sockaddr *, socklen_t *, int))dlsym(RTLD_NEXT, "accept4");
    calls++;
    if (calls == 1) {
        errno = atoi(getenv("FAIL_ACCEPT"));
        return -1;
    }
    return next(listener, address, length, flags);
}
