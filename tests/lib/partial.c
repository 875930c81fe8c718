// A send that does not wait takes a part of its bytes, or none, as it does on a connection that is nearly full. TAKES says so: "part", "none";
// or what no system does, so that a test can be tried: "lost" (it says that it took all) and "more" (it says that it took less than it did).
#define _GNU_SOURCE
#include <dlfcn.h>
#include <errno.h>
#include <stdlib.h>
#include <string.h>
#include <sys/socket.h>

ssize_t send(int socket, const void *bytes, size_t count, int flags) {
    static ssize_t (*put)(int, const void *, size_t, int);
    static unsigned calls;
    const char *takes = getenv("TAKES");
    if (!put)
        put = (ssize_t (*)(int, const void *, size_t, int))dlsym(RTLD_NEXT, "send");
    if (!(flags & MSG_DONTWAIT) || !takes || count < 2)
        return put(socket, bytes, count, flags);
    unsigned chance = (__atomic_add_fetch(&calls, 1, __ATOMIC_SEQ_CST) * 2654435761u) >> 16;
    if (!strcmp(takes, "none") || (!strcmp(takes, "part") && chance % 4 == 0))
        return errno = EAGAIN, -1;
    size_t part = 1 + chance % (count - 1);
    ssize_t sent = put(socket, bytes, strcmp(takes, "more") ? part : count, flags);
    if (!strcmp(takes, "lost") && sent >= 0)
        return (ssize_t)count;
    return !strcmp(takes, "more") && sent > 1 ? sent - 1 : sent;
}
