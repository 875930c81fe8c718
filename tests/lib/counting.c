// Counts the reads of sockets that found no bytes and did not wait, in the first bytes of the file COUNT.
#define _GNU_SOURCE
#include <dlfcn.h>
#include <errno.h>
#include <fcntl.h>
#include <stdlib.h>
#include <sys/mman.h>
#include <sys/socket.h>
#include <unistd.h>

static ssize_t (*get)(int, void *, size_t, int);
static long *count;

__attribute__((constructor)) static void start(void) {
    int file = open(getenv("COUNT"), O_RDWR | O_CLOEXEC);
    count = mmap(0, sizeof *count, PROT_READ | PROT_WRITE, MAP_SHARED, file, 0);
    if (file < 0 || count == MAP_FAILED)
        abort();
    close(file);
    *(void **)&get = dlsym(RTLD_NEXT, "recv");
}

ssize_t recv(int socket, void *bytes, size_t size, int flags) {
    ssize_t got = get(socket, bytes, size, flags);
    if (got < 0 && errno == EAGAIN)
        __atomic_fetch_add(count, 1, __ATOMIC_SEQ_CST);
    return got;
}
