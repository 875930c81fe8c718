// Delays the calls by which threads wait for, wake and hear one another: futexes, sockets and yields. SEED says which calls of which threads, how
// often and for how long. A thread's chances depend on SEED and on how many threads made such a call before it. With ENDLESS a wait of a second or
// longer lasts until it is woken: a thread that looks again by itself would hide that its wake-up was lost.
#define _GNU_SOURCE
#include <dlfcn.h>
#include <errno.h>
#include <linux/futex.h>
#include <sched.h>
#include <stdarg.h>
#include <stdint.h>
#include <stdlib.h>
#include <sys/socket.h>
#include <sys/syscall.h>
#include <time.h>

enum { WAIT, WAKE, SEND, RECEIVE, ACCEPT, KINDS };

static uint64_t seed, threads;
static __thread uint64_t chance;
// Of each kind of call one of so many is delayed, before it and after it; 0 for none. A delay has so many nanoseconds at most.
static unsigned before[KINDS], after[KINDS], longest;
// A yield does nothing, as it does where no other thread can run.
static int yields;
static int endless;

static long (*call)(long, ...);
static ssize_t (*put)(int, const void *, size_t, int), (*get)(int, void *, size_t, int);
static int (*accepted)(int, struct sockaddr *, socklen_t *, int), (*yield)(void);

static uint64_t mixed(uint64_t x) {
    x = (x ^ x >> 30) * 0xbf58476d1ce4e5b9, x = (x ^ x >> 27) * 0x94d049bb133111eb;
    return x ^ x >> 31;
}

static uint64_t next(void) {
    if (!chance)
        chance = mixed(seed * 1000003 + __atomic_fetch_add(&threads, 1, __ATOMIC_SEQ_CST)) | 1;
    return mixed(chance += 0x9e3779b97f4a7c15);
}

__attribute__((constructor)) static void start(void) {
    static const unsigned often[] = {0, 1, 3, 20}, nanoseconds[] = {50000, 500000, 5000000};
    uint64_t x = seed = strtoull(getenv("SEED"), 0, 10);
    for (int kind = 0; kind < KINDS; kind++)
        before[kind] = often[(x = mixed(x + 1)) % 4], after[kind] = often[(x >> 8) % 4];
    longest = nanoseconds[(x = mixed(x + 1)) % 3], yields = (x >> 8) % 2, endless = getenv("ENDLESS") != 0;
    *(void **)&call = dlsym(RTLD_NEXT, "syscall"), *(void **)&yield = dlsym(RTLD_NEXT, "sched_yield");
    *(void **)&put = dlsym(RTLD_NEXT, "send"), *(void **)&get = dlsym(RTLD_NEXT, "recv");
    *(void **)&accepted = dlsym(RTLD_NEXT, "accept4");
}

static void delay(unsigned one_of) {
    if (!one_of || next() % one_of)
        return;
    int error = errno;
    if (next() % 2) {
        struct timespec asked = {0, next() % longest};
        nanosleep(&asked, 0);
    } else
        for (uint64_t left = next() % 8; left; left--)
            yield();
    errno = error;
}

#define DELAYED(kind, type, made) \
    delay(before[kind]);          \
    type found = made;            \
    delay(after[kind]);           \
    return found

long syscall(long number, ...) {
    va_list more;
    va_start(more, number);
    long a = va_arg(more, long), b = va_arg(more, long), c = va_arg(more, long);
    long d = va_arg(more, long), e = va_arg(more, long), f = va_arg(more, long);
    va_end(more);
    if (number != SYS_futex)
        return call(number, a, b, c, d, e, f);
    int kind = (b & FUTEX_CMD_MASK) == FUTEX_WAKE ? WAKE : WAIT;
    if (endless && (b & FUTEX_CMD_MASK) == FUTEX_WAIT && d && ((const struct timespec *)d)->tv_sec)
        d = 0;
    DELAYED(kind, long, call(number, a, b, c, d, e, f));
}

ssize_t send(int socket, const void *data, size_t size, int flags) { DELAYED(SEND, ssize_t, put(socket, data, size, flags)); }

ssize_t recv(int socket, void *data, size_t size, int flags) { DELAYED(RECEIVE, ssize_t, get(socket, data, size, flags)); }

int accept4(int socket, struct sockaddr *address, socklen_t *size, int flags) { DELAYED(ACCEPT, int, accepted(socket, address, size, flags)); }

int sched_yield(void) { return yields ? yield() : 0; }
