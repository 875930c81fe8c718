// While the first number of CONTROL is not 0, allocations and threads are counted in the second, and the one with that number refused.
#define _GNU_SOURCE
#include <dlfcn.h>
#include <errno.h>
#include <fcntl.h>
#include <pthread.h>
#include <stdlib.h>
#include <sys/mman.h>

static long *control;
static void *(*allocate)(size_t), *(*move)(void *, size_t);

__attribute__((constructor)) static void start(void) {
    int file = open(getenv("CONTROL"), O_RDWR);
    control = mmap(0, 2 * sizeof(long), PROT_READ | PROT_WRITE, MAP_SHARED, file, 0);
}

static int refuses(void) {
    long nth = control && control != MAP_FAILED ? __atomic_load_n(control, __ATOMIC_SEQ_CST) : 0;
    return nth && __atomic_add_fetch(control + 1, 1, __ATOMIC_SEQ_CST) == nth;
}

void *malloc(size_t size) {
    if (!allocate)
        allocate = (void *(*)(size_t))dlsym(RTLD_NEXT, "malloc");
    return refuses() ? 0 : allocate(size);
}

void *realloc(void *room, size_t size) {
    if (!move)
        move = (void *(*)(void *, size_t))dlsym(RTLD_NEXT, "realloc");
    return refuses() ? 0 : move(room, size);
}

int pthread_create(pthread_t *thread, const pthread_attr_t *how, void *(*run)(void *), void *given) {
    int (*create)(pthread_t *, const pthread_attr_t *, void *(*)(void *), void *) = dlsym(RTLD_NEXT, "pthread_create");
    return refuses() ? EAGAIN : create(thread, how, run, given);
}
