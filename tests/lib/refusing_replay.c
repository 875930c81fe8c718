// Refuses the allocation number NTH of those that are made once FROM pieces were read. The refusal is reported on REPORT: how
// many pieces had been read, and how many allocations made since the last. If NTH is 0 this is reported before each read instead.
// Each of more than LARGEST bytes is refused too, if that is not 0. If ENDS is not 0 the program is a wrong one: it ends at the
// refusal of that allocation since a piece, and of each later one, with the status of WRONG and its line.
#define _GNU_SOURCE
#include <dlfcn.h>
#include <stdio.h>
#include <stdlib.h>
#include <sys/syscall.h>
#include <unistd.h>

static long made, since, reads, from, nth, report, largest, ends, wrong;
static void *(*allocate)(size_t), *(*move)(void *, size_t);
static ssize_t (*get)(int, void *, size_t);

static long number(const char *name) {
    const char *text = getenv(name);
    return text ? atol(text) : 0;
}

__attribute__((constructor)) static void start(void) {
    allocate = (void *(*)(size_t))dlsym(RTLD_NEXT, "malloc");
    move = (void *(*)(void *, size_t))dlsym(RTLD_NEXT, "realloc");
    get = (ssize_t (*)(int, void *, size_t))dlsym(RTLD_NEXT, "read");
    made = since = reads = 0;
    from = number("FROM");
    nth = number("NTH");
    report = number("REPORT");
    largest = number("LARGEST");
    ends = number("ENDS");
    wrong = number("WRONG");
}

static int tell(void) {
    char line[64];
    int size = snprintf(line, sizeof line, "%ld %ld\n", reads, since);
    int told = syscall(SYS_write, report, line, size) > 0;
    if (nth && ends && since >= ends) {
        if (wrong)
            syscall(SYS_write, 2, "tabd: no memory\n", 16);
        _exit(wrong);
    }
    return told;
}

static int refuses(size_t size) {
    ++since;
    if (largest && size > (size_t)largest)
        return 1;
    return reads >= from && ++made == nth && tell();
}

void *malloc(size_t size) {
    if (!allocate)
        allocate = (void *(*)(size_t))dlsym(RTLD_NEXT, "malloc");
    return refuses(size) ? 0 : allocate(size);
}

void *realloc(void *room, size_t size) {
    if (!move)
        move = (void *(*)(void *, size_t))dlsym(RTLD_NEXT, "realloc");
    return refuses(size) ? 0 : move(room, size);
}

ssize_t read(int file, void *room, size_t size) {
    if (file == 0 && nth == 0)
        tell();
    ssize_t count = get(file, room, size);
    if (file == 0) {
        ++reads;
        since = 0;
    }
    return count;
}
