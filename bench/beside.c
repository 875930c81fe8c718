/* One load for servers of two kinds: those that speak the frames of `tabd serve`, and Redis.
 *
 *   beside frames|redis PORT CONNECTIONS MILLISECONDS < PLAN
 *
 * Each connection has a thread, which makes rounds until the time is over: of each step of the plan it sends the bytes and waits
 * for the replies before it sends the next. A line of the plan is a step: how many replies it has, the beginning of the last one as
 * hexadecimal digits, the bytes of the request in the same way, and the places in it where a key stands, which is drawn anew for
 * each round: four bytes of frames, the highest first, and eight digits for Redis. A step that is answered `{reply, restart}`
 * is sent again. On standard output: rounds a second, restarts a round, the replies that were not as wanted, and the share of the
 * rounds that ended behind one of the same connection.
 */
#include <arpa/inet.h>
#include <netinet/tcp.h>
#include <pthread.h>
#include <stdatomic.h>
#include <stdint.h>
#include <stdio.h>
#include <stdlib.h>
#include <string.h>
#include <sys/socket.h>
#include <time.h>
#include <unistd.h>

enum { STEPS = 8, PLACES = 128, KEYS = 10000, ROOM = 1 << 20 };

struct step {
    unsigned char *bytes, *wanted;
    size_t size, wanted_size, places[PLACES];
    int replies, keys;
};

struct connection {
    int socket;
    unsigned random;
    struct step steps[STEPS];
    unsigned char *room;
    size_t start, end;
    uint64_t rounds, restarts, wrong, again;
};

static const unsigned char RESTART[] = "\x83h\x02w\x05replyw\x07restart";
static struct step plan[STEPS];
static int step_count, is_redis;
static volatile int begun, over;
static struct connection *_Atomic last;

static void fail(const char *what) {
    perror(what);
    exit(1);
}

static unsigned char *bytes_of(const char *digits, size_t *size) {
    *size = strlen(digits) / 2;
    unsigned char *bytes = malloc(*size + 1);
    if (!bytes)
        fail("memory");
    for (size_t at = 0; at < *size; ++at)
        sscanf(digits + 2 * at, "%2hhx", bytes + at);
    return bytes;
}

static void read_plan(void) {
    static char line[ROOM], wanted[1024], bytes[ROOM];
    while (step_count < STEPS && fgets(line, sizeof line, stdin)) {
        struct step *step = &plan[step_count++];
        int used = 0, more = 0;
        if (sscanf(line, "%d %1023s %1000000s%n", &step->replies, wanted, bytes, &used) != 3)
            fail("plan");
        step->wanted = bytes_of(wanted, &step->wanted_size);
        step->bytes = bytes_of(bytes, &step->size);
        while (step->keys < PLACES && sscanf(line + used, " %zu%n", &step->places[step->keys], &more) == 1) {
            used += more;
            ++step->keys;
        }
    }
}

/* The size of the reply that begins here, with what stands before its payload; 0 where it is not whole yet. */
static size_t frame_size(const unsigned char *at, size_t there) {
    if (there < 4)
        return 0;
    size_t size = 4 + ((size_t)at[0] << 24 | at[1] << 16 | at[2] << 8 | at[3]);
    return size <= there ? size : 0;
}

static size_t redis_size(const unsigned char *at, size_t there) {
    const unsigned char *line = memchr(at, '\n', there);
    if (!line)
        return 0;
    size_t size = (size_t)(line - at) + 1;
    long count = strtol((const char *)at + 1, 0, 10);
    if (at[0] == '$' && count >= 0)
        return size + (size_t)count + 2 <= there ? size + (size_t)count + 2 : 0;
    for (long member = 0; at[0] == '*' && member < count; ++member) {
        size_t next = size < there ? redis_size(at + size, there - size) : 0;
        if (!next)
            return 0;
        size += next;
    }
    return size;
}

static void receive(struct connection *it) {
    if (it->start && ROOM - it->end < 65536) {
        memmove(it->room, it->room + it->start, it->end - it->start);
        it->end -= it->start;
        it->start = 0;
    }
    ssize_t count = recv(it->socket, it->room + it->end, ROOM - it->end, 0);
    if (count <= 0)
        fail("the server has closed a connection");
    it->end += (size_t)count;
}

/* The last reply to a step, as far as it is looked at: a frame's payload. */
static const unsigned char *last_reply(struct connection *it, int replies, size_t *size) {
    const unsigned char *at = 0;
    while (replies > 0) {
        size_t (*size_of)(const unsigned char *, size_t) = is_redis ? redis_size : frame_size;
        size_t found = size_of(it->room + it->start, it->end - it->start);
        if (!found) {
            receive(it);
            continue;
        }
        at = it->room + it->start + (is_redis ? 0 : 4);
        *size = found - (is_redis ? 0 : 4);
        it->start += found;
        --replies;
    }
    return at;
}

static unsigned next_key(struct connection *it) {
    it->random ^= it->random << 13;
    it->random ^= it->random >> 17;
    it->random ^= it->random << 5;
    return it->random % KEYS;
}

static void put_keys(struct connection *it, struct step *step) {
    for (int at = 0; at < step->keys; ++at) {
        unsigned key = next_key(it);
        unsigned char *place = step->bytes + step->places[at];
        for (int digit = is_redis ? 7 : 3; digit >= 0; --digit) {
            place[digit] = is_redis ? '0' + key % 10 : key % 256;
            key /= is_redis ? 10 : 256;
        }
    }
}

static void make_step(struct connection *it, struct step *step) {
    put_keys(it, step);
    for (;;) {
        for (size_t sent = 0; sent < step->size;) {
            ssize_t count = send(it->socket, step->bytes + sent, step->size - sent, MSG_NOSIGNAL);
            if (count < 0)
                fail("send");
            sent += (size_t)count;
        }
        size_t size = 0;
        const unsigned char *reply = last_reply(it, step->replies, &size);
        if (!is_redis && size == sizeof RESTART - 1 && !memcmp(reply, RESTART, size)) {
            ++it->restarts;
            continue;
        }
        it->wrong += size < step->wanted_size || memcmp(reply, step->wanted, step->wanted_size) != 0;
        return;
    }
}

static void *run(void *given) {
    struct connection *it = given;
    while (!begun)
        usleep(100);
    while (!over) {
        for (int at = 0; at < step_count; ++at)
            make_step(it, &it->steps[at]);
        ++it->rounds;
        it->again += atomic_exchange(&last, it) == it;
    }
    return 0;
}

static void open_connection(struct connection *it, int port, unsigned number) {
    struct sockaddr_in address = {.sin_family = AF_INET, .sin_port = htons(port), .sin_addr.s_addr = htonl(INADDR_LOOPBACK)};
    int one = 1;
    it->socket = socket(AF_INET, SOCK_STREAM, 0);
    if (it->socket < 0 || connect(it->socket, (struct sockaddr *)&address, sizeof address))
        fail("connect");
    setsockopt(it->socket, IPPROTO_TCP, TCP_NODELAY, &one, sizeof one);
    it->random = 2463534242u + 7919u * number;
    it->room = malloc(ROOM);
    if (!it->room)
        fail("memory");
    for (int at = 0; at < step_count; ++at) {
        it->steps[at] = plan[at];
        it->steps[at].bytes = malloc(plan[at].size);
        if (!it->steps[at].bytes)
            fail("memory");
        memcpy(it->steps[at].bytes, plan[at].bytes, plan[at].size);
    }
}

static double seconds(void) {
    struct timespec now;
    clock_gettime(CLOCK_MONOTONIC, &now);
    return now.tv_sec + now.tv_nsec * 1e-9;
}

int main(int count, char **words) {
    if (count != 5)
        return 2;
    int connections = atoi(words[3]);
    is_redis = !strcmp(words[1], "redis");
    read_plan();
    struct connection *all = calloc(connections, sizeof *all);
    pthread_t *threads = calloc(connections, sizeof *threads);
    for (int at = 0; at < connections; ++at)
        open_connection(&all[at], atoi(words[2]), at);
    for (int at = 0; at < connections; ++at)
        pthread_create(&threads[at], 0, run, &all[at]);
    double start = seconds();
    begun = 1;
    usleep(atoi(words[4]) * 1000);
    over = 1;
    uint64_t rounds = 0, restarts = 0, wrong = 0, again = 0;
    for (int at = 0; at < connections; ++at) {
        pthread_join(threads[at], 0);
        rounds += all[at].rounds;
        restarts += all[at].restarts;
        wrong += all[at].wrong;
        again += all[at].again;
    }
    double all_rounds = rounds ? (double)rounds : 1;
    printf("%.1f %.4f %llu %.4f\n", rounds / (seconds() - start), restarts / all_rounds, (unsigned long long)wrong, again / all_rounds);
    return 0;
}
