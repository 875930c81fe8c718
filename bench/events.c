/* Writers of `tabd serve` and the subscribers that read their events, each a thread with a connection of its own.
 *
 *   events PORT WRITERS SUBSCRIBERS RATE MILLISECONDS < PLAN
 *
 * The plan has four lines for each of two tables, each a frame as hexadecimal digits: the requests that create the table, subscribe to it,
 * write a record of it, and delete it. A record has a key of four bytes and a binary of eight: the CLOCK_MONOTONIC time in nanoseconds
 * just before the request was sent. Each writer waits for its reply before it sends the next. If RATE is not 0, it sends so many a second,
 * at absolute times. At the end the table is deleted, and a subscriber reads up to the end marker, which follows the last event. The number
 * of its events and the sum of their times must be those of the commits. On standard output: commits a second; the same, up to the time
 * when all subscribers have read all events. If RATE is not 0 the median and the 99th percentile of the microseconds follow, from just
 * before a write was sent to the time when a subscriber had read its event. With 0 writers there are two clients, each of which writes to
 * a table of its own when it has read an event of the other's: round trips a second, and the same percentiles of half a trip.
 */
#define _GNU_SOURCE
#include <arpa/inet.h>
#include <netinet/tcp.h>
#include <pthread.h>
#include <stdint.h>
#include <stdio.h>
#include <stdlib.h>
#include <string.h>
#include <sys/socket.h>
#include <time.h>

/* A frame that does not arrive within PATIENCE seconds is an error. A writer has KEYS keys of its own. TRIPS half trips a millisecond. */
enum { ROOM = 1 << 16, CONNECTIONS = 64, TABLES = 2, PATIENCE = 30, KEYS = 1000, STAMP = 8, TRIPS = 200, SECOND = 1000000000 };
enum { CREATE, SUBSCRIBE, WRITE, DELETE, REQUESTS };
enum kind { EVENT, ATOMIC, SUBSCRIBED, BEGIN, END, KINDS };

struct request {
    unsigned char bytes[128];
    size_t size;
};

struct connection {
    int socket;
    pthread_t thread;
    /* Its own copy of the request that writes. */
    struct request write;
    /* The bytes from START to END were read and are in no earlier frame; the last of them at READ_AT. FRAME is the latest payload. */
    unsigned char room[ROOM];
    size_t start, end;
    int64_t read_at, event_at;
    const unsigned char *frame;
    size_t size;
    uint64_t asked, replies, writes, events, sum_written, sum_read;
};

static const char EVENT_HEAD[] = "\x83h\2w\x12mnesia_table_eventh\3w\5writeh\3w\1";
static const char *const HEADS[KINDS] = {EVENT_HEAD, "\x83h\2w\5replyh\2w\6atomic", "\x83h\2w\5replyh\2w\2ok",
                                         "\x83h\3w\x12mnesia_table_begin", "\x83h\3w\x10mnesia_table_end"};
static const unsigned char BINARY[] = {'m', 0, 0, 0, STAMP};
/* The place of the binary in an event: after a name of one byte, and the key with its tag. */
enum { PLACE = sizeof EVENT_HEAD - 1 + 1 + 1 + 4 };
static struct request plan[TABLES][REQUESTS];
static struct connection all[CONNECTIONS];
/* The nanoseconds between a write and its event: MOST of them for each connection, with zeros after the last. */
static int64_t *delays;
static size_t most;
static int64_t start, finish, interval;

static void fail(const char *what) {
    perror(what);
    exit(1);
}

static int64_t now(void) {
    struct timespec time;
    clock_gettime(CLOCK_MONOTONIC, &time);
    return (int64_t)time.tv_sec * SECOND + time.tv_nsec;
}

static void sleep_until(int64_t time) {
    struct timespec until = {.tv_sec = time / SECOND, .tv_nsec = time % SECOND};
    clock_nanosleep(CLOCK_MONOTONIC, TIMER_ABSTIME, &until, 0);
}

static void read_plan(void) {
    static char digits[2 * sizeof plan[0][0].bytes];
    for (int line = 0; line < REQUESTS * TABLES; ++line) {
        struct request *request = &plan[line / REQUESTS][line % REQUESTS];
        if (scanf("%255s", digits) != 1)
            fail("plan");
        for (; digits[2 * request->size]; ++request->size)
            sscanf(digits + 2 * request->size, "%2hhx", request->bytes + request->size);
    }
}

static void send_request(struct connection *it, const struct request *request) {
    ++it->asked;
    for (size_t sent = 0; sent < request->size;) {
        ssize_t count = send(it->socket, request->bytes + sent, request->size - sent, MSG_NOSIGNAL);
        if (count < 0)
            fail("send");
        sent += (size_t)count;
    }
}

/* Reads until the next frame is complete. */
static void read_frame(struct connection *it) {
    for (;;) {
        unsigned char *at = it->room + it->start;
        size_t there = it->end - it->start;
        size_t size = there < 4 ? ROOM : (size_t)at[0] << 24 | at[1] << 16 | at[2] << 8 | at[3];
        if (size + 4 <= there) {
            it->frame = at + 4;
            it->size = size;
            it->start += size + 4;
            return;
        }
        memmove(it->room, at, there);
        it->start = 0;
        ssize_t count = recv(it->socket, it->room + there, ROOM - there, 0);
        if (count <= 0)
            fail(count ? "a frame does not arrive" : "the server has closed a connection, or a frame is too long");
        it->read_at = now();
        it->end = there + (size_t)count;
    }
}

/* The next frame's kind. Any other is an error, such as a refusal or an overflow. */
static enum kind next_frame(struct connection *it) {
    read_frame(it);
    for (enum kind kind = 0; kind < KINDS; ++kind) {
        size_t size = strlen(HEADS[kind]);
        if (it->size >= size && !memcmp(it->frame, HEADS[kind], size)) {
            it->replies += kind == ATOMIC || kind == SUBSCRIBED;
            return kind;
        }
    }
    fprintf(stderr, "connection %d has read another frame: ", (int)(it - all));
    fwrite(it->frame, 1, it->size, stderr);
    exit(1);
}

static void ask(struct connection *it, const struct request *request) {
    send_request(it, request);
    while (it->replies < it->asked)
        next_frame(it);
}

/* The request for one more record with this time. */
static const struct request *next_write(struct connection *it, int64_t time) {
    unsigned char *binary = memmem(it->write.bytes, it->write.size, BINARY, sizeof BINARY);
    uint32_t key = htonl(KEYS * (it - all + 1) + it->writes % KEYS);
    memcpy(binary - sizeof key, &key, sizeof key);
    memcpy(binary + sizeof BINARY, &time, STAMP);
    ++it->writes;
    it->sum_written += (uint64_t)time;
    return &it->write;
}

static void take_event(struct connection *it) {
    int64_t time;
    if (it->size < PLACE + sizeof BINARY + STAMP || memcmp(it->frame + PLACE, BINARY, sizeof BINARY))
        fail("an event without its time");
    memcpy(&time, it->frame + PLACE + sizeof BINARY, STAMP);
    if (it->events < most)
        delays[(it - all) * most + it->events] = it->read_at - time;
    ++it->events;
    it->sum_read += (uint64_t)time;
    it->event_at = it->read_at;
}

static void *write_on(void *given) {
    struct connection *it = given;
    int64_t time = 0;
    for (int64_t due = start + interval / 2; due < finish; due += interval) {
        if (time < due)
            sleep_until(due);
        time = now();
        if (time >= finish)
            break;
        ask(it, next_write(it, time));
    }
    sleep_until(finish);
    return 0;
}

static void *read_on(void *given) {
    struct connection *it = given;
    for (enum kind kind = BEGIN; kind != END; kind = next_frame(it))
        if (kind == EVENT)
            take_event(it);
    return 0;
}

/* Client 0 writes first, and ends the game by deleting both tables. */
static void *play(void *given) {
    struct connection *it = given;
    sleep_until(start);
    if (it == &all[0])
        send_request(it, next_write(it, now()));
    for (int ended = 0; !ended || it->replies < it->asked;) {
        enum kind kind = next_frame(it);
        ended |= kind == END;
        if (kind != EVENT)
            continue;
        take_event(it);
        if (it == &all[1] || it->read_at < finish) {
            send_request(it, next_write(it, now()));
        } else {
            send_request(it, &plan[0][DELETE]);
            send_request(it, &plan[1][DELETE]);
        }
    }
    return 0;
}

static void open_connection(struct connection *it, int port, const struct request *write) {
    struct sockaddr_in address = {.sin_family = AF_INET, .sin_port = htons(port), .sin_addr.s_addr = htonl(INADDR_LOOPBACK)};
    struct timeval patience = {.tv_sec = PATIENCE};
    int one = 1;
    it->write = *write;
    it->socket = socket(AF_INET, SOCK_STREAM, 0);
    if (it->socket < 0 || connect(it->socket, (struct sockaddr *)&address, sizeof address))
        fail("connect");
    setsockopt(it->socket, IPPROTO_TCP, TCP_NODELAY, &one, sizeof one);
    setsockopt(it->socket, SOL_SOCKET, SO_RCVTIMEO, &patience, sizeof patience);
}

static void check(const struct connection *it, uint64_t commits, uint64_t sum) {
    const char *times = it->sum_read == sum ? "" : ", and other times";
    if (it->events == commits && it->sum_read == sum)
        return;
    fprintf(stderr, "connection %d has read %ld events of %ld commits%s\n", (int)(it - all), (long)it->events, (long)commits, times);
    exit(1);
}

static int compare(const void *one, const void *other) {
    int64_t a = *(const int64_t *)one, b = *(const int64_t *)other;
    return (a > b) - (a < b);
}

/* The median and the 99th percentile of all delays, by the nearest rank. */
static void print_delays(size_t size) {
    qsort(delays, size, sizeof *delays, compare);
    for (; size && !*delays; --size)
        ++delays;
    if (size)
        printf(" %.2f %.2f", delays[(50 * size + 99) / 100 - 1] / 1e3, delays[(99 * size + 99) / 100 - 1] / 1e3);
    printf("\n");
}

/* Writers have the first connections. The time of the start is one in which all threads can begin. */
static void start_all(int port, int writers, int count, int milliseconds) {
    int is_game = !writers;
    for (int at = 0; at < count; ++at)
        open_connection(&all[at], port, &plan[is_game ? at : 0][WRITE]);
    for (int table = 0; table < TABLES; ++table)
        ask(&all[0], &plan[table][CREATE]);
    for (int at = writers; at < count; ++at)
        ask(&all[at], &plan[is_game ? 1 - at : 0][SUBSCRIBE]);
    if (!(delays = calloc(count * most + 1, sizeof *delays)))
        fail("memory");
    start = now() + SECOND / 20;
    finish = start + (int64_t)milliseconds * SECOND / 1000;
    for (int at = 0; at < count; ++at)
        pthread_create(&all[at].thread, 0, is_game ? play : at < writers ? write_on : read_on, &all[at]);
}

static void end_load(int writers, int count) {
    uint64_t commits = 0, sum = 0;
    for (int at = 0; at < writers; ++at) {
        pthread_join(all[at].thread, 0);
        commits += all[at].writes;
        sum += all[at].sum_written;
    }
    int64_t stop = now(), last = stop;
    ask(&all[0], &plan[0][DELETE]);
    for (int at = writers; at < count; ++at) {
        pthread_join(all[at].thread, 0);
        check(&all[at], commits, sum);
        last = all[at].event_at > last ? all[at].event_at : last;
    }
    printf("%.2f %.2f", commits * 1e9 / (stop - start), commits * 1e9 / (last - start));
}

static void end_game(void) {
    for (int at = 0; at < 2; ++at)
        pthread_join(all[at].thread, 0);
    for (int at = 0; at < 2; ++at)
        check(&all[at], all[1 - at].writes, all[1 - at].sum_written);
    printf("%.2f", all[0].events * 1e9 / (all[0].event_at - start));
}

int main(int words, char **word) {
    if (words != 6 || atoi(word[2]) + atoi(word[3]) > CONNECTIONS)
        return 2;
    int writers = atoi(word[2]), count = writers ? writers + atoi(word[3]) : 2, rate = atoi(word[4]), milliseconds = atoi(word[5]);
    interval = rate ? SECOND / rate : 0;
    most = !writers ? (size_t)TRIPS * milliseconds : rate ? writers * ((size_t)rate * milliseconds / 1000 + 1) : 0;
    read_plan();
    start_all(atoi(word[1]), writers, count, milliseconds);
    writers ? end_load(writers, count) : end_game();
    print_delays(count * most);
    return 0;
}
