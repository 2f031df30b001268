/* Measures how long busy clients of a service wait for their replies, beside others that want nothing of it or too much.
 *
 * Usage: busy PORT SECONDS FILE [KIND COUNT]..
 *
 * FILE has the lines of the busy clients: those of one client, an empty line, those of the next one. Each client sends a line once the reply to the
 * one before has come, to the end of its lines. With `busy COUNT` so many clients send the lines of the first one again and again for SECONDS.
 * Another KIND: `idle` says nothing; `slow` sends a byte a second that ends no line; `mute` sends a mebibyte of lines and never reads a reply; `flood`
 * sends 300,000 empty lines a second, and drops the replies.
 *
 * Prints one line: replies, replies a second, and the time to a reply in microseconds: of the fastest half, of 99 in 100, and the longest.
 */
#define _GNU_SOURCE
#include <arpa/inet.h>
#include <errno.h>
#include <fcntl.h>
#include <netinet/in.h>
#include <netinet/tcp.h>
#include <stdio.h>
#include <stdlib.h>
#include <string.h>
#include <sys/epoll.h>
#include <sys/socket.h>
#include <time.h>
#include <unistd.h>

enum { IDLE, SLOW, MUTE, FLOOD, KINDS };
static const char *const names[KINDS] = {"idle", "slow", "mute", "flood"};
/* So many empty lines are sent every hundredth of a second. */
enum { LINES = 3000 };

struct busy {
    int socket;
    char *line, *next, *end;
    double at;
};

static double now(void)
{
    struct timespec t;
    clock_gettime(CLOCK_MONOTONIC, &t);
    return t.tv_sec + t.tv_nsec * 1e-9;
}

static void fail(const char *what)
{
    perror(what);
    exit(1);
}

static int dial(int port, int buffer)
{
    int s = socket(AF_INET, SOCK_STREAM, 0), one = 1;
    struct sockaddr_in a = {.sin_family = AF_INET, .sin_port = htons(port)};
    a.sin_addr.s_addr = htonl(INADDR_LOOPBACK);
    if (buffer)
        setsockopt(s, SOL_SOCKET, SO_RCVBUF, &buffer, sizeof buffer);
    if (s < 0 || connect(s, (void *)&a, sizeof a))
        fail("connect");
    setsockopt(s, IPPROTO_TCP, TCP_NODELAY, &one, sizeof one);
    return s;
}

static int compare(const void *a, const void *b)
{
    double x = *(const double *)a, y = *(const double *)b;
    return (x > y) - (x < y);
}

/* Sends the next line of a client, if there is one. */
static int ask(struct busy *b, int again)
{
    if (b->next == b->end && again)
        b->next = b->line;
    if (b->next == b->end)
        return 0;
    char *stop = memchr(b->next, '\n', b->end - b->next);
    size_t length = stop + 1 - b->next;
    b->at = now();
    if (write(b->socket, b->next, length) != (ssize_t)length)
        fail("write");
    b->next += length;
    return 1;
}

int main(int count, char **words)
{
    if (count < 4 || count % 2)
        return fprintf(stderr, "usage: busy PORT SECONDS FILE [KIND COUNT]..\n"), 2;
    int port = atoi(words[1]), wanted = 0, others[KINDS] = {0}, *sockets[KINDS];
    double seconds = atof(words[2]);
    for (int k = 4; k < count; k += 2) {
        int kind = 0;
        while (kind < KINDS && strcmp(names[kind], words[k]))
            kind++;
        if (kind < KINDS)
            others[kind] = atoi(words[k + 1]);
        else if (!strcmp(words[k], "busy"))
            wanted = atoi(words[k + 1]);
        else
            return fprintf(stderr, "busy: unknown kind %s\n", words[k]), 2;
    }
    /* The shares of the busy ones. */
    FILE *file = fopen(words[3], "r");
    if (!file)
        fail(words[3]);
    static char text[1 << 24];
    size_t length = fread(text, 1, sizeof text, file);
    struct busy *all = calloc(65536, sizeof *all);
    int clients = 0;
    for (char *at = text; at < text + length;) {
        char *stop = memmem(at, text + length - at, "\n\n", 2);
        stop = stop ? stop + 1 : text + length;
        all[clients++] = (struct busy){.line = at, .next = at, .end = stop};
        at = stop + 1;
    }
    int again = wanted > 0;
    if (again)
        clients = wanted;
    for (int k = 1; again && k < clients; k++)
        all[k] = all[0];
    int poll = epoll_create1(0);
    for (int kind = 0; kind < KINDS; kind++) {
        sockets[kind] = calloc(others[kind] + 1, sizeof(int));
        for (int k = 0; k < others[kind]; k++) {
            int s = sockets[kind][k] = dial(port, kind == MUTE ? 4096 : 0);
            if (kind != IDLE)
                fcntl(s, F_SETFL, O_NONBLOCK);
        }
    }
    static char empty[LINES], asked[1 << 20], buffer[1 << 16];
    memset(empty, '\n', sizeof empty);
    memset(asked, 'x', sizeof asked);
    for (size_t k = 0; k < sizeof asked; k += 256) {
        memcpy(asked + k, "STATE ", 6);
        asked[k + 255] = '\n';
    }
    /* Those that never read have three seconds for what they send, and the service for what it replies. */
    size_t *sent = calloc(others[MUTE] + 1, sizeof *sent);
    for (double end = now() + 3; others[MUTE] && now() < end; usleep(10000))
        for (int k = 0; k < others[MUTE]; k++) {
            ssize_t n = write(sockets[MUTE][k], asked + sent[k], sizeof asked - sent[k]);
            sent[k] += n > 0 ? n : 0;
        }
    for (int k = 0; k < clients; k++) {
        all[k].socket = dial(port, 0);
        struct epoll_event e = {.events = EPOLLIN, .data.u32 = k};
        epoll_ctl(poll, EPOLL_CTL_ADD, all[k].socket, &e);
    }
    size_t room = 1 << 22, replies = 0;
    double *waits = malloc(room * sizeof *waits), begun = now(), second = begun + 1;
    int going = clients;
    for (int k = 0; k < clients; k++)
        ask(&all[k], again);
    struct epoll_event events[256];
    double tick = begun;
    while (going && now() < begun + seconds) {
        if (now() > second) {
            second += 1;
            for (int k = 0; k < others[SLOW]; k++)
                if (write(sockets[SLOW][k], "z", 1) < 0 && errno != EAGAIN)
                    fail("slow");
        }
        if (others[FLOOD] && now() > tick) {
            tick += 0.01;
            for (int k = 0; k < others[FLOOD]; k++) {
                while (read(sockets[FLOOD][k], buffer, sizeof buffer) > 0)
                    ;
                (void)!write(sockets[FLOOD][k], empty, sizeof empty);
            }
        }
        int n = epoll_wait(poll, events, 256, others[FLOOD] ? 5 : 100);
        for (int j = 0; j < n; j++) {
            unsigned k = events[j].data.u32;
            ssize_t got = read(all[k].socket, buffer, sizeof buffer);
            if (got <= 0)
                fail("a busy client was ended");
            if (buffer[got - 1] != '\n')
                continue;
            if (replies < room)
                waits[replies++] = now() - all[k].at;
            going -= !ask(&all[k], again);
        }
    }
    double took = now() - begun;
    if (!replies)
        return fprintf(stderr, "busy: no reply\n"), 1;
    qsort(waits, replies, sizeof *waits, compare);
    printf("%zu replies, %.0f a second, half within %.1f, 99 in 100 within %.1f, longest %.1f\n", replies, replies / took,
           waits[replies / 2] * 1e6, waits[replies * 99 / 100] * 1e6, waits[replies - 1] * 1e6);
    return 0;
}
