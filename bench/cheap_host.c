/* A host that costs next to nothing, for bench/compare: it keeps no keys, and answers GET and MGET of the keys of the loads by their
 * values, and all else by OK.
 *
 *     cheap_host PORT KEYS
 *
 * A key ends in its number in twelve digits, below KEYS. One thread serves all links. A command has to be an array of bulk strings.
 */
#include <arpa/inet.h>
#include <errno.h>
#include <netinet/in.h>
#include <netinet/tcp.h>
#include <stdio.h>
#include <stdlib.h>
#include <string.h>
#include <sys/epoll.h>
#include <sys/socket.h>
#include <unistd.h>

enum { ROOM = 1 << 20, EVENTS = 64, VALUE = 64, BULK = VALUE + 7, DIGITS = 12 };

struct link {
    int socket;
    size_t came, due;
    char in[ROOM], out[ROOM];
};

static char (*bulks)[BULK + 1];
static long keys;

static void fail(const char *what) {
    perror(what);
    exit(1);
}

/* As `value` of bench/compare. */
static void make_bulks(void) {
    bulks = calloc(keys, sizeof *bulks);
    if (!bulks) fail("calloc");
    for (long number = 0; number < keys; number++) {
        char text[256] = "";
        for (int i = 0; i < 8; i++) sprintf(text + strlen(text), "value %ld ", number);
        text[VALUE] = 0;
        sprintf(bulks[number], "$%d\r\n%s\r\n", VALUE, text);
    }
}

static void flush(struct link *link) {
    for (size_t sent = 0; sent < link->due;) {
        ssize_t count = send(link->socket, link->out + sent, link->due - sent, MSG_NOSIGNAL);
        if (count < 0 && errno != EINTR) break;
        if (count > 0) sent += count;
    }
    link->due = 0;
}

static void put(struct link *link, const char *text, size_t length) {
    if (link->due + length > ROOM) flush(link);
    memcpy(link->out + link->due, text, length);
    link->due += length;
}

/* The number behind a type byte at *at, which comes to stand behind the line. False: the line isn't whole. */
static int number_at(const char **at, const char *end, long *number) {
    const char *line = memchr(*at, '\n', end - *at);
    if (!line) return 0;
    *number = strtol(*at + 1, NULL, 10);
    *at = line + 1;
    return 1;
}

/* Answers a command that is whole, and gives where it ends; else NULL. */
static const char *answer(struct link *link, const char *at, const char *end) {
    long words, length;
    if (at == end || !number_at(&at, end, &words)) return NULL;
    char kind = 0;
    size_t due = link->due;
    for (long word = 0; word < words; word++) {
        if (at == end || !number_at(&at, end, &length) || end - at < length + 2) {
            link->due = due;
            return NULL;
        }
        if (word == 0) {
            kind = at[0] & 0x5f;
            if (kind == 'M') {
                char head[32];
                put(link, head, sprintf(head, "*%ld\r\n", words - 1));
            }
        } else if (kind == 'G' || kind == 'M') {
            char digits[DIGITS + 1] = "";
            if (length >= DIGITS) memcpy(digits, at + length - DIGITS, DIGITS);
            long key = strtol(digits, NULL, 10);
            if (key < 0 || key >= keys) put(link, "$-1\r\n", 5);
            else put(link, bulks[key], BULK);
        }
        at += length + 2;
    }
    if (kind != 'G' && kind != 'M') put(link, "+OK\r\n", 5);
    return at;
}

/* False: the link has ended. */
static int serve(struct link *link) {
    ssize_t count = recv(link->socket, link->in + link->came, ROOM - link->came, 0);
    if (count <= 0) return count < 0 && errno == EINTR;
    link->came += count;
    const char *at = link->in, *end = link->in + link->came, *next;
    while ((next = answer(link, at, end))) at = next;
    link->came = end - at;
    memmove(link->in, at, link->came);
    flush(link);
    return link->came < ROOM;
}

int main(int count, char **words) {
    if (count != 3) {
        fprintf(stderr, "usage: cheap_host PORT KEYS\n");
        return 2;
    }
    keys = strtol(words[2], NULL, 10);
    make_bulks();
    struct sockaddr_in address = {.sin_family = AF_INET, .sin_port = htons(atoi(words[1])), .sin_addr.s_addr = htonl(INADDR_LOOPBACK)};
    int on = 1, listener = socket(AF_INET, SOCK_STREAM, 0), poll = epoll_create1(0);
    setsockopt(listener, SOL_SOCKET, SO_REUSEADDR, &on, sizeof on);
    if (bind(listener, (struct sockaddr *)&address, sizeof address) || listen(listener, 1024)) fail("listen");
    struct epoll_event event = {.events = EPOLLIN, .data.ptr = NULL}, events[EVENTS];
    epoll_ctl(poll, EPOLL_CTL_ADD, listener, &event);
    for (;;) {
        int many = epoll_wait(poll, events, EVENTS, -1);
        for (int i = 0; i < many; i++) {
            struct link *link = events[i].data.ptr;
            if (!link) {
                int stream = accept(listener, NULL, NULL);
                if (stream < 0) continue;
                setsockopt(stream, IPPROTO_TCP, TCP_NODELAY, &on, sizeof on);
                if (!(link = malloc(sizeof *link))) fail("malloc");
                link->socket = stream;
                link->came = link->due = 0;
                event.data.ptr = link;
                epoll_ctl(poll, EPOLL_CTL_ADD, stream, &event);
            } else if (!serve(link)) {
                close(link->socket);
                free(link);
            }
        }
    }
}
