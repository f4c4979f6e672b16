/* Commands at fixed moments, whatever becomes of those before them: an open loop, for bench/compare.
 *
 *     open_loop PORT SOCKETS RATE SECONDS ASKED WANTED TIMES
 *
 * Command n is due n / RATE seconds after the start, and socket n mod SOCKETS sends it as soon as that moment has come. A time
 * counts from there, so what had to wait behind a pause has its wait in it. ASKED is a file of commands and WANTED one of as many
 * replies; command n is the nth of them, and behind the last comes the first. Each byte that comes is compared with the byte that
 * is due. An error may come in place of a reply; the first one is printed on standard error.
 *
 * TIMES gets three numbers of 64 bits for each command, which are nanoseconds of CLOCK_MONOTONIC: when it was due, when this
 * program came to it, and when its reply was whole. Prints one line:
 *
 *     errors E busy B
 *
 * 'busy' is the share of the time that it ran. Ends with status 1, and a line that says why, where any other byte comes, a socket
 * is closed, or replies are missing ten seconds after the last command.
 */
#define _GNU_SOURCE
#include <arpa/inet.h>
#include <errno.h>
#include <fcntl.h>
#include <netinet/in.h>
#include <netinet/tcp.h>
#include <stdint.h>
#include <stdio.h>
#include <stdlib.h>
#include <string.h>
#include <sys/epoll.h>
#include <sys/prctl.h>
#include <sys/resource.h>
#include <sys/socket.h>
#include <time.h>
#include <unistd.h>

#include "../tests/lib/texts.h"

#define SECOND 1000000000ull

enum { ROOM = 1 << 18, EVENTS = 256, PATIENCE = 10 };

/* One of the sockets. It sends its commands in turn, and the next is that behind by the number of sockets. */
struct sender {
    int socket;
    /* the command that it sends and how much of it is sent, and the one whose reply is due and how much of that has come */
    long asks, waits;
    size_t sent, taken;
    /* whether an error comes in place of that reply, and whether the socket takes nothing for now */
    int is_error, is_full;
};

/* The moments of a command. */
struct moments {
    uint64_t due, begun, done;
};

static struct text asked, wanted;
static struct sender *senders;
static struct moments *times;
static long sockets, commands, answered, errors;
static int epoll;

static uint64_t now(void) {
    struct timespec at;
    clock_gettime(CLOCK_MONOTONIC, &at);
    return at.tv_sec * SECOND + at.tv_nsec;
}

static double used(void) {
    struct rusage it;
    getrusage(RUSAGE_SELF, &it);
    return it.ru_utime.tv_sec + it.ru_stime.tv_sec + (it.ru_utime.tv_usec + it.ru_stime.tv_usec) / 1e6;
}

static void end_wrong(long command, const char *bytes, size_t count, const char *why) {
    fprintf(stderr, "command %ld: '", command);
    show(bytes, count);
    fprintf(stderr, "' %s\n", why);
    exit(1);
}

/* ---- commands ---- */

static void watch(struct sender *it, int call, uint32_t events) {
    struct epoll_event event = {.events = events, .data = {.ptr = it}};
    if (epoll_ctl(epoll, call, it->socket, &event)) fail("epoll_ctl");
}

static void connect_to(struct sender *it, int port) {
    struct sockaddr_in address = {.sin_family = AF_INET, .sin_port = htons(port), .sin_addr = {htonl(INADDR_LOOPBACK)}};
    int yes = 1;
    it->socket = socket(AF_INET, SOCK_STREAM, 0);
    if (it->socket < 0 || connect(it->socket, (struct sockaddr *)&address, sizeof address)) fail("connect");
    setsockopt(it->socket, IPPROTO_TCP, TCP_NODELAY, &yes, sizeof yes);
    if (fcntl(it->socket, F_SETFL, O_NONBLOCK)) fail("fcntl");
    watch(it, EPOLL_CTL_ADD, EPOLLIN);
}

/* Sends those of a socket's commands that are below `end`, until it takes no more. */
static void send_on(struct sender *it, long end) {
    while (it->asks < end) {
        int text = it->asks % asked.count;
        size_t from = place_of(&asked, text) + it->sent, length = place_of(&asked, text + 1) - from;
        ssize_t count = send(it->socket, asked.bytes + from, length, MSG_NOSIGNAL);
        if (count < 0 && errno == EINTR) continue;
        if (count < 0 && errno != EAGAIN) fail("send");
        if (it->is_full != (count < 0)) {
            it->is_full = count < 0;
            watch(it, EPOLL_CTL_MOD, it->is_full ? EPOLLIN | EPOLLOUT : EPOLLIN);
        }
        if (count < 0) return;
        it->sent += count;
        if ((size_t)count < length) continue;
        it->asks += sockets;
        it->sent = 0;
    }
}

/* ---- replies ---- */

static void end_reply(struct sender *it, uint64_t moment) {
    times[it->waits].done = moment;
    it->waits += sockets;
    it->taken = it->is_error = 0;
    answered++;
}

/* Takes as much of an error as came: how many bytes that is. */
static size_t take_error(struct sender *it, const char *bytes, size_t count, uint64_t moment) {
    const char *end = memchr(bytes, '\n', count);
    if (!it->is_error && !errors++) {
        fprintf(stderr, "command %ld: '", it->waits);
        show(bytes, count);
        fprintf(stderr, "'\n");
    }
    it->is_error = 1;
    if (!end) return count;
    end_reply(it, moment);
    return end + 1 - bytes;
}

static size_t take_reply(struct sender *it, const char *bytes, size_t count, uint64_t moment) {
    int text = it->waits % wanted.count;
    const char *due = wanted.bytes + place_of(&wanted, text);
    size_t length = place_of(&wanted, text + 1) - place_of(&wanted, text);
    if (it->is_error || (!it->taken && *bytes == '-' && *due != '-')) return take_error(it, bytes, count, moment);
    size_t part = count < length - it->taken ? count : length - it->taken;
    if (memcmp(bytes, due + it->taken, part)) end_wrong(it->waits, bytes, count, "came where its reply was due");
    it->taken += part;
    if (it->taken == length) end_reply(it, moment);
    return part;
}

static void take_all(struct sender *it) {
    static char room[ROOM];
    ssize_t count = recv(it->socket, room, ROOM, 0);
    if (count < 0 && (errno == EAGAIN || errno == EINTR)) return;
    if (count <= 0) end_wrong(it->waits, "", 0, "is the next of a socket that was closed");
    uint64_t moment = now();
    for (ssize_t at = 0; at < count;) {
        if (it->waits == it->asks) end_wrong(it->waits, room + at, count - at, "came before it was sent");
        at += take_reply(it, room + at, count - at, moment);
    }
}

/* ---- the loop ---- */

/* Waits for sockets until this moment at most. */
static void attend_until(uint64_t moment, long end) {
    struct epoll_event events[EVENTS];
    uint64_t before = now(), left = moment > before ? moment - before : 0;
    struct timespec most = {.tv_sec = left / SECOND, .tv_nsec = left % SECOND};
    int ready = epoll_pwait2(epoll, events, EVENTS, &most, NULL);
    for (int n = 0; n < ready; n++) {
        if (events[n].events & EPOLLOUT) send_on(events[n].data.ptr, end);
        if (events[n].events & ~EPOLLOUT) take_all(events[n].data.ptr);
    }
}

static void run(uint64_t start, double rate) {
    long end = 0;
    while (answered < commands) {
        for (uint64_t moment = now(); end < commands; end++) {
            times[end].due = start + (uint64_t)(end / rate * SECOND);
            if (times[end].due > moment) break;
            times[end].begun = moment;
            struct sender *it = &senders[end % sockets];
            if (!it->is_full) send_on(it, end + 1);
        }
        attend_until(end < commands ? times[end].due : now() + SECOND, end);
        if (end == commands && now() > times[commands - 1].due + PATIENCE * SECOND) {
            fprintf(stderr, "%ld of %ld commands are unanswered\n", commands - answered, commands);
            exit(1);
        }
    }
}

static void write_times(const char *name) {
    FILE *file = fopen(name, "w");
    if (!file || fwrite(times, sizeof *times, commands, file) != (size_t)commands || fclose(file)) fail(name);
}

int main(int count, char **words) {
    if (count != 8) return 2;
    double rate = atof(words[3]);
    sockets = atol(words[2]);
    commands = rate * atof(words[4]);
    asked = read_text(words[5]);
    wanted = read_text(words[6]);
    if (sockets < 1 || commands < 1 || asked.count != wanted.count) return 2;
    senders = got(calloc(sockets, sizeof *senders));
    times = got(calloc(commands, sizeof *times));
    epoll = epoll_create1(0);
    if (epoll < 0) fail("epoll_create1");
    /* (the system may end a wait that much later than it was to) */
    prctl(PR_SET_TIMERSLACK, 1);
    for (long n = 0; n < sockets; n++) {
        senders[n].asks = senders[n].waits = n;
        connect_to(&senders[n], atoi(words[1]));
    }
    uint64_t start = now() + SECOND / 10;
    double before = used();
    run(start, rate);
    printf("errors %ld busy %.3f\n", errors, (used() - before) / ((now() - start) / 1e9));
    write_times(words[7]);
    return 0;
}
