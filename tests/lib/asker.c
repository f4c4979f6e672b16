/* Sockets that send commands again and again and compare each byte that comes with the byte that is due, for tests/lib/askers.py
 * and bench/compare.
 *
 *     asker [OPTION..] PORT SOCKETS ROUNDS ASKED WANTED COUNTS
 *
 * ASKED is a file of commands, and WANTED one of as many replies. In a round a socket sends all commands at once and takes all
 * replies; socket n begins with command 37 n, so that a reply to another socket isn't its own. Each socket makes ROUNDS rounds.
 * Where ROUNDS is 0, it ends the round that it is in when SIGTERM comes. In place of a reply, or of a value in an array, one of
 * the errors of NAMED may come. A socket that is closed is left.
 *
 *     -p PIPELINE  a round is PIPELINE commands: those behind the ones that any socket sent last
 *     -n COMMANDS  no round begins once COMMANDS were sent
 *     -t THREADS   THREADS threads share the sockets
 *     -e           any error may come; the first one is printed on standard error
 *     -r           a socket that is closed connects again, and goes on with another round
 *     -w           prints 'ready' once all sockets are connected, begins at a line of input, and stays until the input ends
 *
 * COUNTS is a file of four numbers of 64 bits, which are always up to date: replies that came, and how many of them were such
 * errors or had one; sockets that were closed, and commands that these left without a reply. Prints one line about the rounds:
 *
 *     rounds R seconds S busy B p50_us C p99_us D p999_us E max_us F
 *
 * 'busy' is the share of the time that its threads ran. The times are those of a whole round, from its first byte sent to its
 * last byte read. Ends with status 1, and a line that says why, where any other byte comes, and where nothing comes for a minute.
 */
#include <arpa/inet.h>
#include <errno.h>
#include <fcntl.h>
#include <netinet/in.h>
#include <netinet/tcp.h>
#include <pthread.h>
#include <signal.h>
#include <stdint.h>
#include <stdio.h>
#include <stdlib.h>
#include <string.h>
#include <sys/epoll.h>
#include <sys/mman.h>
#include <sys/resource.h>
#include <sys/socket.h>
#include <time.h>
#include <unistd.h>

#include "texts.h"

enum { ROOM = 1 << 18, EVENTS = 256, PATIENCE = 60, APART = 37, MAX_THREADS = 64 };

static const char *const NAMED[] = {"-upstream failure\r\n", "-no upstream host\r\n", "-proxy busy\r\n"};

struct asker {
    struct thread *thread;
    int socket, number, is_open;
    /* the first command of its round, the one whose reply is due, and the piece of that reply */
    int first, due, piece;
    /* how far the commands are sent, and the replies taken */
    size_t sent, taken;
    char error[64];
    size_t error_length;
    /* whether an error is in the reply that is due */
    int is_named;
    long rounds;
    double since;
};

/* Some of the sockets, and the times of their rounds. */
struct thread {
    pthread_t id;
    int epoll, live;
    struct asker *askers;
    int count;
    char *room;
    double *times;
    long laps, room_for_laps;
};

static struct { uint64_t replies, named, closed, unanswered; } *counts;
static struct text asked, wanted;
static int port, pipeline, bears_errors, returns, waits;
static long most_rounds, most_commands, begun;
static volatile sig_atomic_t stops;

static double now(void) {
    struct timespec at;
    clock_gettime(CLOCK_MONOTONIC, &at);
    return at.tv_sec + at.tv_nsec / 1e9;
}

/* The processor time of all threads. */
static double used(void) {
    struct rusage it;
    getrusage(RUSAGE_SELF, &it);
    return it.ru_utime.tv_sec + it.ru_stime.tv_sec + (it.ru_utime.tv_usec + it.ru_stime.tv_usec) / 1e6;
}

static void add(uint64_t *number, uint64_t more) {
    __atomic_fetch_add(number, more, __ATOMIC_RELAXED);
}

static void stop(int number) {
    (void)number;
    stops = 1;
}

/* ---- a round ---- */

static void watch(struct asker *it, int is_new, uint32_t events) {
    struct epoll_event event = {.events = events, .data = {.ptr = it}};
    if (epoll_ctl(it->thread->epoll, is_new ? EPOLL_CTL_ADD : EPOLL_CTL_MOD, it->socket, &event)) fail("epoll_ctl");
}

static void connect_to(struct asker *it) {
    struct sockaddr_in address = {.sin_family = AF_INET, .sin_port = htons(port), .sin_addr = {htonl(INADDR_LOOPBACK)}};
    int yes = 1;
    it->socket = socket(AF_INET, SOCK_STREAM, 0);
    if (it->socket < 0 || connect(it->socket, (struct sockaddr *)&address, sizeof address)) fail("connect");
    setsockopt(it->socket, IPPROTO_TCP, TCP_NODELAY, &yes, sizeof yes);
    if (fcntl(it->socket, F_SETFL, O_NONBLOCK)) fail("fcntl");
    it->is_open = 1;
    watch(it, 1, EPOLLIN);
}

/* Sends as much of the rest of a round as the socket takes. While some is left, epoll tells when the socket takes more;
 * `is_told` says whether epoll does already. */
static void send_on(struct asker *it, int is_told) {
    size_t end = place_of(&asked, it->first + pipeline);
    while (it->sent < end) {
        ssize_t count = send(it->socket, asked.bytes + it->sent, end - it->sent, MSG_NOSIGNAL);
        if (count < 0 && errno == EINTR) continue;
        if (count < 0) break;
        it->sent += count;
    }
    if (is_told != (it->sent < end)) watch(it, 0, is_told ? EPOLLIN : EPOLLIN | EPOLLOUT);
}

/* Begins a round, if another one is to come. */
static int begin(struct asker *it) {
    if ((stops && it->rounds) || it->rounds == most_rounds) return 0;
    if (most_commands) {
        long before = __atomic_fetch_add(&begun, pipeline, __ATOMIC_RELAXED);
        if (before >= most_commands) return 0;
        it->first = before % asked.count;
    }
    it->due = it->first;
    it->piece = wanted.firsts[it->first];
    it->sent = place_of(&asked, it->first);
    it->taken = place_of(&wanted, it->first);
    it->error_length = it->is_named = 0;
    it->since = now();
    send_on(it, 0);
    return 1;
}

static void tell_wrong(struct asker *it, const char *bytes, size_t count) {
    fprintf(stderr, "socket %d, round %ld, reply %d of %d: '", it->number, it->rounds, it->due - it->first, pipeline);
    show(bytes, count);
    if (it->due == it->first + pipeline) {
        fputs("' came where nothing was due\n", stderr);
        exit(1);
    }
    fputs("' came where '", stderr);
    show(wanted.bytes + it->taken, place_of(&wanted, it->first + pipeline) - it->taken);
    fputs("' was due; its command is '", stderr);
    show(asked.bytes + place_of(&asked, it->due), place_of(&asked, it->due + 1) - place_of(&asked, it->due));
    fputs("'\n", stderr);
    exit(1);
}

/* Goes on with a piece: of this reply, or of the next one. */
static void go_on_with(struct asker *it, int piece) {
    it->piece = piece;
    it->taken = wanted.places[piece];
    if (piece < wanted.firsts[it->due + 1]) return;
    it->due++;
    if (it->is_named) add(&counts->named, 1);
    it->is_named = 0;
}

static int may_come(const char *error, size_t length) {
    static int is_told;
    for (size_t n = 0; n < sizeof NAMED / sizeof *NAMED; n++)
        if (length == strlen(NAMED[n]) && !memcmp(error, NAMED[n], length)) return 1;
    if (bears_errors && !__atomic_exchange_n(&is_told, 1, __ATOMIC_RELAXED))
        fprintf(stderr, "an error came: %.*s\n", (int)length, error);
    return bears_errors;
}

/* Takes a byte of an error that stands for a reply, or for a value in one. */
static void take_error(struct asker *it, char byte) {
    if (it->error_length < sizeof it->error) it->error[it->error_length++] = byte;
    if (byte != '\n') return;
    if (!may_come(it->error, it->error_length)) tell_wrong(it, it->error, it->error_length);
    it->error_length = 0;
    it->is_named = 1;
    go_on_with(it, it->piece == wanted.firsts[it->due] ? wanted.firsts[it->due + 1] : it->piece + 1);
}

static void take(struct asker *it, const char *bytes, size_t count) {
    while (count) {
        if (it->due == it->first + pipeline) tell_wrong(it, bytes, count);
        size_t begin = wanted.places[it->piece], end = wanted.places[it->piece + 1];
        if (it->error_length || (it->taken == begin && *bytes == '-' && wanted.bytes[begin] != '-')) {
            take_error(it, *bytes++);
            count--;
            continue;
        }
        size_t part = count < end - it->taken ? count : end - it->taken;
        if (memcmp(bytes, wanted.bytes + it->taken, part)) tell_wrong(it, bytes, count);
        bytes += part;
        count -= part;
        it->taken += part;
        if (it->taken == end) go_on_with(it, it->piece + 1);
    }
}

static void end_round(struct asker *it) {
    struct thread *own = it->thread;
    if (it->sent < place_of(&asked, it->first + pipeline)) {
        fprintf(stderr, "socket %d, round %ld: replies came before their commands were sent\n", it->number, it->rounds);
        exit(1);
    }
    if (own->laps == own->room_for_laps) {
        own->room_for_laps = 2 * own->room_for_laps + 1024;
        own->times = got(realloc(own->times, sizeof *own->times * own->room_for_laps));
    }
    own->times[own->laps++] = now() - it->since;
    it->rounds++;
}

/* Makes no more rounds; the socket stays open till all have ended. */
static void rest(struct asker *it) {
    it->is_open = 2;
    it->thread->live--;
}

static void leave(struct asker *it) {
    int was_open = it->is_open;
    add(&counts->closed, 1);
    add(&counts->unanswered, it->first + pipeline - it->due);
    it->is_open = 0;
    close(it->socket);
    if (was_open != 1) return;
    if (!returns) {
        it->thread->live--;
        return;
    }
    connect_to(it);
    if (!begin(it)) rest(it);
}

/* Reads once, and goes on with the round or with the next one. */
static void attend(struct asker *it, uint32_t events) {
    if (!it->is_open) return;
    if (events & EPOLLOUT) send_on(it, 1);
    if (!(events & ~EPOLLOUT)) return;
    ssize_t count = recv(it->socket, it->thread->room, ROOM, 0);
    if (count < 0 && (errno == EAGAIN || errno == EINTR)) return;
    if (count <= 0) return leave(it);
    int before = it->due;
    take(it, it->thread->room, count);
    add(&counts->replies, it->due - before);
    if (it->is_open == 1 && it->due == it->first + pipeline) {
        end_round(it);
        if (!begin(it)) rest(it);
    }
}

/* ---- threads ---- */

static void *serve_all(void *thread) {
    struct thread *own = thread;
    struct epoll_event events[EVENTS];
    double last = now();
    for (int n = 0; n < own->count; n++)
        if (!begin(&own->askers[n])) rest(&own->askers[n]);
    while (own->live) {
        int ready = epoll_wait(own->epoll, events, EVENTS, 1000);
        if (ready > 0) last = now();
        if (now() - last > PATIENCE) {
            fprintf(stderr, "%d sockets wait, and nothing came for a minute\n", own->live);
            exit(1);
        }
        for (int n = 0; n < ready; n++) attend(events[n].data.ptr, events[n].events);
    }
    return NULL;
}

/* Gives a thread some sockets, whose numbers begin at `first`, and connects them. */
static void prepare(struct thread *it, int first, int count) {
    it->epoll = epoll_create1(0);
    if (it->epoll < 0) fail("epoll_create1");
    it->live = it->count = count;
    it->room = got(malloc(ROOM));
    it->askers = got(calloc(count + 1, sizeof *it->askers));
    for (int n = 0; n < count; n++) {
        it->askers[n].thread = it;
        it->askers[n].number = first + n;
        it->askers[n].first = (long)(first + n) * APART % asked.count;
        connect_to(&it->askers[n]);
    }
}

static void run_all(struct thread *threads, int count) {
    for (int n = 1; n < count; n++)
        if (pthread_create(&threads[n].id, NULL, serve_all, &threads[n])) fail("pthread_create");
    serve_all(&threads[0]);
    for (int n = 1; n < count; n++) pthread_join(threads[n].id, NULL);
}

static int by_size(const void *one, const void *other) {
    double a = *(const double *)one, b = *(const double *)other;
    return (a > b) - (a < b);
}

static void print_rounds(struct thread *threads, int count, double seconds, double busy) {
    long laps = 0;
    for (int n = 0; n < count; n++) laps += threads[n].laps;
    if (laps == 0) return;
    double *times = got(malloc(sizeof *times * laps)), *end = times;
    for (int n = 0; n < count; n++)
        for (long lap = 0; lap < threads[n].laps; lap++) *end++ = threads[n].times[lap];
    qsort(times, laps, sizeof *times, by_size);
    printf("rounds %ld seconds %.6f busy %.3f p50_us %.0f p99_us %.0f p999_us %.0f max_us %.0f\n", laps, seconds, busy,
           times[laps / 2] * 1e6, times[laps * 99 / 100] * 1e6, times[laps * 999 / 1000] * 1e6, times[laps - 1] * 1e6);
}

/* ---- the command line ---- */

static void map_counts(const char *name) {
    int file = open(name, O_RDWR);
    if (file < 0) fail(name);
    counts = mmap(NULL, sizeof *counts, PROT_READ | PROT_WRITE, MAP_SHARED, file, 0);
    if (counts == MAP_FAILED) fail("mmap");
}

/* Takes the options: how many threads, or none if one is wrong. */
static int read_options(int count, char **words) {
    int threads = 1;
    for (int option; (option = getopt(count, words, "p:n:t:erw")) != -1;) switch (option) {
        case 'p': pipeline = atoi(optarg); break;
        case 'n': most_commands = atol(optarg); break;
        case 't': threads = atoi(optarg); break;
        case 'e': bears_errors = 1; break;
        case 'r': returns = 1; break;
        case 'w': waits = 1; break;
        default: return 0;
        }
    return threads <= MAX_THREADS ? threads : 0;
}

/* Waits for a line of input, or its end. */
static void await_input(void) {
    int byte;
    while ((byte = getchar()) != EOF && byte != '\n') {}
}

int main(int count, char **words) {
    static struct thread threads[MAX_THREADS];
    int some = read_options(count, words);
    if (some < 1 || count - optind != 6) return 2;
    words += optind;
    port = atoi(words[0]);
    int sockets = atoi(words[1]);
    most_rounds = atol(words[2]) ? atol(words[2]) : -1;
    asked = read_text(words[3]);
    wanted = read_text(words[4]);
    map_counts(words[5]);
    if (!pipeline) pipeline = asked.count;
    if (asked.count != wanted.count || pipeline > asked.count || pipeline < 1) return 2;
    signal(SIGTERM, stop);
    for (int n = 0; n < some; n++)
        prepare(&threads[n], sockets * n / some, sockets * (n + 1) / some - sockets * n / some);
    if (waits) {
        puts("ready");
        fflush(stdout);
        await_input();
    }
    double began = now(), before = used();
    run_all(threads, some);
    double seconds = now() - began;
    print_rounds(threads, some, seconds, (used() - before) / seconds / some);
    fflush(stdout);
    if (waits) await_input();
    return 0;
}
