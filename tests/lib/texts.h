/* Files of commands and of replies, for tests/lib/asker.c and bench/open_loop.c. */
#include <fcntl.h>
#include <stdio.h>
#include <stdlib.h>
#include <string.h>
#include <sys/stat.h>
#include <unistd.h>

/* Values one behind the other, twice: a round that begins at any of them has all the others behind it. A piece is a value that
 * is no array, or the head of an array. */
struct text {
    char *bytes;
    /* where each piece begins, and where the last ends */
    size_t *places;
    /* the first piece of each value, and the piece behind the last value */
    int *firsts;
    int count;
};

static void fail(const char *call) {
    perror(call);
    exit(1);
}

static void *got(void *memory) {
    if (!memory) fail("malloc");
    return memory;
}

/* Where the piece ends that begins here, and how many values an array's head announces. */
static const char *end_of_piece(const char *at, long *values) {
    long size = atol(at + 1);
    const char *behind = strstr(at, "\r\n") + 2;
    *values = *at == '*' && size > 0 ? size : 0;
    return *at == '$' && size >= 0 ? behind + size + 2 : behind;
}

static char *read_twice(const char *name, size_t *length) {
    struct stat about;
    int file = open(name, O_RDONLY);
    if (file < 0 || fstat(file, &about)) fail(name);
    *length = about.st_size;
    char *bytes = got(calloc(1, 2 * *length + 1));
    for (size_t read_in = 0; read_in < *length;) {
        ssize_t count = read(file, bytes + read_in, *length - read_in);
        if (count <= 0) fail(name);
        read_in += count;
    }
    close(file);
    memcpy(bytes + *length, bytes, *length);
    return bytes;
}

static struct text read_text(const char *name) {
    struct text it = {0};
    size_t length;
    it.bytes = read_twice(name, &length);
    /* (a piece has three bytes at least) */
    it.places = got(malloc(sizeof *it.places * (length + 2)));
    it.firsts = got(malloc(sizeof *it.firsts * (length + 2)));
    int pieces = 0, values = 0;
    long left = 0;
    for (size_t at = 0; at < 2 * length; pieces++) {
        long more;
        if (left == 0) {
            it.firsts[values++] = pieces;
            left = 1;
        }
        it.places[pieces] = at;
        at = end_of_piece(it.bytes + at, &more) - it.bytes;
        left += more - 1;
    }
    it.places[pieces] = 2 * length;
    it.firsts[values] = pieces;
    it.count = values / 2;
    return it;
}

static size_t place_of(const struct text *it, int value) {
    return it->places[it->firsts[value]];
}

/* Prints bytes to standard error, at most 80, with their ends of lines as letters. */
static void show(const char *bytes, size_t count) {
    for (size_t n = 0; n < count && n < 80; n++)
        if (bytes[n] == '\r' || bytes[n] == '\n') fputs(bytes[n] == '\r' ? "\\r" : "\\n", stderr);
        else fputc(bytes[n], stderr);
}
