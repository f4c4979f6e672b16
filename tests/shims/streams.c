// Stands before the C library's reads of standard input and writes of standard output. Settings that begin with READ_ and with
// WRITE_ say how such calls go: MOST, how many bytes one moves at most; FAILS, behind how many bytes they fail; PAUSE, the error
// that comes once before each. What each moved is added to the file that CALLS names.
#include <errno.h>
#include <fcntl.h>
#include <limits.h>
#include <stdio.h>
#include <stdlib.h>
#include <unistd.h>

extern ssize_t __read(int file, void *bytes, size_t count);
extern ssize_t __write(int file, const void *bytes, size_t count);

struct end {
    long most, fails, moved;
    int pause, has_paused, failure;
};

static struct end input, output;
static int calls = -1;

static long setting(const char *name, long otherwise) {
    const char *text = getenv(name);
    return text ? atol(text) : otherwise;
}

__attribute__((constructor)) static void begin(void) {
    input.most = setting("READ_MOST", LONG_MAX);
    input.fails = setting("READ_FAILS", LONG_MAX);
    input.pause = (int)setting("READ_PAUSE", 0);
    input.failure = ECONNRESET;
    output.most = setting("WRITE_MOST", LONG_MAX);
    output.fails = setting("WRITE_FAILS", LONG_MAX);
    output.pause = (int)setting("WRITE_PAUSE", 0);
    output.failure = EPIPE;
    const char *name = getenv("CALLS");
    if (name) {
        calls = open(name, O_CREAT | O_WRONLY | O_APPEND, 0600);
    }
}

// How many of so many bytes a call may move: -1 where it pauses or fails.
static long allowed(struct end *end, size_t count) {
    long left = end->fails - end->moved, most = end->most < left ? end->most : left;
    end->has_paused = end->pause && !end->has_paused;
    if (end->has_paused || left <= 0) {
        errno = end->has_paused ? end->pause : end->failure;
        return -1;
    }
    return most < (long)count ? most : (long)count;
}

static ssize_t moved(struct end *end, const char *verb, ssize_t count) {
    end->moved += count > 0 ? count : 0;
    if (calls >= 0) {
        dprintf(calls, "%s %zd\n", verb, count);
    }
    return count;
}

ssize_t read(int file, void *bytes, size_t count) {
    if (file != STDIN_FILENO) {
        return __read(file, bytes, count);
    }
    long most = allowed(&input, count);
    return most < 0 ? -1 : moved(&input, "read", __read(file, bytes, (size_t)most));
}

ssize_t write(int file, const void *bytes, size_t count) {
    if (file != STDOUT_FILENO) {
        return __write(file, bytes, count);
    }
    long most = allowed(&output, count);
    return most < 0 ? -1 : moved(&output, "write", __write(file, bytes, (size_t)most));
}
