// Stands before the C library's allocation: the call whose number REFUSED_CALL has finds no memory, each call whose number is
// a multiple of REFUSED_EVERY, and each for REFUSED_SIZE bytes or more; all others do. For each that finds none the file that
// REFUSED_FILE names grows by a byte.
#include <errno.h>
#include <fcntl.h>
#include <stdatomic.h>
#include <stddef.h>
#include <stdint.h>
#include <stdlib.h>
#include <unistd.h>

extern void *__libc_malloc(size_t size);
extern void *__libc_calloc(size_t count, size_t size);
extern void *__libc_realloc(void *block, size_t size);
extern void *__libc_memalign(size_t alignment, size_t size);

static atomic_long calls;
static long refused_call = -1;
static long refused_every = 0;
static size_t refused_size = SIZE_MAX;

__attribute__((constructor)) static void begin(void) {
    const char *number = getenv("REFUSED_CALL");
    if (number) {
        refused_call = atol(number);
    }
    const char *every = getenv("REFUSED_EVERY");
    if (every) {
        refused_every = atol(every);
    }
    const char *size = getenv("REFUSED_SIZE");
    if (size) {
        refused_size = strtoul(size, NULL, 10);
    }
    atomic_store(&calls, 0);
}

static void tell(void) {
    const char *name = getenv("REFUSED_FILE");
    int file = name ? open(name, O_CREAT | O_WRONLY | O_APPEND, 0600) : -1;
    if (file >= 0) {
        (void)!write(file, "x", 1);
        close(file);
    }
}

static int is_refused(size_t size) {
    int is_called = 0;
    if (refused_call >= 0 || refused_every > 0) {
        long number = atomic_fetch_add(&calls, 1) + 1;
        is_called = number == refused_call || (refused_every > 0 && number % refused_every == 0);
    }
    if (!is_called && size < refused_size) {
        return 0;
    }
    tell();
    errno = ENOMEM;
    return 1;
}

void *malloc(size_t size) { return is_refused(size) ? NULL : __libc_malloc(size); }

void *calloc(size_t count, size_t size) { return is_refused(count * size) ? NULL : __libc_calloc(count, size); }

void *realloc(void *block, size_t size) { return is_refused(size) ? NULL : __libc_realloc(block, size); }

void *memalign(size_t alignment, size_t size) { return is_refused(size) ? NULL : __libc_memalign(alignment, size); }

void *aligned_alloc(size_t alignment, size_t size) { return is_refused(size) ? NULL : __libc_memalign(alignment, size); }

int posix_memalign(void **block, size_t alignment, size_t size) {
    void *found = is_refused(size) ? NULL : __libc_memalign(alignment, size);
    if (!found) {
        return ENOMEM;
    }
    *block = found;
    return 0;
}
