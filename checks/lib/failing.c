/* Makes allocations, reads and writes of a program fail: loaded before the C library (LD_PRELOAD),
 * by checks/failures. What fails is said by variables of the environment:
 *
 *   FAILING_ALLOCATION=N  the Nth allocation, counted from 1, and all later ones; 0: none
 *   FAILING_ONLY=1        the Nth alone
 *   FAILING_WRITE=N       the Nth write to standard output, counted from 1, and all later ones
 *   FAILING_ROOM=N        each file takes N octets, and what would stand behind them is refused
 *   FAILING_INPUT=FILE    the input is this file; standard input, where none is named
 *   FAILING_PIECE=N       a read of the input gives N octets at most
 *   FAILING_HALT=1        every second read of the input is interrupted, the first of them too
 *   FAILING_READ=N        the Nth read of the input that isn't interrupted, and all later ones
 *   FAILING_CAUSE=N       the number of the error with which it fails; EIO, where none is given
 *   FAILING_TALLY=FILE    a file of 24 octets, which are told however the program ends: how many
 *                         allocations and how many writes to standard output were asked for, and
 *                         the most octets that were allocated at once
 *
 * An allocation is a call of the C library that takes memory, or takes more of it. The program has
 * one thread, so nothing here is locked. */
#define _GNU_SOURCE
#include <errno.h>
#include <fcntl.h>
#include <malloc.h>
#include <stddef.h>
#include <stdint.h>
#include <stdlib.h>
#include <sys/mman.h>
#include <sys/resource.h>
#include <sys/stat.h>
#include <sys/syscall.h>
#include <sys/uio.h>
#include <unistd.h>

/* The C library's own functions, by names that it has besides the standard ones. */
void *__libc_malloc(size_t size);
void *__libc_calloc(size_t count, size_t size);
void *__libc_realloc(void *piece, size_t size);
void *__libc_memalign(size_t align, size_t size);
void __libc_free(void *piece);

static struct {
    uint64_t allocations;
    uint64_t writes;
    uint64_t most;
} own, *tally = &own;

static uint64_t fails_at, write_fails_at, read_fails_at;
static int only;

/* How many octets are allocated. */
static uint64_t in_use;

/* How reads of the input go, which is this file. */
static struct stat input;
static uint64_t piece_size, reads;
static int halts, is_halted, cause;

static uint64_t number(const char *name) {
    const char *text = getenv(name);
    return text == NULL ? 0 : strtoull(text, NULL, 10);
}

static void share_tally(const char *path) {
    int file = open(path, O_RDWR | O_CLOEXEC);
    void *shared = mmap(NULL, sizeof *tally, PROT_READ | PROT_WRITE, MAP_SHARED, file, 0);
    if (file < 0 || shared == MAP_FAILED) {
        _exit(99);
    }
    close(file);
    tally = shared;
}

static void find_input(const char *path) {
    if ((path == NULL ? fstat(STDIN_FILENO, &input) : stat(path, &input)) != 0) {
        _exit(99);
    }
}

static void limit_files(rlim_t size) {
    struct rlimit limit = {size, size};
    if (setrlimit(RLIMIT_FSIZE, &limit) != 0) {
        _exit(99);
    }
}

__attribute__((constructor)) static void begin(void) {
    if (getenv("FAILING_TALLY") != NULL) {
        share_tally(getenv("FAILING_TALLY"));
    }
    if (getenv("FAILING_ROOM") != NULL) {
        limit_files(number("FAILING_ROOM"));
    }
    fails_at = number("FAILING_ALLOCATION");
    only = number("FAILING_ONLY") != 0;
    write_fails_at = number("FAILING_WRITE");
    read_fails_at = number("FAILING_READ");
    cause = getenv("FAILING_CAUSE") == NULL ? EIO : (int)number("FAILING_CAUSE");
    piece_size = number("FAILING_PIECE");
    halts = number("FAILING_HALT") != 0;
    find_input(getenv("FAILING_INPUT"));
    /* What was allocated before this is none of the program's. */
    tally->allocations = 0;
}

/* Counts an allocation. Whether it fails. */
static int is_refused(void) {
    uint64_t nth = ++tally->allocations;
    if (fails_at == 0 || nth < fails_at || (only && nth > fails_at)) {
        return 0;
    }
    errno = ENOMEM;
    return 1;
}

/* Notes a piece that was allocated, if it was, and gives it back. */
static void *noted(void *piece) {
    in_use += malloc_usable_size(piece);
    if (in_use > tally->most) {
        tally->most = in_use;
    }
    return piece;
}

void *malloc(size_t size) {
    return is_refused() ? NULL : noted(__libc_malloc(size));
}

void *calloc(size_t count, size_t size) {
    return is_refused() ? NULL : noted(__libc_calloc(count, size));
}

void *realloc(void *piece, size_t size) {
    uint64_t before = malloc_usable_size(piece);
    void *made = is_refused() ? NULL : __libc_realloc(piece, size);
    if (made != NULL) {
        in_use -= before;
    }
    return noted(made);
}

void *memalign(size_t align, size_t size) {
    return is_refused() ? NULL : noted(__libc_memalign(align, size));
}

void *aligned_alloc(size_t align, size_t size) {
    return memalign(align, size);
}

int posix_memalign(void **piece, size_t align, size_t size) {
    void *made = memalign(align, size);
    if (made == NULL) {
        return ENOMEM;
    }
    *piece = made;
    return 0;
}

void free(void *piece) {
    in_use -= malloc_usable_size(piece);
    __libc_free(piece);
}

/* Whether a file is the input, which is asked only where its reads are to go otherwise. */
static int is_input(int file) {
    struct stat found;
    return (piece_size != 0 || halts || read_fails_at != 0) && fstat(file, &found) == 0
        && found.st_dev == input.st_dev && found.st_ino == input.st_ino;
}

/* The error with which a read of the input fails; 0 where it doesn't. */
static int cause_of_read(void) {
    is_halted = halts && !is_halted;
    if (is_halted) {
        return EINTR;
    }
    return ++reads < read_fails_at || read_fails_at == 0 ? 0 : cause;
}

ssize_t read(int file, void *octets, size_t count) {
    if (is_input(file)) {
        int found = cause_of_read();
        if (found != 0) {
            errno = found;
            return -1;
        }
        if (piece_size != 0 && piece_size < count) {
            count = piece_size;
        }
    }
    return syscall(SYS_read, file, octets, count);
}

/* Counts a write to standard output. Whether it fails. */
static int is_full(int file) {
    if (file != STDOUT_FILENO || ++tally->writes < write_fails_at || write_fails_at == 0) {
        return 0;
    }
    errno = ENOSPC;
    return 1;
}

ssize_t write(int file, const void *octets, size_t count) {
    return is_full(file) ? -1 : syscall(SYS_write, file, octets, count);
}

ssize_t writev(int file, const struct iovec *pieces, int count) {
    return is_full(file) ? -1 : syscall(SYS_writev, file, pieces, count);
}
