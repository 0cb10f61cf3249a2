/* The functions of C that the program calls besides the C library and those of ../heap.c.
 *
 * The kit has them as an archive for x86-64. This file has them for other processors. The proofs of
 * the program assume a contract of each. The comment before each function is that contract. Nothing
 * proves that this file meets them. A slice arrives as a pointer and a length. */
#include <errno.h>
#include <stdbool.h>
#include <stddef.h>
#include <stdint.h>
#include <stdlib.h>
#include <string.h>
#include <sys/ioctl.h>
#include <sys/types.h>

extern char **environ;

int32_t rattle_errno(void);
void rattle_set_errno(int32_t error);
ssize_t rattle_arg(size_t i, uint8_t *buffer, size_t size);
ssize_t rattle_env(const uint8_t *name, uint8_t *buffer, size_t size);
ssize_t rattle_env_at(size_t i, uint8_t *buffer, size_t size);
int32_t rattle_set_nonblocking(int32_t fd, bool on);

static char **arguments;
static size_t argument_count;

/* glibc passes the arguments of `main` to each constructor. */
__attribute__((constructor)) static void keep_arguments(int count, char **words) {
    arguments = words;
    argument_count = (size_t)count;
}

/* Copies a text without its NUL to the start of the buffer and returns its length. Returns -1 if
 * there is no text. Returns -2 if it does not fit, and then the buffer is full. */
static ssize_t copy_text(const char *text, uint8_t *buffer, size_t size) {
    if (text == NULL) {
        return -1;
    }
    size_t length = strlen(text);
    bool fits = length <= size;
    if (size != 0) {
        memcpy(buffer, text, fits ? length : size);
    }
    return fits ? (ssize_t)length : -2;
}

/* Returns errno of the calling thread. */
int32_t rattle_errno(void) {
    return errno;
}

/* Sets errno of the calling thread. */
void rattle_set_errno(int32_t error) {
    errno = error;
}

/* Copies argument `i` to the start of the buffer and returns its length. Argument 0 is the name of
 * the program. Returns -1 if there is no such argument. Returns -2 if it does not fit, and then the
 * buffer is full. */
ssize_t rattle_arg(size_t i, uint8_t *buffer, size_t size) {
    return copy_text(i < argument_count ? arguments[i] : NULL, buffer, size);
}

/* Copies the value of an environment variable to the start of the buffer and returns its length.
 * Returns -1 if there is no such variable. Returns -2 if the value does not fit, and then the
 * buffer is full. The name ends with a NUL: the caller's part of the contract. */
ssize_t rattle_env(const uint8_t *name, uint8_t *buffer, size_t size) {
    return copy_text(getenv((const char *)name), buffer, size);
}

/* Copies entry `i` of the environment, NAME=VALUE, to the start of the buffer. Returns what
 * `rattle_arg` returns. */
ssize_t rattle_env_at(size_t i, uint8_t *buffer, size_t size) {
    size_t at = 0;
    while (environ != NULL && at < i && environ[at] != NULL) {
        at++;
    }
    return copy_text(environ != NULL ? environ[at] : NULL, buffer, size);
}

/* Sets or clears O_NONBLOCK of the open file of `fd`. Returns 0 or -1. */
int32_t rattle_set_nonblocking(int32_t fd, bool on) {
    int flag = on;
    return ioctl(fd, FIONBIO, &flag);
}
