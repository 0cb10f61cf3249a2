/* Messages on standard error. */
#define _GNU_SOURCE
#include "parts.h"
#include <limits.h>
#include <stdarg.h>
#include <stdio.h>
#include <stdlib.h>
#include <string.h>
#include <unistd.h>

enum { MESSAGE_ROOM = 640 };

/* Never waits: if standard error doesn't accept the line now, it is lost. A pipe that accepts
 * anything accepts PIPE_BUF octets. */
bool put_error(const char *line, size_t n) {
    struct pollfd ready = { STDERR_FILENO, POLLOUT, 0 };
    return n <= PIPE_BUF && poll(&ready, 1, 0) == 1
        && write(STDERR_FILENO, line, n) == (ssize_t)n;
}

/* Writes the line of a message. One that is too long is cut. */
static void put_message(const char *format, va_list rest) {
    char text[MESSAGE_ROOM] = "geostation-link: ";
    size_t prefix = strlen(text);
    int length = vsnprintf(text + prefix, sizeof text - prefix - 1, format, rest);
    size_t end = prefix + (length > 0 ? (size_t)length : 0);
    end = end < sizeof text - 2 ? end : sizeof text - 2;
    text[end] = '\n';
    (void)put_error(text, end + 1);
}

void fail(int status, const char *format, ...) {
    va_list rest;
    va_start(rest, format);
    put_message(format, rest);
    va_end(rest);
    exit(status);
}

void note(const char *format, ...) {
    va_list rest;
    va_start(rest, format);
    put_message(format, rest);
    va_end(rest);
}

bool set_fault(struct fault *f, int status, const char *format, ...) {
    va_list rest;
    va_start(rest, format);
    f->status = status;
    vsnprintf(f->text, sizeof f->text, format, rest);
    va_end(rest);
    return false;
}
