/* A line for each packet of an application that was sent: who asked, and what was sent. */
#define _GNU_SOURCE
#include "parts.h"
#include <errno.h>
#include <fcntl.h>
#include <inttypes.h>
#include <limits.h>
#include <stdio.h>
#include <string.h>
#include <unistd.h>

static bool is_standard_error(const struct audit *a) { return strcmp(a->path, "-") == 0; }

/* A pipe without a reader is an error, and one that is full holds nothing up. */
static bool open_file(struct audit *a) {
    a->fd = open(a->path, O_WRONLY | O_APPEND | O_CREAT | O_CLOEXEC | O_NOFOLLOW | O_NONBLOCK,
                 0640);
    return a->fd >= 0;
}

void audit_start(struct audit *a, const char *path) {
    *a = (struct audit){ .path = path, .fd = -1 };
    if (path != NULL && !is_standard_error(a) && !open_file(a)) {
        fail(FAILED, "--audit %s: %m", path);
    }
}

void audit_reopen(struct audit *a) {
    if (a->path == NULL || is_standard_error(a)) {
        return;
    }
    if (a->fd >= 0) {
        close(a->fd);
    }
    if (!open_file(a)) {
        note("--audit %s: %m: nothing is written until the next SIGHUP", a->path);
    }
}

static void put_line(struct audit *a, const char *line, size_t n) {
    bool written = is_standard_error(a) ? put_error(line, n)
                                        : a->fd >= 0 && write(a->fd, line, n) == (ssize_t)n;
    if (!written && a->lost++ == 0) {
        note("--audit %s: a line was lost", a->path);
    }
}

/* A path as text of JSON: octets that would need an escape are replaced. */
static size_t put_path(char *out, const char *path) {
    size_t n = 0;
    for (; path[n] != 0; n++) {
        unsigned char c = (unsigned char)path[n];
        out[n] = c < 0x20 || c == '"' || c == '\\' ? '?' : path[n];
    }
    return n;
}

void audit_sent(struct audit *a, const struct asker *by, const uint8_t *frame, size_t length) {
    static const char *const kinds[] = { "?", "beacon", "shb", "gbc", "gac" };
    char line[PIPE_BUF];
    struct geostation_packet p;
    if (a->path == NULL || geostation_read_frame(frame, length, &p) != GEOSTATION_OK) {
        return;
    }
    size_t n = (size_t)sprintf(line, "{\"at\":%" PRIu64 ",\"audit\":\"%s\",\"socket\":\"",
                               clock_moment(), kinds[p.kind]);
    n += put_path(line + n, by->socket);
    n += (size_t)sprintf(line + n, "\",\"user\":%u,\"process\":%d,\"source\":\"%016" PRIx64 "\",",
                         (unsigned)by->user, (int)by->process, p.vector.address);
    if (p.kind != GEOSTATION_SHB) {
        n += (size_t)sprintf(line + n, "\"number\":%u,", p.number);
    }
    n += (size_t)sprintf(line + n, "\"port\":%u,\"payload\":\"", p.message.port);
    n += hex_write(line + n, frame + p.message.payload_start, p.message.payload_length);
    n += (size_t)sprintf(line + n, "\"}\n");
    put_line(a, line, n);
}
