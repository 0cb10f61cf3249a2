/* The counts for Prometheus. A file is for the textfile collector of node_exporter, which reads
 * names that end in .prom; each new file replaces the old one at once. A socket writes the text
 * to each client that connects, and closes the connection. */
#define _GNU_SOURCE
#include "parts.h"
#include <errno.h>
#include <fcntl.h>
#include <limits.h>
#include <stdio.h>
#include <string.h>
#include <unistd.h>

enum { WRITE_EACH = 10000 /* ms */, TEXT_ROOM = 16384, WAITING = 4 };

static char text[TEXT_ROOM];

/* The name of the new file is four octets longer. */
bool metrics_is_file(const char *path) {
    size_t length = strlen(path);
    return length > 5 && length <= PATH_MAX - 8 && strcmp(path + length - 5, ".prom") == 0;
}

void metrics_start(struct metrics *m, const char *path) {
    *m = (struct metrics){ path, -1, UINT64_MAX, false };
    if (path == NULL) {
        return;
    }
    if (metrics_is_file(path)) {
        m->write_at = 0;
    } else {
        m->listening = listen_at("metrics", path, WAITING, false);
    }
}

/* Serves one reader per turn. The text fits into a socket's buffer, so the write does not wait. */
void metrics_serve(const struct metrics *m, const struct station *s, uint64_t now) {
    char asked[512];
    int fd = accept4(m->listening, NULL, NULL, SOCK_NONBLOCK | SOCK_CLOEXEC);
    if (fd < 0) {
        return;
    }
    size_t length = counts_print_metrics(s, now, text, sizeof text);
    (void)!recv(fd, asked, sizeof asked, MSG_DONTWAIT);
    (void)!send(fd, text, length, MSG_DONTWAIT | MSG_NOSIGNAL);
    close(fd);
}

static bool write_whole(int fd, size_t length) {
    size_t done = 0;
    while (done < length) {
        ssize_t n = write(fd, text + done, length - done);
        if (n <= 0) {
            return false;
        }
        done += (size_t)n;
    }
    return true;
}

/* Returns 0, or the errno of what failed: then the file is removed again. */
static int write_file(const char *path, size_t length) {
    int fd = open(path, O_WRONLY | O_CREAT | O_TRUNC | O_CLOEXEC | O_NOFOLLOW, 0644);
    if (fd < 0) {
        return errno;
    }
    errno = EIO; /* of a write that writes nothing */
    int why = write_whole(fd, length) ? 0 : errno;
    if (close(fd) != 0 && why == 0) {
        why = errno;
    }
    if (why != 0) {
        unlink(path);
    }
    return why;
}

/* The new file has a temporary name until it is complete. Returns 0, or an errno. */
static int replace(const char *path, size_t length) {
    char new_path[PATH_MAX];
    snprintf(new_path, sizeof new_path, "%s.new", path);
    int why = write_file(new_path, length);
    if (why == 0 && rename(new_path, path) != 0) {
        why = errno;
        unlink(new_path);
    }
    return why;
}

void metrics_write(struct metrics *m, const struct station *s, uint64_t now) {
    if (now < m->write_at) {
        return;
    }
    m->write_at = now + WRITE_EACH;
    int why = replace(m->path, counts_print_metrics(s, now, text, sizeof text));
    if (why != 0 && !m->failed) {
        note("--metrics %s: %s: trying again each %d s", m->path, strerror(why), WRITE_EACH / 1000);
    }
    m->failed = why != 0;
}

void metrics_end(const struct metrics *m) {
    if (m->listening >= 0) {
        unlink(m->path);
    }
}
