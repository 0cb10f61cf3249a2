/* UNIX sockets at a path. */
#define _GNU_SOURCE
#include "parts.h"
#include <errno.h>
#include <string.h>
#include <sys/stat.h>
#include <unistd.h>

struct sockaddr_un unix_address(const char *option, const char *path) {
    struct sockaddr_un at = { .sun_family = AF_UNIX };
    size_t length = strlen(path);
    if (length >= sizeof at.sun_path) {
        fail(BAD_ARGUMENTS, "--%s %s: longer than %zu bytes", option, path,
             sizeof at.sun_path - 1);
    }
    memcpy(at.sun_path, path, length);
    return at;
}

int listen_at(const char *option, const char *path, int waiting, bool everyone) {
    struct sockaddr_un at = unix_address(option, path);
    struct stat old;
    int fd = socket(AF_UNIX, SOCK_STREAM | SOCK_NONBLOCK | SOCK_CLOEXEC, 0);
    if (fd >= 0 && connect(fd, (struct sockaddr *)&at, sizeof at) == 0) {
        fail(FAILED, "%s: another program listens there", path);
    }
    if (errno == ECONNREFUSED && lstat(path, &old) == 0 && S_ISSOCK(old.st_mode)) {
        unlink(path);
    }
    mode_t mask = umask(everyone ? 0111 : 0117);
    if (fd < 0 || bind(fd, (struct sockaddr *)&at, sizeof at) != 0 || listen(fd, waiting) != 0) {
        fail(FAILED, "%s: %m", path);
    }
    umask(mask);
    return fd;
}
