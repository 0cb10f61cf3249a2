/* Reports to a service manager that the program is ready, and that it is alive. It sends datagrams
 * to the socket that NOTIFY_SOCKET names, as sd_notify(3) describes them. */
#define _GNU_SOURCE
#include "parts.h"
#include <stdlib.h>
#include <string.h>
#include <unistd.h>

static int fd = -1;
static struct sockaddr_un manager = { .sun_family = AF_UNIX };
static socklen_t manager_length;
static uint64_t each, due = UINT64_MAX; /* of the watchdog, in ms */

/* Half of the time after which the manager considers the program dead. */
static uint64_t watchdog_time(void) {
    const char *micros = getenv("WATCHDOG_USEC"), *pid = getenv("WATCHDOG_PID");
    if (micros == NULL || (pid != NULL && strtoull(pid, NULL, 10) != (uint64_t)getpid())) {
        return 0;
    }
    return strtoull(micros, NULL, 10) / 2000;
}

void notify_start(void) {
    const char *path = getenv("NOTIFY_SOCKET");
    size_t length = path != NULL ? strlen(path) : 0;
    if (length < 2 || length >= sizeof manager.sun_path || strchr("/@", path[0]) == NULL) {
        return;
    }
    memcpy(manager.sun_path, path, length);
    manager.sun_path[0] = path[0] == '@' ? 0 : path[0]; /* a name that is no file's begins with 0 */
    manager_length = (socklen_t)(offsetof(struct sockaddr_un, sun_path) + length);
    fd = socket(AF_UNIX, SOCK_DGRAM | SOCK_CLOEXEC, 0);
    each = watchdog_time();
    due = fd >= 0 && each != 0 ? 0 : UINT64_MAX;
}

void notify(const char *state) {
    if (fd >= 0) {
        (void)!sendto(fd, state, strlen(state), MSG_DONTWAIT | MSG_NOSIGNAL,
                      (const struct sockaddr *)&manager, manager_length);
    }
}

void notify_alive(uint64_t now) {
    if (now >= due) {
        notify("WATCHDOG=1");
        due = now + each;
    }
}

uint64_t notify_due(void) { return due; }
