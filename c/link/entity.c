/* The connection to the security entity: a UNIX socket that keeps datagrams apart. Nothing here
 * waits. Who runs the entity is checked, since it decides which packets are trusted. */
#define _GNU_SOURCE
#include "parts.h"
#include <errno.h>
#include <pwd.h>
#include <string.h>
#include <unistd.h>

enum { TRY_EACH = 1000 /* ms */, WRONG_USER = -1 };

void entity_start(struct entity *e, const struct options *o) {
    e->path = o->security;
    e->at = unix_address("security", e->path);
    e->fd = -1;
    if (o->security_user != NULL) {
        const struct passwd *user = getpwnam(o->security_user);
        if (user == NULL) {
            fail(BAD_ARGUMENTS, "--security-user %s: there is no such user", o->security_user);
        }
        e->has_user = true;
        e->user = user->pw_uid;
    }
}

static int connect_to(const struct sockaddr_un *at) {
    int fd = socket(AF_UNIX, SOCK_SEQPACKET | SOCK_NONBLOCK | SOCK_CLOEXEC, 0);
    if (fd >= 0 && connect(fd, (const struct sockaddr *)at, sizeof *at) != 0) {
        int why = errno;
        close(fd);
        errno = why;
        return -1;
    }
    return fd;
}

static bool is_trusted(const struct entity *e, uid_t user) {
    return user == 0 || user == geteuid() || (e->has_user && user == e->user);
}

/* Closes a connection to a program of another user. */
static int refuse_others(const struct entity *e, int fd, uid_t *user) {
    struct ucred peer = { .uid = (uid_t)-1 };
    socklen_t size = sizeof peer;
    bool known = getsockopt(fd, SOL_SOCKET, SO_PEERCRED, &peer, &size) == 0;
    *user = peer.uid;
    if (known && is_trusted(e, peer.uid)) {
        return fd;
    }
    close(fd);
    return -1;
}

/* Each reason is reported once, until there is a connection or another reason. */
static void report(struct entity *e, int why, uid_t user) {
    if (e->reported == why) {
        return;
    }
    e->reported = why;
    if (why == WRONG_USER) {
        note("%s: the security entity is run by user %u, which is neither root, the user of this "
             "program nor --security-user", e->path, (unsigned)user);
    } else {
        note("%s: no security entity: %s: it is tried again each second", e->path, strerror(why));
    }
}

bool entity_try(struct entity *e, uint64_t now) {
    uid_t user = 0;
    e->try_at = now + TRY_EACH;
    int fd = connect_to(&e->at);
    if (fd < 0) {
        report(e, errno, user);
        return false;
    }
    e->fd = refuse_others(e, fd, &user);
    if (e->fd < 0) {
        report(e, WRONG_USER, user);
        return false;
    }
    e->reported = 0;
    return true;
}

/* A datagram that the socket doesn't take is lost. Its request times out, as if the entity had
 * taken it and were silent. */
void entity_send(const struct entity *e, const char *text, size_t n) {
    (void)!send(e->fd, text, n, MSG_DONTWAIT | MSG_NOSIGNAL);
}

/* An empty datagram and the end of a connection are read alike. */
static bool is_closed(int fd) {
    struct pollfd on = { fd, POLLRDHUP, 0 };
    return poll(&on, 1, 0) == 1 && (on.revents & (POLLRDHUP | POLLHUP | POLLERR)) != 0;
}

enum arrival entity_receive(const struct entity *e, char *text, size_t room, size_t *n) {
    ssize_t got = recv(e->fd, text, room, MSG_DONTWAIT | MSG_TRUNC);
    if (got < 0) {
        bool later = errno == EAGAIN || errno == EINTR;
        return later ? NOTHING_ARRIVED : ENTITY_GONE;
    }
    if (got == 0 && is_closed(e->fd)) {
        return ENTITY_GONE;
    }
    *n = (size_t)got;
    return *n > room ? CUT_DATAGRAM : DATAGRAM;
}

void entity_close(struct entity *e, uint64_t now) {
    close(e->fd);
    e->fd = -1;
    e->try_at = now + TRY_EACH;
}
