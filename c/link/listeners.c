/* The sockets at which applications connect. One has all rights, the others have limited ones. */
#define _GNU_SOURCE
#include "parts.h"
#include <unistd.h>

/* A socket that names its user is open to everyone: who connects is judged then. */
void listeners_start(struct clients *c, const struct options *o) {
    if (o->listen != NULL) {
        c->listeners[c->listener_count++] = (struct listener){
            listen_at("listen", o->listen, CLIENTS, false), o->listen, NULL, (uid_t)-1
        };
    }
    for (size_t k = 0; k < o->limited_count; k++) {
        const struct rights *r = &o->limited[k];
        uid_t user = rights_user(r);
        c->listeners[c->listener_count++] = (struct listener){
            listen_at("listen-limited", r->path, CLIENTS, r->user[0] != 0), r->path, r, user
        };
    }
}

/* Who connected, by the kernel's word. */
static struct asker asker_of(const struct listener *l, int fd) {
    struct ucred peer = { .uid = (uid_t)-1 };
    socklen_t size = sizeof peer;
    (void)getsockopt(fd, SOL_SOCKET, SO_PEERCRED, &peer, &size);
    return (struct asker){ l->path, peer.uid, peer.pid };
}

/* If a socket names a user, only that one may connect, and root. */
bool listener_lets_in(struct clients *c, const struct listener *l, int fd, struct asker *by) {
    *by = asker_of(l, fd);
    if (l->user == (uid_t)-1 || by->user == l->user || by->user == 0) {
        return true;
    }
    if (c->refused_users++ == 0) {
        note("%s: a client was turned away: only user %s may connect", l->path, l->rights->user);
    }
    return false;
}

void listeners_end(const struct clients *c) {
    for (size_t k = 0; k < c->listener_count; k++) {
        unlink(c->listeners[k].path);
    }
}
