/* All applications: standard input and output, and those of the UNIX socket. */
#define _GNU_SOURCE
#include "parts.h"
#include <errno.h>
#include <fcntl.h>
#include <stdlib.h>
#include <string.h>
#include <unistd.h>

enum { DRAIN = 500 /* ms */ };

void clients_tell(struct clients *c, const struct text *t, uint64_t now) {
    for (size_t k = 0; k < CLIENTS; k++) {
        client_tell(c, c->all[k], t, now);
    }
}

void clients_deliver(struct clients *c, const struct text *t, uint16_t port) {
    uint64_t now = clock_now();
    for (size_t k = 0; k < CLIENTS; k++) {
        if (c->all[k] != NULL && client_wants(c->all[k], port)) {
            client_tell(c, c->all[k], t, now);
        }
    }
}

void clients_forget_port(struct clients *c, uint16_t port) {
    for (size_t k = 0; k < CLIENTS; k++) {
        if (c->all[k] != NULL) {
            ports_remove(&c->all[k]->opened, port);
        }
    }
}

void clients_forget_ports(struct clients *c) {
    for (size_t k = 0; k < CLIENTS; k++) {
        if (c->all[k] != NULL) {
            c->all[k]->opened.count = 0;
        }
    }
}

/* The first line has the station's address. Others follow if the link or the security entity is not
 * there. */
static bool add(struct clients *c, size_t k, int in, int out) {
    struct text t;
    uint64_t now = clock_now();
    struct client *new = client_new(in, out, now);
    if (new == NULL) {
        return false;
    }
    c->all[k] = new;
    event_ready(&t, now, c->station->address);
    client_tell(c, new, &t, now);
    if (!c->station->link->up) {
        event_link(&t, now, false);
        client_tell(c, new, &t, now);
    }
    if (c->station->security != NULL && !security_is_up(c->station->security)) {
        event_security(&t, now, false);
        client_tell(c, new, &t, now);
    }
    return true;
}

static int open_spare(void) { return open("/dev/null", O_RDONLY | O_CLOEXEC); }

bool clients_listens(const struct clients *c) { return c->listener_count != 0; }

void clients_start(struct clients *c, const struct options *o) {
    c->timeout = o->client_timeout;
    held_start(&c->held, o->security != NULL);
    listeners_start(c, o);
    c->spare = open_spare();
    if (!add(c, 0, STDIN_FILENO, STDOUT_FILENO)) {
        fail(FAILED, "out of memory");
    }
}

static void drop(struct clients *c, size_t k) {
    if (k != 0) {
        close(c->all[k]->out);
    }
    held_forget(c->all[k]);
    free(c->all[k]);
    c->all[k] = NULL;
}

/* Did standard input or output end, without a socket for other applications? */
bool clients_is_ended(const struct clients *c) {
    return c->all[0] == NULL && !clients_listens(c);
}

size_t clients_count(const struct clients *c) {
    size_t count = 0;
    for (size_t k = 0; k < CLIENTS; k++) {
        count += c->all[k] != NULL;
    }
    return count;
}

/* A free place for a client of the socket, or CLIENTS if all are taken: others wait then. */
static size_t free_place(const struct clients *c) {
    size_t k = 1;
    while (k < CLIENTS && c->all[k] != NULL) {
        k++;
    }
    return k;
}

/* Returns the client of the socket that is idle for the longest time. All places are taken. */
static size_t idlest(const struct clients *c) {
    size_t found = 1;
    for (size_t k = 2; k < CLIENTS; k++) {
        if (c->all[k]->active_at < c->all[found]->active_at) {
            found = k;
        }
    }
    return found;
}

/* The latest time at which a place becomes free; UINT64_MAX if that depends on the clients. */
static uint64_t place_at(const struct clients *c) {
    if (free_place(c) < CLIENTS) {
        return 0;
    }
    return c->timeout == 0 ? UINT64_MAX : c->all[idlest(c)]->active_at + c->timeout;
}

/* Returns when clients_poll looks at the socket again, if it does not now. */
uint64_t clients_due(const struct clients *c, uint64_t now) {
    uint64_t at = !clients_listens(c) ? 0 : place_at(c);
    return at > now ? at : UINT64_MAX;
}

void clients_poll(const struct clients *c, struct pollfd *on, uint64_t now) {
    struct pollfd *next = on + LISTENERS;
    for (size_t k = 0; k < CLIENTS; k++) {
        const struct client *one = c->all[k];
        bool reads = one != NULL && client_may_read(one);
        bool writes = one != NULL && client_is_writing(one);
        *next++ = (struct pollfd){ reads ? one->in : -1, POLLIN, 0 };
        *next++ = (struct pollfd){ writes ? one->out : -1, POLLOUT, 0 };
    }
    bool place = clients_listens(c) && place_at(c) <= now;
    for (size_t k = 0; k < LISTENERS; k++) {
        bool accepts = place && k < c->listener_count;
        on[k] = (struct pollfd){ accepts ? c->listeners[k].fd : -1, POLLIN, 0 };
    }
}

/* Closes a client that was idle for too long while another one waits. */
static void close_idle(struct clients *c, size_t k) {
    struct text t;
    event_closed(&t, clock_now());
    client_tell(c, c->all[k], &t, clock_now());
    if (client_is_writing(c->all[k])) {
        (void)client_write(c->all[k]);
    }
    drop(c, k);
    c->closed_idle++;
    note("an idle client was closed, as others wait");
}

static void turn_away(struct clients *c, int fd) {
    if (fd >= 0) {
        close(fd);
    }
    if (c->turned_away++ == 0) {
        note("a client was turned away: no memory or no descriptor is left");
    }
}

/* Makes a place, if none is free. */
static size_t make_place(struct clients *c) {
    size_t k = free_place(c);
    if (k == CLIENTS) {
        k = idlest(c);
        close_idle(c, k);
    }
    return k;
}

static void take_in(struct clients *c, const struct listener *l, int fd) {
    struct asker by;
    if (!listener_lets_in(c, l, fd, &by)) {
        close(fd);
        return;
    }
    size_t k = make_place(c);
    if (!add(c, k, fd, fd)) {
        turn_away(c, fd);
        return;
    }
    c->all[k]->rights = l->rights;
    c->all[k]->by = by;
}

/* Without a free descriptor, the spare one serves to turn a waiting client away. Otherwise the
 * socket would stay readable for ever. */
static void accept_one(struct clients *c, const struct listener *l) {
    int fd = accept4(l->fd, NULL, NULL, SOCK_NONBLOCK | SOCK_CLOEXEC);
    if (fd < 0 && (errno == EMFILE || errno == ENFILE) && c->spare >= 0) {
        close(c->spare);
        turn_away(c, accept4(l->fd, NULL, NULL, SOCK_CLOEXEC));
        c->spare = open_spare();
        return;
    }
    if (fd >= 0) {
        take_in(c, l, fd);
    }
}

/* If there is a socket too, standard output still gets events after the end of standard input. If
 * no one reads it any more, it ends at once. */
static bool is_done(const struct clients *c, size_t k) {
    const struct client *one = c->all[k];
    bool stays = k == 0 && clients_listens(c);
    return (k == 0 && one->deaf) || (client_is_done(one) && !stays);
}

/* Input of a client is read before its output is written, since it may have closed its end. Lines
 * that waited for space are handled after the writing, so none waits for another turn. */
static void turn(struct clients *c, size_t k, const struct pollfd *reads,
                 const struct pollfd *writes) {
    struct client *one = c->all[k];
    if (reads->revents != 0 && one->in >= 0) {
        client_read(c, one);
    } else {
        client_take_lines(c, one);
    }
    int why = writes->revents != 0 && client_is_writing(one) ? client_write(one) : 0;
    client_take_lines(c, one);
    if (why != 0 && k == 0) {
        c->output_fault = why;
        if (clients_listens(c)) {
            note("standard output: %s: the other clients are served", strerror(why));
        }
    }
    if (is_done(c, k)) {
        drop(c, k);
    }
}

void clients_turn(struct clients *c, const struct pollfd *on) {
    const struct pollfd *own = on + LISTENERS;
    for (size_t k = 0; k < CLIENTS; k++) {
        if (c->all[k] != NULL) {
            turn(c, k, &own[2 * k], &own[2 * k + 1]);
        }
    }
    for (size_t k = 0; k < c->listener_count; k++) {
        if (on[k].revents != 0 && place_at(c) <= clock_now()) {
            accept_one(c, &c->listeners[k]);
        }
    }
}

static bool any_waits(const struct clients *c) {
    for (size_t k = 0; k < CLIENTS; k++) {
        const struct client *one = c->all[k];
        if (one != NULL && (client_is_writing(one) || one->held_count != 0)) {
            return true;
        }
    }
    return false;
}

/* Handles requests that came before the end and writes their answers, for half a second at most. */
void clients_drain(struct clients *c) {
    struct pollfd on[CLIENT_POLLS + 1];
    struct pollfd *entity = &on[CLIENT_POLLS];
    struct security *security = c->station->security;
    uint64_t start = clock_now();
    for (uint64_t now = start; now < start + DRAIN; now = clock_now()) {
        clients_poll(c, on, now);
        *entity = (struct pollfd){ security_fd(security), POLLIN, 0 };
        int ready = poll(on, CLIENT_POLLS + 1, 10);
        if (ready <= 0 && !any_waits(c)) {
            return;
        }
        if (security != NULL) {
            security_turn(security, entity->revents != 0);
        }
        clients_turn(c, on);
    }
}

void clients_end(struct clients *c) {
    for (size_t k = 0; k < CLIENTS; k++) {
        free(c->all[k]);
    }
    free(c->held.all);
    listeners_end(c);
}
