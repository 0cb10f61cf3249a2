/* One application. A request is read only if there is space for its answer, so no answers are lost.
 * Events are lost if the client reads too slowly; an event reports how many. */
#define _GNU_SOURCE
#include "parts.h"
#include <errno.h>
#include <limits.h>
#include <stdlib.h>
#include <string.h>
#include <unistd.h>

size_t client_waiting(const struct client *c) { return c->end - c->begin; }

struct client *client_new(int in, int out, uint64_t now) {
    struct client *c = malloc(sizeof *c);
    if (c != NULL) {
        c->by = (struct asker){ "-", getuid(), getppid() };
        c->rights = NULL;
        c->opened.count = c->subscribed.count = 0;
        c->subscribes = false;
        c->in = in;
        c->out = out;
        c->deaf = false;
        c->active_at = now;
        c->lines = c->lost = 0;
        c->line_length = c->next = c->got = c->begin = c->end = c->held_count = 0;
    }
    return c;
}

/* Appends octets to the queue, if it then has no more than `most`. */
static bool enqueue(struct client *c, const void *octets, size_t n, size_t most) {
    if (client_waiting(c) + n > most) {
        return false;
    }
    if (sizeof c->queue - c->end < n) {
        memmove(c->queue, c->queue + c->begin, client_waiting(c));
        c->end -= c->begin;
        c->begin = 0;
    }
    memcpy(c->queue + c->end, octets, n);
    c->end += n;
    return true;
}

/* Once half of the space is free again, an event reports how many were lost. */
static void tell_lost(struct client *c, uint64_t now) {
    struct text t;
    if (c->lost != 0) {
        event_lost(&t, now, c->lost);
        c->lost = enqueue(c, t.octets, t.length, EVENTS_ROOM / 2) ? 0 : c->lost;
    }
}

void client_tell(struct clients *all, struct client *c, const struct text *t, uint64_t now) {
    if (c == NULL || c->deaf) {
        return;
    }
    tell_lost(c, now);
    if (c->lost != 0 || !enqueue(c, t->octets, t->length, EVENTS_ROOM)) {
        c->lost++;
        all->events_lost++;
    }
}

bool client_wants(const struct client *c, uint16_t port) {
    return rights_to_listen(c->rights, port)
        && (!c->subscribes || ports_have(&c->subscribed, port));
}

static bool is_blank(const struct client *c) {
    size_t k = 0;
    while (k < c->line_length && strchr(" \t\r", c->line[k]) != NULL && c->line[k] != 0) {
        k++;
    }
    return k == c->line_length;
}

void client_put_answer(struct client *c, const uint8_t *answer, size_t n) {
    if (!c->deaf) {
        (void)enqueue(c, answer, n, sizeof c->queue);
    }
}

/* Of a line that is too long, one octet too many is kept: the library then rejects the line. */
static void end_line(struct clients *all, struct client *c) {
    c->lines++;
    if (!is_blank(c)) {
        struct held *h = held_take(&all->held, c);
        station_answer(all->station, clock_now(), c->lines, c->line, c->line_length, h);
        held_flush(c);
    }
    c->line_length = 0;
}

/* Is there space for the answer to the line that ends at the next octet, if one does? */
static bool has_space(const struct clients *all, const struct client *c) {
    return client_waiting(c) <= EVENTS_ROOM
        && (c->chunk[c->next] != '\n' || held_has_place(&all->held, c));
}

/* Handles the input line by line, as long as there is space for an answer. */
void client_take_lines(struct clients *all, struct client *c) {
    held_flush(c);
    while (c->next < c->got && has_space(all, c)) {
        uint8_t octet = c->chunk[c->next++];
        if (octet == '\n') {
            end_line(all, c);
        } else if (c->line_length < sizeof c->line) {
            c->line[c->line_length++] = octet;
        }
    }
}

bool client_may_read(const struct client *c) {
    return c->in >= 0 && c->next == c->got && client_waiting(c) <= EVENTS_ROOM;
}

void client_read(struct clients *all, struct client *c) {
    ssize_t n = read(c->in, c->chunk, sizeof c->chunk);
    if (n < 0 && (errno == EAGAIN || errno == EINTR)) {
        return;
    }
    c->next = 0;
    c->got = n > 0 ? (size_t)n : 1;
    if (n > 0) {
        c->active_at = clock_now();
    } else {
        c->in = -1;
        c->chunk[0] = '\n'; /* the last line needs no line feed */
    }
    client_take_lines(all, c);
}

/* Writes at most PIPE_BUF octets, which a ready pipe accepts at once. Standard output may be shared
 * with other programs, so it isn't made non-blocking. */
static ssize_t put(int fd, const uint8_t *octets, size_t n) {
    ssize_t wrote = send(fd, octets, n, MSG_DONTWAIT | MSG_NOSIGNAL);
    if (wrote < 0 && errno == ENOTSOCK) {
        wrote = write(fd, octets, n < PIPE_BUF ? n : PIPE_BUF);
    }
    return wrote;
}

bool client_is_writing(const struct client *c) { return !c->deaf && client_waiting(c) != 0; }

/* A client that closed its end may have sent requests before. They are read and executed, although
 * no one reads the answers. */
int client_write(struct client *c) {
    ssize_t wrote = put(c->out, c->queue + c->begin, client_waiting(c));
    if (wrote > 0) {
        c->active_at = clock_now();
        c->begin += (size_t)wrote;
        tell_lost(c, c->active_at);
    } else if (wrote < 0 && errno != EAGAIN && errno != EINTR) {
        c->deaf = true;
        c->begin = c->end = 0;
        return errno;
    }
    return 0;
}

bool client_is_done(const struct client *c) {
    return c->in < 0 && c->next == c->got && c->held_count == 0 && (c->deaf || c->begin == c->end);
}
