/* Answers to applications, in the order of their requests. An own packet is sent once it is signed,
 * and the answer to its request comes then. The answers after it wait with it. */
#include "parts.h"
#include <stdlib.h>
#include <string.h>

/* Without security no answer waits, so one place is enough. */
void held_start(struct held_pool *p, bool waits) {
    p->count = waits ? HELD : 1;
    p->all = calloc(p->count, sizeof *p->all);
    if (p->all == NULL) {
        fail(FAILED, "out of memory");
    }
}

static size_t free_place(const struct held_pool *p) {
    size_t k = 0;
    while (k < p->count && p->all[k].used) {
        k++;
    }
    return k;
}

static size_t count_free(const struct held_pool *p) {
    size_t count = 0;
    for (size_t k = 0; k < p->count; k++) {
        count += !p->all[k].used;
    }
    return count;
}

/* May another request of the client be executed? Clients whose answers wait leave places to the
 * others. */
bool held_has_place(const struct held_pool *p, const struct client *c) {
    size_t free = count_free(p);
    return c->held_count == 0 ? free != 0 : c->held_count < HELD_EACH && free > HELD_RESERVE;
}

/* Takes a free place, which has to exist, after the client's other answers. */
struct held *held_take(struct held_pool *p, struct client *c) {
    struct held *h = &p->all[free_place(p)];
    h->client = c;
    h->used = true;
    h->waits = false;
    h->length = 0;
    c->held[c->held_count++] = h;
    return h;
}

/* Moves answers that no longer wait to the client's queue, as long as it has space. */
void held_flush(struct client *c) {
    while (c->held_count != 0 && !c->held[0]->waits && client_waiting(c) <= EVENTS_ROOM) {
        struct held *h = c->held[0];
        c->held_count--;
        memmove(c->held, c->held + 1, c->held_count * sizeof *c->held);
        if (h->length != 0) {
            h->answer[h->length] = '\n';
            client_put_answer(c, h->answer, h->length + 1);
        }
        h->used = false;
    }
}

/* The client is gone. Its packets are sent all the same, and their answers are dropped. */
void held_forget(struct client *c) {
    for (size_t k = 0; k < c->held_count; k++) {
        c->held[k]->client = NULL;
        c->held[k]->used = c->held[k]->waits;
    }
    c->held_count = 0;
}
