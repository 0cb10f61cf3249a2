/* Whose messages the entity accepted, and whose it refused, by the link address of the sender.
 * Under load, frames of senders whose messages were accepted are asked first, and frames of senders
 * whose messages were refused are dropped first. Each frame has this address, even if its message
 * can't be read, and a neighbour forwards only what it verified. But the address is not signed. So
 * it decides the order only, and waiting.c asks each fourth question for a frame of any sender. */
#include "parts.h"
#include <string.h>

enum { WAYS = 4, SETS = SENDERS / WAYS, KNOWN_FOR = 10000 /* ms */ };
/* Of a score. A forwarded message raises it too, whoever sent the copy that was asked about. So one
 * refused message weighs more. */
enum { ACCEPTED = 1, REFUSED = -2, MOST = 8 };

static struct sender *set_of(const struct sender *all, const uint8_t address[6]) {
    return (struct sender *)all + kept_hash(address, 6) % SETS * WAYS;
}

static bool is_known(const struct sender *s, uint64_t now) {
    return s->at != 0 && now < s->at + KNOWN_FOR;
}

static struct sender *find(const struct sender *all, const uint8_t address[6], uint64_t now) {
    struct sender *set = set_of(all, address);
    for (size_t k = 0; k < WAYS; k++) {
        if (is_known(&set[k], now) && memcmp(set[k].address, address, 6) == 0) {
            return &set[k];
        }
    }
    return NULL;
}

/* Should `a` make way rather than `b`? One that was refused does so before one that was accepted,
 * and then the one that was judged longer ago. */
static bool makes_way(const struct sender *a, const struct sender *b, uint64_t now) {
    if (!is_known(a, now) || !is_known(b, now)) {
        return is_known(b, now);
    }
    return (a->score > 0) != (b->score > 0) ? b->score > 0 : a->at < b->at;
}

/* A place for another sender. Refused senders never take one from those that were accepted. */
static struct sender *place_for(struct sender *all, const uint8_t address[6], bool good,
                                uint64_t now) {
    struct sender *set = set_of(all, address), *found = set;
    for (size_t k = 1; k < WAYS; k++) {
        found = makes_way(&set[k], found, now) ? &set[k] : found;
    }
    return !good && is_known(found, now) && found->score > 0 ? NULL : found;
}

void senders_note(struct sender *all, const uint8_t address[6], bool good, uint64_t now) {
    struct sender *s = find(all, address, now);
    if (s == NULL && (s = place_for(all, address, good, now)) == NULL) {
        return;
    }
    if (!is_known(s, now) || memcmp(s->address, address, 6) != 0) {
        memcpy(s->address, address, 6);
        s->score = 0;
        s->turn = 0;
    }
    int score = s->score + (good ? ACCEPTED : REFUSED);
    s->score = (int8_t)(score > MOST ? MOST : score < -MOST ? -MOST : score);
    s->at = now;
}

void senders_ask(struct sender *all, const uint8_t address[6], uint64_t turn, uint64_t now) {
    struct sender *s = find(all, address, now);
    if (s != NULL) {
        s->turn = turn;
    }
}

enum standing senders_find(const struct sender *all, const uint8_t address[6], uint64_t now,
                           uint64_t *turn) {
    const struct sender *s = find(all, address, now);
    *turn = s != NULL && s->score > 0 ? s->turn : 0;
    if (s == NULL || s->score == 0) {
        return SENDER_UNKNOWN;
    }
    return s->score > 0 ? SENDER_ACCEPTED : SENDER_REFUSED;
}
