/* Own packets that wait for a signature, and received frames that wait for a verification. The
 * entity gets few requests at a time (pace.c). Own packets have places of their own and don't wait
 * for received frames. If too many received frames wait, or one waits for too long, it is dropped
 * (waiting.c). */
#include "parts.h"
#include <stdlib.h>
#include <string.h>

enum { SENDER = 6 /* offset of its link address */ };

static void put(struct request_list *l, struct request *r) { l->all[l->count++] = r; }

static struct request *take(struct request_list *l, size_t k) {
    struct request *found = l->all[k];
    l->count--;
    memmove(l->all + k, l->all + k + 1, (l->count - k) * sizeof *l->all);
    return found;
}

/* The lists have places for all requests that may be in them, so there is a spare one. */
static struct request *make(struct security *x, enum request_kind kind, const uint8_t *frame,
                            size_t length) {
    struct request *r = take(&x->spare, x->spare.count - 1);
    r->kind = kind;
    r->late = false;
    r->id = 0;
    r->held = NULL;
    r->length = length;
    memcpy(r->frame, frame, length);
    return r;
}

static const uint8_t *part_of(const struct request *r) { return r->frame + BASIC_END; }
static size_t part_length(const struct request *r) { return r->length - BASIC_END; }

static bool is_same_message(const struct request *a, const struct request *b) {
    return a->hash == b->hash && a->length == b->length
        && memcmp(part_of(a), part_of(b), part_length(a)) == 0;
}

/* ---- outcomes */

/* `a`: NULL if there is no answer. */
static void end_verify(struct security *x, const struct request *r, const struct answer *a) {
    if (a == NULL) {
        x->counts.unanswered++;
    } else if (a->kind == PLAIN_PART) {
        x->counts.verified++;
        station_take_verified(x->station, r->frame, r->length, a, r->at);
    } else {
        x->counts.rejected++;
    }
}

static void end_sign(struct security *x, const struct request *r, const struct answer *a) {
    static uint8_t sealed[GEOSTATION_SECURED_FRAME_MAX];
    size_t n = 0;
    bool good = a != NULL && a->kind == MESSAGE
        && geostation_seal(r->frame, r->length, a->octets, a->length, sealed, sizeof sealed, &n)
            == GEOSTATION_OK;
    if (good) {
        x->counts.signed_packets++;
    } else {
        x->counts.unsigned_packets++;
    }
    station_send_signed(x->station, r->frame, r->length, sealed, n, r->held, r->at);
}

/* The outcome of a late request was decided before. */
static void decide(struct security *x, const struct request *r, const struct answer *a) {
    if (r->late) {
        x->counts.strays += a != NULL;
    } else if (r->kind == SIGN) {
        end_sign(x, r, a);
    } else if (r->kind == VERIFY) {
        end_verify(x, r, a);
    }
}

static void end_request(struct security *x, struct request *r, const struct answer *a) {
    decide(x, r, a);
    put(&x->spare, r);
}

/* An answer counts for the copies of its message that arrived meanwhile too. */
static void end_copies(struct security *x, const struct request *r, const struct answer *a) {
    for (size_t k = 0; k < x->verifies.count;) {
        if (is_same_message(x->verifies.all[k], r)) {
            end_request(x, take(&x->verifies, k), a);
        } else {
            k++;
        }
    }
}

/* ---- questions */

static size_t count_asked(const struct security *x, enum request_kind kind) {
    size_t count = 0;
    for (size_t k = 0; k < x->asked.count; k++) {
        count += x->asked.all[k]->kind == kind;
    }
    return count;
}

bool requests_are_asked(const struct security *x, const struct request *r) {
    for (size_t k = 0; k < x->asked.count; k++) {
        if (x->asked.all[k]->kind == VERIFY && is_same_message(x->asked.all[k], r)) {
            return true;
        }
    }
    return false;
}

/* Whether the entity may have one more own packet, however many received frames it has. */
static bool may_sign(const struct security *x) {
    return x->asked.count - count_asked(x, PROBE) < ASKED
        && count_asked(x, SIGN) < x->pace.window;
}

static bool may_verify(const struct security *x) {
    return x->asked.count - count_asked(x, PROBE) < x->pace.window;
}

/* The request that goes to the entity next, or NULL. A copy of a message that is with it waits. */
static struct request *next_of(struct security *x, uint64_t now) {
    if (x->signs.count != 0 && may_sign(x)) {
        return take(&x->signs, 0);
    }
    if (x->verifies.count == 0 || !may_verify(x)) {
        return NULL;
    }
    size_t k = waiting_next(x, now);
    if (k == x->verifies.count) {
        return NULL;
    }
    senders_ask(x->senders, x->verifies.all[k]->frame + SENDER, ++x->turns, now);
    return take(&x->verifies, k);
}

static void ask(struct security *x, struct request *r, uint64_t now) {
    static char text[DATAGRAM_MAX];
    if (x->asked.count == 0) {
        x->heard_at = now;
        x->probed = false;
    }
    r->id = ++x->last_id;
    r->asked_at = now;
    r->asked_micros = clock_micros();
    r->window = x->pace.window;
    r->until = now + pace_timeout(&x->pace);
    size_t n = r->kind == SIGN ? datagram_sign(text, r->id, r->frame, r->length)
                               : datagram_verify(text, r->id, r->frame, r->length, r->at);
    put(&x->asked, r);
    entity_send(&x->entity, text, n);
}

void requests_ask(struct security *x) {
    uint64_t now = clock_now();
    for (struct request *r; security_is_up(x) && (r = next_of(x, now)) != NULL;) {
        ask(x, r, now);
    }
}

/* Asks about a message that no entity accepts. Whatever it answers, it lives. */
void requests_probe(struct security *x) {
    static const uint8_t frame[BASIC_END + 1] = { [12] = 0x89, 0x47, 0x12, [17] = 1 };
    uint64_t now = clock_now();
    if (count_asked(x, PROBE) < PROBES) {
        struct request *r = make(x, PROBE, frame, sizeof frame);
        r->at = now;
        ask(x, r, now);
    }
    x->probed = true;
}

/* Whether there is a place for one more own packet. A refusal is counted. */
bool requests_may_sign(struct security *x) {
    x->counts.unsigned_packets += x->signs.count == SIGNS;
    return x->signs.count < SIGNS;
}

/* The station's own packet. False: there is no place for it, or no entity. */
bool requests_sign(struct security *x, const uint8_t *frame, size_t length, struct held *h) {
    if (!security_is_up(x) || x->signs.count == SIGNS) {
        x->counts.unsigned_packets++;
        return false;
    }
    struct request *r = make(x, SIGN, frame, length);
    r->held = h;
    r->at = clock_now();
    put(&x->signs, r);
    requests_ask(x);
    return true;
}

static void drop(struct security *x, size_t k) {
    put(&x->spare, take(&x->verifies, k));
    x->counts.overrun++;
}

void requests_verify(struct security *x, const struct received *got) {
    uint64_t now = clock_now();
    struct request *r = make(x, VERIFY, got->octets, got->length);
    r->at = got->at;
    r->hash = kept_hash(part_of(r), part_length(r));
    const struct answer *a = kept_find(x->kept, r->hash, part_of(r), part_length(r), now);
    if (a != NULL) {
        end_request(x, r, a);
        return;
    }
    waiting_judge(x, r, now);
    put(&x->verifies, r);
    if (x->verifies.count > VERIFIES) {
        drop(x, waiting_worst(x));
    }
    requests_ask(x);
}

/* ---- answers */

/* Does a plain part agree with a message? It has to if the message can be read. */
static bool agrees(const uint8_t *message, size_t n, const uint8_t *plain, size_t plain_length) {
    size_t start, length;
    return !envelope_read(message, n, &start, &length)
        || (length == plain_length && memcmp(message + start, plain, length) == 0);
}

/* An answer to another question than that of the request is an error. */
static void judge(const struct request *r, struct answer *a) {
    bool good = r->kind == SIGN
        ? a->kind == MESSAGE && agrees(a->octets, a->length, part_of(r), part_length(r))
        : a->kind == PLAIN_PART && agrees(part_of(r), part_length(r), a->octets, a->length);
    if (!good) {
        a->kind = NOT_DONE;
    }
}

static size_t place_of(const struct security *x, uint64_t id) {
    size_t k = 0;
    while (k < x->asked.count && x->asked.all[k]->id != id) {
        k++;
    }
    return k;
}

/* The entity answered a request that it got at this time. Those that were late by then are lost. */
static void give_up_lost(struct security *x, uint64_t asked_at) {
    for (size_t k = 0; k < x->asked.count;) {
        const struct request *r = x->asked.all[k];
        if (r->until <= asked_at && (r->late || r->kind == PROBE)) {
            end_request(x, take(&x->asked, k), NULL);
        } else {
            k++;
        }
    }
}

static void end_asked(struct security *x, struct request *r, struct answer *a) {
    judge(r, a);
    if (r->kind == VERIFY) {
        senders_note(x->senders, r->frame + SENDER, a->kind == PLAIN_PART, clock_now());
        kept_put(x->kept, &x->next_kept, r->hash, part_of(r), part_length(r), a, clock_now());
    }
    decide(x, r, a);
    if (r->kind == VERIFY) {
        end_copies(x, r, a);
    }
    put(&x->spare, r);
}

void requests_take_answer(struct security *x, struct answer *a) {
    size_t k = place_of(x, a->id);
    if (k == x->asked.count) {
        x->counts.strays++;
        return;
    }
    struct request *r = take(&x->asked, k);
    bool more_wait = x->verifies.count != 0 || x->signs.count != 0;
    x->heard_at = clock_now();
    x->probed = x->silent = false;
    pace_answer(&x->pace, clock_micros() - r->asked_micros, r->window, more_wait);
    give_up_lost(x, r->asked_at);
    end_asked(x, r, a);
}

/* ---- the end of requests */

void requests_expire(struct security *x, uint64_t now) {
    for (size_t k = 0; k < x->asked.count; k++) {
        struct request *r = x->asked.all[k];
        if (!r->late && r->kind != PROBE && r->until <= now) {
            decide(x, r, NULL);
            r->late = true;
        }
    }
    while (x->verifies.count != 0 && now > x->verifies.all[0]->at + VERIFIES_FOR) {
        drop(x, 0);
    }
}

static void end_list(struct security *x, struct request_list *l) {
    while (l->count != 0) {
        end_request(x, take(l, 0), NULL);
    }
}

void requests_end_waiting(struct security *x) {
    end_list(x, &x->signs);
    end_list(x, &x->verifies);
}

void requests_end_all(struct security *x) {
    end_list(x, &x->asked);
    requests_end_waiting(x);
}

void requests_start(struct security *x) {
    x->requests = calloc(REQUESTS, sizeof *x->requests);
    x->kept = calloc(KEPT, sizeof *x->kept);
    x->senders = calloc(SENDERS, sizeof *x->senders);
    if (x->requests == NULL || x->kept == NULL || x->senders == NULL) {
        fail(FAILED, "out of memory");
    }
    for (size_t k = 0; k < REQUESTS; k++) {
        put(&x->spare, &x->requests[k]);
    }
}

uint64_t requests_due(const struct security *x) {
    uint64_t due = x->verifies.count != 0 ? x->verifies.all[0]->at + VERIFIES_FOR + 1 : UINT64_MAX;
    for (size_t k = 0; k < x->asked.count; k++) {
        const struct request *r = x->asked.all[k];
        due = !r->late && r->kind != PROBE && r->until < due ? r->until : due;
    }
    return due;
}

void requests_free(struct security *x) {
    free(x->requests);
    free(x->kept);
    free(x->senders);
}
