/* The station's own packets: why one can't be sent, the sending, and what was sent. What isn't sent
 * puts no beacon off and isn't counted. The library takes each packet that it writes for sent, so
 * another handle has the time of the next beacon: it learns only of packets that were sent. */
#include "parts.h"

enum { AGAIN_AFTER = 1000 /* ms: a beacon that wasn't sent */ };

static const struct refusal link_down = { "link down", "the link is down: nothing was sent" };
static const struct refusal queue_full = { "queue full", "the link takes no more frames now" };
static const struct refusal too_long = { "too long", "the frame is over the link's MTU" };
static const struct refusal lifetime_over = { "lifetime over",
                                              "the packet's lifetime passed before it was signed" };
static const struct refusal no_fix = { "no place", "the station has no position yet" };
static const struct refusal old_fix = { "no place", "the last fix is too old" };
static const struct refusal no_entity = { "no security", "there is no security entity" };
static const struct refusal no_signature = { "not signed",
                                             "the security entity did not sign the packet" };
static const struct refusal too_many = { "not signed", "too many packets wait for a signature" };

const struct refusal *own_place_refusal(const struct station *s) {
    return place_is_usable(s->place) ? NULL : s->place->known ? &old_fix : &no_fix;
}

static const struct refusal *refusal_of(enum sending result) {
    switch (result) {
    case LINK_DOWN: return &link_down;
    case QUEUE_FULL: return &queue_full;
    case FRAME_TOO_LONG: return &too_long;
    case LIFETIME_OVER: return &lifetime_over;
    default: return NULL;
    }
}

const struct refusal *own_refusal(struct station *s, size_t length) {
    if (s->security != NULL && !security_is_up(s->security)) {
        return &no_entity;
    }
    const struct refusal *why = own_place_refusal(s);
    if (why == NULL) {
        why = steps_refusal(s->steps);
    }
    if (why != NULL) {
        return why;
    }
    why = refusal_of(link_refuses(s->link, length));
    if (why == NULL && s->security != NULL && !requests_may_sign(s->security)) {
        return &too_many;
    }
    return why;
}

/* ---- what was sent */

static void count(struct station *s, uint32_t kind) {
    switch (kind) {
    case GEOSTATION_BEACON: s->counts.sent.beacons++; break;
    case GEOSTATION_SHB: s->counts.sent.single_hop++; break;
    case GEOSTATION_GBC: s->counts.sent.geobroadcasts++; break;
    default: s->counts.sent.geoanycasts++;
    }
}

/* The link took a packet. A beacon is already known to the handle of beacons. */
static void was_sent(struct station *s, uint32_t kind) {
    static uint8_t frame[GEOSTATION_FRAME_MAX];
    const struct geostation_shb_request any = { .port = 0 };
    size_t length = 0;
    count(s, kind);
    if (kind != GEOSTATION_BEACON) {
        ignore_status(geostation_send_shb(s->beacons, s->last, &any, NULL, 0, frame, sizeof frame,
                                          &length));
        station_plan_beacon(s);
    }
}

/* A beacon that wasn't sent is tried again soon. Other packets leave nothing behind. */
static void was_not_sent(struct station *s, uint32_t kind) {
    if (kind == GEOSTATION_BEACON) {
        ignore_status(geostation_restart(s->beacons, s->last, 0));
        s->beacon_at = s->last + AGAIN_AFTER + s->jitter;
    }
}

static const struct refusal *take_result(struct station *s, enum sending result, uint32_t kind) {
    if (result == SENT) {
        was_sent(s, kind);
    } else {
        was_not_sent(s, kind);
    }
    return refusal_of(result);
}

/* ---- sending */

const struct refusal *own_send(struct station *s, size_t length, uint32_t kind, struct held *h) {
    conflict_remember(&s->conflict, s->frame, length);
    s->has_sent = true;
    s->own_at = clock_now();
    if (h != NULL) {
        h->kind = kind;
        h->by = h->client->by;
    }
    if (s->security == NULL) {
        const struct refusal *why = take_result(s, link_send(s->link, s->frame, length), kind);
        if (why == NULL && h != NULL) {
            audit_sent(s->audit, &h->by, s->frame, length);
        }
        return why;
    }
    if (requests_sign(s->security, s->frame, length, h)) {
        if (h != NULL) {
            h->waits = true;
        }
        return NULL;
    }
    was_not_sent(s, kind);
    return &too_many;
}

void station_send_signed(struct station *s, const uint8_t *plain, size_t plain_length,
                         const uint8_t *frame, size_t length, struct held *h, uint64_t since) {
    uint32_t kind = h != NULL ? h->kind : GEOSTATION_BEACON;
    const struct refusal *why = &no_signature;
    s->last = clock_moment();
    if (length != 0) {
        why = take_result(s, link_send_in_time(s->link, frame, length, since), kind);
    } else {
        was_not_sent(s, kind);
    }
    if (h != NULL) {
        if (why == NULL) {
            audit_sent(s->audit, &h->by, plain, plain_length);
        }
        answer_complete(h, frame, length, why);
    }
}
