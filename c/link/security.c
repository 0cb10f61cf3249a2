/* Signed packets. Own packets go to the security entity before they are sent. Received frames go to
 * it before they reach the station. Nothing here waits. */
#define _GNU_SOURCE
#include "parts.h"
#include <string.h>

enum { ANSWERS_A_TURN = 64 };
enum { RENEW_FIRST = 1000, RENEW_LAST = 64000 /* ms */ };

bool security_is_up(const struct security *x) { return x->entity.fd >= 0 && !x->silent; }

/* Is it an unsecured packet? Its Basic Header has version 1, and the Common Header follows. */
static bool is_unsecured(const struct received *r) {
    return r->length >= 15 && r->octets[12] == 0x89 && r->octets[13] == 0x47
        && r->octets[14] == 0x11;
}

/* Would the station not process the frame, whatever its message says? */
static bool needs_no_entity(const struct security *x, const struct received *r) {
    static const uint8_t broadcast[6] = { 0xff, 0xff, 0xff, 0xff, 0xff, 0xff };
    uint8_t own[6];
    size_t start, n;
    if (geostation_message(r->octets, r->length, &start, &n) != GEOSTATION_OK) {
        return true;
    }
    link_address(x->station->address, own);
    return memcmp(r->octets, own, sizeof own) != 0
        && memcmp(r->octets, broadcast, sizeof broadcast) != 0;
}

void security_hear(struct security *x, const struct received *r) {
    if (is_unsecured(r)) {
        x->counts.unsecured++;
    } else if (needs_no_entity(x, r)) {
        x->counts.dropped_early++;
    } else if (!security_is_up(x)) {
        x->counts.unanswered++;
    } else {
        requests_verify(x, r);
    }
}

/* False: the entity is gone. */
static bool read_answers(struct security *x) {
    static char text[2 * DATAGRAM_MAX];
    static struct answer a;
    size_t n = 0;
    for (int k = 0; k < ANSWERS_A_TURN; k++) {
        switch (entity_receive(&x->entity, text, sizeof text, &n)) {
        case NOTHING_ARRIVED: return true;
        case ENTITY_GONE: return false;
        case CUT_DATAGRAM: x->counts.strays++; break;
        case DATAGRAM:
            if (datagram_read(&a, text, n)) {
                requests_take_answer(x, &a);
            } else {
                x->counts.strays++;
            }
        }
    }
    return true;
}

/* Applications get an event each time that it changes. */
static void tell(struct security *x, uint64_t now) {
    struct text t;
    if (x->reported_up != security_is_up(x)) {
        x->reported_up = security_is_up(x);
        event_security(&t, now, x->reported_up);
        clients_tell(x->station->clients, &t, now);
    }
}

static void lose_entity(struct security *x, uint64_t now) {
    entity_close(&x->entity, now);
    note("%s: the security entity is gone: nothing is sent or received", x->entity.path);
    requests_end_all(x);
    tell(x, now);
}

/* ---- an entity that is there and does not answer */

static void begin_silence(struct security *x, uint64_t now) {
    x->silent = true;
    x->renew_after = RENEW_FIRST;
    x->renew_at = now + x->renew_after;
    note("%s: the security entity has not answered for %u ms: nothing is sent or received",
         x->entity.path, (unsigned)(now - x->heard_at));
    requests_end_waiting(x);
    requests_probe(x);
    tell(x, now);
}

static void end_silence(struct security *x, uint64_t now) {
    note("%s: the security entity answers again", x->entity.path);
    tell(x, now);
}

/* After one timeout without any answer, the entity is asked whether it lives: maybe it lost a
 * request. After two it is silent. */
static void watch(struct security *x, uint64_t now) {
    uint64_t timeout = pace_timeout(&x->pace);
    if (x->asked.count == 0 || now < x->heard_at + timeout) {
        return;
    }
    if (!x->probed) {
        requests_probe(x);
    }
    if (!x->silent && now >= x->heard_at + 2 * timeout) {
        begin_silence(x, now);
    }
}

static uint64_t watch_due(const struct security *x) {
    uint64_t timeout = pace_timeout(&x->pace);
    if (x->silent) {
        return x->renew_at;
    }
    return x->asked.count == 0 ? UINT64_MAX : x->heard_at + (x->probed ? 2 : 1) * timeout;
}

/* What a silent entity was asked may be lost. So it gets new connections, less and less often. */
static void renew(struct security *x, uint64_t now) {
    entity_close(&x->entity, now);
    requests_end_all(x);
    x->entity.try_at = now;
    x->renew_after *= x->renew_after < RENEW_LAST ? 2 : 1;
}

/* ---- the connection */

/* An entity that was silent has to answer before anything else is asked. */
static void try_entity(struct security *x, uint64_t now) {
    if (now < x->entity.try_at || !entity_try(&x->entity, now)) {
        return;
    }
    if (x->silent) {
        x->renew_at = now + x->renew_after;
        requests_probe(x);
    } else {
        pace_start(&x->pace);
        note("%s: the security entity is there", x->entity.path);
        tell(x, now);
    }
}

void security_start(struct security *x, struct station *s, const struct options *o) {
    x->station = s;
    x->pace.workers = o->security_workers;
    x->pace.timeout = o->security_timeout;
    pace_start(&x->pace);
    requests_start(x);
    entity_start(&x->entity, o);
    x->reported_up = entity_try(&x->entity, clock_now());
}

static void turn(struct security *x, bool ready, uint64_t now) {
    bool was_silent = x->silent;
    if (ready && !read_answers(x)) {
        lose_entity(x, now);
        return;
    }
    if (was_silent && !x->silent) {
        end_silence(x, now);
    } else if (was_silent && now >= x->renew_at) {
        renew(x, now);
        return;
    }
    requests_ask(x);
    requests_expire(x, clock_now());
    watch(x, clock_now());
}

void security_turn(struct security *x, bool ready) {
    uint64_t now = clock_now();
    if (x->entity.fd >= 0) {
        turn(x, ready, now);
    }
    if (x->entity.fd < 0) {
        try_entity(x, now);
    }
}

static uint64_t least(uint64_t a, uint64_t b) { return a < b ? a : b; }

uint64_t security_due(const struct security *x) {
    return x->entity.fd < 0 ? x->entity.try_at : least(requests_due(x), watch_due(x));
}

int security_fd(const struct security *x) { return x != NULL ? x->entity.fd : -1; }

void security_end(struct security *x) { requests_free(x); }
