/* Follows steps of the clock. Before its first own packet the station has said no time to anybody,
 * so it takes any other. Later it does so if --clock-follow is set. The times in its packets never
 * fall for those who remember them: after a step back it is silent until its time is later than in
 * its last packet, or until others have forgotten it. */
#include "parts.h"
#include <inttypes.h>
#include <stdlib.h>

enum {
    LOOK_EACH = 1000,  /* ms */
    STEP_FROM = 100,   /* ms: less is no step */
    FORGOTTEN = 25000, /* ms: an entry in a location table lives for 20 s */
};

static const struct refusal not_synchronised = { "no clock", "the clock is not synchronised" };
static const struct refusal set_back = { "no clock", "the clock was set back a short time ago" };

static bool is_step(int64_t ms) { return llabs(ms) >= STEP_FROM; }

const struct refusal *steps_refusal(const struct steps *w) {
    bool good = w->usable && (w->synchronised || !w->demands);
    return w->silent ? &set_back : !good ? &not_synchronised : NULL;
}

static void tell(const struct steps *w, struct station *s, uint64_t now, int64_t step) {
    struct text t;
    event_clock(&t, now, w->synchronised, step, w->offset);
    clients_tell(s->clients, &t, now);
}

static void follow(struct steps *w, struct station *s, uint64_t now) {
    int64_t step = w->offset;
    clock_step(step);
    station_follow_step(s, now);
    w->offset = w->reported = 0;
    w->silent = false;
    note("the clock was set by %+.3f s: the station follows", (double)step / 1000);
    tell(w, s, now, step);
}

/* Has the station to be silent before it may follow this step? */
static bool must_wait(const struct steps *w, const struct station *s, uint64_t now) {
    uint64_t back = w->offset < 0 ? (uint64_t)-w->offset : 0;
    return s->has_sent && now <= s->own_at + (back < FORGOTTEN ? back : FORGOTTEN);
}

static void report(struct steps *w, struct station *s, uint64_t now) {
    if (is_step(w->offset - w->reported)) {
        w->reported = w->offset;
        note("the clock was set by %+.3f s: %s", (double)w->offset / 1000, w->follows
             ? "the station is silent before it follows"
             : "time stamps are wrong by that until the station is restarted");
        tell(w, s, now, 0);
    }
}

static void take_synchronised(struct steps *w, struct station *s, uint64_t now, bool synchronised) {
    if (w->synchronised != synchronised) {
        w->synchronised = synchronised;
        note("the clock is %ssynchronised", synchronised ? "" : "no longer ");
        tell(w, s, now, 0);
    }
}

void steps_start(struct steps *w, const struct options *o) {
    w->demands = o->clock_synchronised;
    w->follows = o->clock_follow;
    struct clock_state c = clock_look();
    w->usable = c.usable;
    w->synchronised = c.synchronised;
}

void steps_turn(struct steps *w, struct station *s, uint64_t now) {
    if (s->has_sent && now < w->look_at) {
        return;
    }
    struct clock_state c = clock_look();
    w->look_at = now + LOOK_EACH;
    w->usable = c.usable || s->has_sent;
    w->offset = c.offset;
    w->silent = false;
    if (!is_step(c.offset)) {
        w->reported = 0;
    } else if (!s->has_sent || (w->follows && !must_wait(w, s, now))) {
        follow(w, s, now);
    } else {
        w->silent = w->follows;
        report(w, s, now);
    }
    take_synchronised(w, s, now, c.synchronised);
}
