/* Where the station is. A packet's time stamp is that of its position (EN 302 636-4-1), so a
 * position that is fixed gets a new time stamp as time goes on: otherwise others would take its
 * packets for old ones. A fix of a receiver ages: first it is no longer accurate, later nothing is
 * sent. */
#include "parts.h"

enum { TOLD_EACH = 1000 /* ms, at most */, OLD_AFTER = 5000 /* ms */ };

/* May the station send? */
bool place_is_usable(const struct place *p) { return p->known && p->fix != FIX_LOST; }

static void tell(const struct place *p, geostation_handle *h, uint64_t moment) {
    ignore_status(geostation_move_at(h, moment, p->timestamp, p->latitude, p->longitude,
                                     p->accurate, p->speed, p->heading));
}

void place_tell(struct place *p, struct station *s, uint64_t now) {
    p->told_at = now;
    s->last = clock_moment_at(now);
    tell(p, s->handle, s->last);
    tell(p, s->beacons, s->last);
}

/* To be called before each packet of the station's own. */
void place_refresh(struct place *p, struct station *s, uint64_t now) {
    if (p->fixed && p->known && now - p->told_at >= TOLD_EACH) {
        p->timestamp = (uint32_t)clock_moment_at(now);
        place_tell(p, s, now);
    }
}

/* An application moved the station: that is its position until a fix comes. */
void place_take(struct place *p, const struct geostation_vector *v, uint64_t now) {
    p->known = true;
    p->fix = FIX_CURRENT;
    p->fix_at = now;
    p->timestamp = v->timestamp;
    p->latitude = v->latitude;
    p->longitude = v->longitude;
    p->accurate = v->accurate;
    p->speed = v->speed;
    p->heading = v->heading;
}

uint64_t place_ages_at(const struct place *p) {
    if (p->fixed || p->fix == FIX_LOST) {
        return UINT64_MAX;
    }
    bool old_next = p->fix == FIX_CURRENT && p->fix_timeout > OLD_AFTER;
    return p->fix_at + (old_next ? OLD_AFTER : p->fix_timeout);
}

bool place_age(struct place *p, uint64_t now) {
    enum fix_state was = p->fix;
    if (p->fixed) {
        return false;
    }
    if (now >= p->fix_at + p->fix_timeout) {
        p->fix = FIX_LOST;
    } else if (p->fix == FIX_CURRENT && now >= p->fix_at + OLD_AFTER) {
        p->fix = FIX_OLD;
    }
    if (p->fix == FIX_OLD || p->fix == FIX_LOST) {
        p->accurate = 0;
    }
    return p->fix != was;
}
