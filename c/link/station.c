/* The proved station: received frames, and its beacons. */
#define _GNU_SOURCE
#include "parts.h"

enum {
    SHORTEST = 60, /* octets: Ethernet pads shorter frames with zeros */
    MAC_AT = 6,    /* of a frame's sender */
};

static uint16_t draw_jitter(void) { return (uint16_t)draw_below(GEOSTATION_JITTER_MAX + 1); }

/* Call it only after the station's own packets and restarts. */
void station_plan_beacon(struct station *s) {
    s->beacon_at = geostation_beacon_at(s->beacons, s->jitter);
}

void station_open(struct station *s, const struct options *o) {
    uint64_t moment = clock_moment();
    s->config = o->station;
    s->release_spread = o->forward_spread;
    s->release_due = s->release_at = UINT64_MAX;
    /* A random first sequence number: others would ignore numbers that they remember. */
    handles_make(s, moment, o->numbered ? (uint16_t)o->first_number : draw());
    s->address = o->station.address;
    s->last = moment;
    conflict_start(&s->conflict);
    for (size_t k = 0; k < o->ports.count; k++) {
        uint16_t port = o->ports.all[k];
        int status = geostation_open_port(s->handle, moment, port);
        if (status != GEOSTATION_OK) {
            fail(BAD_ARGUMENTS, "--port %u: %s", port, geostation_status_text(status));
        }
    }
    if (s->place->known) {
        place_tell(s->place, s, clock_now());
    }
    s->jitter = draw_jitter();
    station_plan_beacon(s);
}

/* A handle accepts no moment that is earlier than its last one. */
void station_follow_step(struct station *s, uint64_t now) {
    uint64_t moment = clock_moment_at(now);
    if (moment < s->last) {
        handles_renew(s, moment);
    }
    s->last = moment;
    conflict_start(&s->conflict);
    if (s->place->fixed) {
        s->place->timestamp = (uint32_t)moment;
    }
    if (s->place->known) {
        place_tell(s->place, s, now);
    }
    station_plan_beacon(s);
}

/* Ports that applications opened or closed meanwhile stay as they are. */
void station_change_ports(struct station *s, const struct ports *old, const struct ports *new) {
    s->last = clock_moment();
    for (size_t k = 0; k < old->count; k++) {
        if (!ports_have(new, old->all[k])) {
            ignore_status(geostation_close_port(s->handle, s->last, old->all[k]));
            clients_forget_port(s->clients, old->all[k]);
        }
    }
    for (size_t k = 0; k < new->count; k++) {
        if (!ports_have(old, new->all[k])) {
            ignore_status(geostation_open_port(s->handle, s->last, new->all[k]));
        }
    }
}

static void count_padded(struct station *s, const struct received *r) {
    size_t n = r->length;
    if (n <= SHORTEST && n != 0 && r->octets[n - 1] == 0) {
        size_t length = geostation_frame_length(r->octets, n);
        s->link->padded += length != 0 && length < n;
    }
}

/* While the position is lost, the station receives but forwards nothing. */
static void forward(struct station *s, size_t length, uint64_t since) {
    if (length != 0 && place_is_usable(s->place)) {
        forwards_put(s->forwards, s->frame, length, since);
    } else {
        s->link->dropped += length != 0;
    }
}

static void look_for_conflict(struct station *s, const struct received *r,
                              const struct geostation_reception *got) {
    if (got->ignored == GEOSTATION_OWN_SOURCE) {
        size_t n = geostation_frame_length(r->octets, r->length);
        conflict_look(s, got, r->octets + MAC_AT, r->octets + BASIC_END, n - BASIC_END);
    }
}

/* The station's times never go back. So a frame that waited is processed at the time of the last
 * call, but its event has the time at which the kernel received it. */
static void take_unsecured(struct station *s, const struct received *r) {
    struct geostation_reception got;
    uint64_t moment = clock_moment_at(r->at);
    s->last = moment > s->last ? moment : s->last;
    ignore_status(geostation_receive(s->handle, s->last, r->octets, r->length, &got, s->frame,
                                     sizeof s->frame));
    forward(s, got.relay_length, r->at);
    look_for_conflict(s, r, &got);
    count_padded(s, r);
    if (got.delivered) {
        struct text t;
        event_delivered(&t, moment, &got, r->octets + got.payload_start, NULL);
        clients_deliver(s->clients, &t, got.port);
    }
}

/* A frame that was received at `since`, and whose message was verified. Its time is now. */
void station_take_verified(struct station *s, const uint8_t *frame, size_t length,
                           const struct answer *a, uint64_t since) {
    struct geostation_reception got;
    s->last = clock_moment();
    ignore_status(geostation_receive_verified(s->handle, s->last, frame, length, a->octets,
                                              a->length, &got, s->frame, sizeof s->frame));
    forward(s, got.relay_length, since);
    conflict_look(s, &got, frame + MAC_AT, a->octets, a->length);
    if (got.delivered) {
        struct text t;
        event_delivered(&t, s->last, &got, a->octets + got.payload_start, a);
        clients_deliver(s->clients, &t, got.port);
    }
}

void station_hear(struct station *s, const struct received *r) {
    if (!s->place->known) {
        return;
    }
    if (s->security != NULL) {
        security_hear(s->security, r);
    } else {
        take_unsecured(s, r);
    }
}

bool station_contends(const struct station *s) {
    return s->config.area_forwarding == GEOSTATION_CONTENTION;
}

/* With security, nothing is sent without the entity. */
bool station_may_send(const struct station *s) {
    return s->link->up && place_is_usable(s->place) && steps_refusal(s->steps) == NULL
        && (s->security == NULL || security_is_up(s->security));
}

void station_beacon(struct station *s, uint64_t now) {
    size_t n = 0;
    uint64_t moment = clock_moment_at(now);
    if (!station_may_send(s) || moment < s->beacon_at) {
        return;
    }
    s->last = moment;
    place_refresh(s->place, s, now);
    ignore_status(geostation_tick(s->beacons, moment, s->jitter, s->frame, sizeof s->frame, &n));
    if (n != 0) {
        s->jitter = draw_jitter();
    }
    station_plan_beacon(s);
    if (s->beacon_at <= moment) {
        s->beacon_at = moment + 1; /* no memory: try again a bit later */
    }
    if (n != 0) {
        (void)own_send(s, n, GEOSTATION_BEACON, NULL); /* if it fails, it is tried again */
    }
}
