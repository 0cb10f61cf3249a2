/* What was counted, as text: for an answer to `counts`, and for Prometheus. */
#include "parts.h"
#include <inttypes.h>
#include <stdarg.h>
#include <stdio.h>

/* Text that grows in a buffer. What does not fit is left out. */
struct page {
    char *out;
    size_t room, length;
};

__attribute__((format(printf, 2, 3))) static void put(struct page *p, const char *format, ...) {
    va_list rest;
    va_start(rest, format);
    int n = vsnprintf(p->out + p->length, p->room - p->length, format, rest);
    va_end(rest);
    if (n > 0 && (size_t)n < p->room - p->length) {
        p->length += (size_t)n;
    }
}

/* ---- for an answer */

/* A key and its value, after a comma. */
static void member(struct page *p, const char *key, uint64_t value) {
    put(p, ",\"%s\":%" PRIu64, key, value);
}

static void members_of_security(struct page *p, const struct security_counts *c) {
    member(p, "verified", c->verified);
    member(p, "rejected", c->rejected);
    member(p, "unanswered", c->unanswered);
    member(p, "overrun", c->overrun);
    member(p, "dropped_early", c->dropped_early);
    member(p, "unsecured", c->unsecured);
    member(p, "signed", c->signed_packets);
    member(p, "unsigned", c->unsigned_packets);
    member(p, "strays", c->strays);
}

/* The first key of an object in an answer, and the key of the object. */
static void object(struct page *p, const char *name, const char *key, uint64_t value) {
    put(p, ",\"%s\":{\"%s\":%" PRIu64, name, key, value);
}

/* The keys that the library has too, in its order. */
static void members_of_station(struct page *p, const struct geostation_counts *c) {
    member(p, "received", c->received);
    member(p, "accepted", c->accepted);
    member(p, "delivered", c->delivered);
    member(p, "relayed", c->relayed);
    object(p, "ignored", "not_for_me", c->ignored.not_for_me);
    member(p, "own_source", c->ignored.own_source);
    member(p, "sender_mismatch", c->ignored.sender_mismatch);
    member(p, "duplicate", c->ignored.duplicate);
    put(p, "}");
    object(p, "refused", "moment_earlier", c->refused.moment_earlier);
    member(p, "moment_too_late", c->refused.moment_too_late);
    member(p, "frame", c->refused.frame);
    member(p, "table_full", c->refused.table_full);
    member(p, "no_memory", c->refused.no_memory);
    member(p, "other", c->refused.other);
    put(p, "}");
    object(p, "sent", "beacons", c->sent.beacons);
    member(p, "single_hop", c->sent.single_hop);
    member(p, "geobroadcasts", c->sent.geobroadcasts);
    member(p, "geoanycasts", c->sent.geoanycasts);
    put(p, "}");
}

static void members_of_contention(struct page *p, const struct geostation_counts *c) {
    object(p, "contention", "held", c->contention.held);
    member(p, "released", c->contention.released);
    member(p, "cancelled", c->contention.cancelled);
    member(p, "dropped", c->contention.dropped);
    member(p, "full", c->contention.full);
    put(p, "}");
}

static void members_of_link(struct page *p, const struct station *s,
                            const struct geostation_counts *c) {
    struct link *l = s->link;
    object(p, "link", "frames", l->frames);
    member(p, "padded", l->padded);
    member(p, "tagged", l->tagged);
    member(p, "dropped", l->dropped);
    member(p, "expired", l->expired);
    member(p, "kernel_dropped", link_kernel_dropped(l));
    member(p, "forward_dropped", s->forwards->dropped);
    member(p, "suppressed", c->suppressed);
    member(p, "repeated", c->repeated);
    member(p, "over_rate", c->over_rate);
    member(p, "events_lost", s->clients->events_lost);
    if (s->security != NULL) {
        members_of_security(p, &s->security->counts);
    }
    put(p, "}");
}

size_t counts_print(const struct station *s, char *out, size_t room) {
    struct page p = { out, room, 0 };
    struct geostation_counts counts;
    station_counts(s, &counts);
    put(&p, "counts\"");
    members_of_station(&p, &counts);
    if (station_contends(s)) {
        members_of_contention(&p, &counts);
    }
    members_of_link(&p, s, &counts);
    put(&p, "}");
    return p.length;
}

/* ---- for Prometheus */

static void head(struct page *p, const char *name, const char *type, const char *help) {
    put(p, "# HELP geostation_%s %s\n# TYPE geostation_%s %s\n", name, help, name, type);
}

static void counter(struct page *p, const char *name, const char *help, uint64_t value) {
    head(p, name, "counter", help);
    put(p, "geostation_%s %" PRIu64 "\n", name, value);
}

static void gauge(struct page *p, const char *name, const char *help, double value) {
    head(p, name, "gauge", help);
    put(p, "geostation_%s %.3f\n", name, value);
}

struct labelled {
    const char *label;
    uint64_t value;
};

static void labelled(struct page *p, const char *name, const char *key, const char *help,
                     const struct labelled *all, size_t count) {
    head(p, name, "counter", help);
    for (size_t k = 0; k < count; k++) {
        put(p, "geostation_%s{%s=\"%s\"} %" PRIu64 "\n", name, key, all[k].label, all[k].value);
    }
}

static void put_station(struct page *p, const struct geostation_counts *c) {
    const struct labelled ignored[] = {
        { "not-for-me", c->ignored.not_for_me },
        { "own-source", c->ignored.own_source },
        { "sender-mismatch", c->ignored.sender_mismatch },
        { "duplicate", c->ignored.duplicate },
    };
    const struct labelled refused[] = {
        { "moment_earlier", c->refused.moment_earlier },
        { "moment_too_late", c->refused.moment_too_late },
        { "frame", c->refused.frame },
        { "table_full", c->refused.table_full },
        { "no_memory", c->refused.no_memory },
        { "other", c->refused.other },
    };
    const struct labelled sent[] = {
        { "beacon", c->sent.beacons },
        { "shb", c->sent.single_hop },
        { "gbc", c->sent.geobroadcasts },
        { "gac", c->sent.geoanycasts },
    };
    counter(p, "received_total", "Frames passed to the station", c->received);
    counter(p, "accepted_total", "Frames whose packet was accepted", c->accepted);
    counter(p, "delivered_total", "Payloads that were delivered", c->delivered);
    counter(p, "forwarded_total", "Frames that were forwarded", c->relayed);
    labelled(p, "ignored_total", "why", "Frames that were ignored", ignored, 4);
    labelled(p, "refused_total", "why", "Frames and calls that were refused", refused, 6);
    labelled(p, "sent_total", "kind", "The station's own packets", sent, 4);
    counter(p, "suppressed_total", "Frames not forwarded because of a limit", c->suppressed);
    counter(p, "repeated_total", "Packets withheld because they were delivered before", c->repeated);
}

static void put_contention(struct page *p, const struct geostation_counts *c) {
    const struct labelled held[] = {
        { "held", c->contention.held },           { "released", c->contention.released },
        { "cancelled", c->contention.cancelled }, { "dropped", c->contention.dropped },
        { "full", c->contention.full },
    };
    labelled(p, "contention_total", "outcome", "Frames that contend", held, 5);
    gauge(p, "contention_waiting", "Frames that are held now", (double)handles_waiting(c));
}

static void put_link(struct page *p, const struct station *s) {
    struct link *l = s->link;
    counter(p, "link_frames_total", "Frames received from the link", l->frames);
    counter(p, "link_tagged_total", "Frames with a VLAN tag, which are dropped", l->tagged);
    counter(p, "link_kernel_dropped_total", "Frames that arrived at a full receive buffer",
            link_kernel_dropped(l));
    counter(p, "link_dropped_total", "Frames that the link did not accept", l->dropped);
    counter(p, "link_expired_total", "Frames whose lifetime passed while they waited",
            l->expired);
    counter(p, "forward_dropped_total", "Frames not forwarded because 256 others waited",
            s->forwards->dropped);
    gauge(p, "link_up", "Whether the link is up", l->up);
}

static void put_security(struct page *p, const struct security *x) {
    const struct security_counts *c = &x->counts;
    const struct labelled frames[] = {
        { "verified", c->verified },           { "rejected", c->rejected },
        { "unanswered", c->unanswered },       { "overrun", c->overrun },
        { "dropped_early", c->dropped_early }, { "unsecured", c->unsecured },
    };
    const struct labelled packets[] = {
        { "signed", c->signed_packets },
        { "unsigned", c->unsigned_packets },
    };
    labelled(p, "security_frames_total", "outcome", "Frames before they reached the station",
             frames, 6);
    labelled(p, "security_packets_total", "outcome", "Packets of its own", packets, 2);
    counter(p, "security_strays_total", "Answers of the entity to no open request", c->strays);
    gauge(p, "security_up", "Whether there is a security entity that answers", security_is_up(x));
}

static void put_clients(struct page *p, const struct clients *c) {
    counter(p, "events_lost_total", "Events that did not fit into a client's queue",
            c->events_lost);
    counter(p, "clients_closed_total", "Idle clients that were closed", c->closed_idle);
    counter(p, "clients_turned_away_total", "Clients turned away: no memory or descriptor",
            c->turned_away);
    counter(p, "clients_refused_total", "Clients turned away: another user", c->refused_users);
    gauge(p, "clients", "Clients that are connected", (double)clients_count(c));
}

static void put_clock(struct page *p, const struct steps *w) {
    gauge(p, "clock_synchronised", "Whether the clock is synchronised", w->synchronised);
    gauge(p, "clock_offset_seconds", "How far the clock is ahead of the station's time",
          (double)w->offset / 1000);
}

/* A fixed position has no age. */
static void put_position(struct page *p, const struct place *at, uint64_t now) {
    gauge(p, "position_usable", "Whether the position is good enough to send", place_is_usable(at));
    if (!at->fixed && at->known) {
        gauge(p, "fix_age_seconds", "Age of the last fix", (double)(now - at->fix_at) / 1000);
    }
}

size_t counts_print_metrics(const struct station *s, uint64_t now, char *out, size_t room) {
    struct page p = { out, room, 0 };
    struct geostation_counts counts;
    station_counts(s, &counts);
    put_station(&p, &counts);
    counter(&p, "over_rate_total", "Own packets that were over their rate", counts.over_rate);
    counter(&p, "address_conflicts_total", "Packets of this address that others sent",
            s->conflict.count);
    if (station_contends(s)) {
        put_contention(&p, &counts);
    }
    put_link(&p, s);
    if (s->security != NULL) {
        put_security(&p, s->security);
    }
    put_clients(&p, s->clients);
    if (s->audit->path != NULL) {
        counter(&p, "audit_lost_total", "Lines of --audit that were lost", s->audit->lost);
    }
    put_position(&p, s->place, now);
    put_clock(&p, s->steps);
    return p.length;
}
