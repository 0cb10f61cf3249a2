/* The handles of the library that make up the station: see struct station. */
#define _GNU_SOURCE
#include "parts.h"
#include <inttypes.h>
#include <string.h>

enum { HELD_PLACES = 8704 /* bytes for held frames, at most */ };

static geostation_handle *make(const struct geostation_config *c) {
    geostation_handle *handle;
    int status = geostation_new_from_config(&handle, c);
    if (status == GEOSTATION_BAD_ARGUMENT) {
        fail(BAD_ARGUMENTS, "--address %016" PRIx64 ": %s", c->address,
             geostation_status_text(status));
    }
    if (status != GEOSTATION_OK) {
        uint32_t places = c->area_forwarding == GEOSTATION_CONTENTION ? HELD_PLACES : 0;
        fail(FAILED, "out of memory: --capacity %u and --remember %u need %u kB of the limit "
             "(ulimit -v, MemoryMax=)", c->capacity, c->remember,
             (37728 + places + c->capacity * (58 + 2u * c->remember)) / 1000 + 1);
    }
    return handle;
}

/* The first beacon is due a jitter after a restart. */
void handles_make(struct station *s, uint64_t moment, uint16_t number) {
    struct geostation_config c = s->config;
    s->handle = make(&c);
    c.capacity = c.remember = 1;
    c.own_rate = c.forward_rate = c.source_rate = c.hop_cap = c.deliver_once = 0;
    c.area_forwarding = GEOSTATION_SIMPLE;
    s->beacons = make(&c);
    ignore_status(geostation_restart(s->handle, moment, number));
    ignore_status(geostation_restart(s->beacons, moment, 0));
}

void handles_free(struct station *s) {
    geostation_free(s->beacons);
    geostation_free(s->handle);
}

/* ---- counts */

/* Adds what a handle counted, but for what it took for sent. */
static void add(struct geostation_counts *to, const geostation_handle *h) {
    struct geostation_counts more;
    _Static_assert(sizeof more % sizeof(uint64_t) == 0, "counts");
    geostation_counts(h, &more);
    memset(&more.sent, 0, sizeof more.sent);
    uint64_t *sums = (uint64_t *)to;
    const uint64_t *terms = (const uint64_t *)&more;
    for (size_t k = 0; k < sizeof more / sizeof *terms; k++) {
        sums[k] += terms[k];
    }
}

void station_counts(const struct station *s, struct geostation_counts *out) {
    *out = s->counts;
    add(out, s->handle);
    add(out, s->beacons);
}

uint64_t handles_waiting(const struct geostation_counts *c) {
    return c->contention.held - c->contention.released - c->contention.cancelled
        - c->contention.dropped;
}

/* ---- an earlier moment */

/* Only a port that is open can be closed. Returns how many were. */
static size_t close_ports(const struct station *s, uint16_t ports[PORTS]) {
    size_t count = 0;
    for (uint32_t port = 0; port <= UINT16_MAX && count < PORTS; port++) {
        if (geostation_close_port(s->handle, s->last, (uint16_t)port) == GEOSTATION_OK) {
            ports[count++] = (uint16_t)port;
        }
    }
    return count;
}

/* Numbers and counts go on, and ports stay open. Held frames are dropped. */
void handles_renew(struct station *s, uint64_t moment) {
    uint16_t ports[PORTS];
    uint16_t number = geostation_next_number(s->handle);
    station_counts(s, &s->counts);
    s->counts.contention.dropped += handles_waiting(&s->counts);
    size_t count = close_ports(s, ports);
    handles_free(s);
    handles_make(s, moment, number);
    for (size_t k = 0; k < count; k++) {
        ignore_status(geostation_open_port(s->handle, moment, ports[k]));
    }
}
