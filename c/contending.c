/* Takes stations that contend through drawn calls: contending CALLS [SEED]. Each has a twin with
 * simple forwarding that gets the same calls. A second computation of contention, written from the
 * rule (docs/DECISIONS.md), says what the first one has to answer, given the answer of the twin. The
 * calls are drawn by a random generator of its own, always the same for a seed. */
#include "geostation.h"
#include <inttypes.h>
#include <math.h>
#include <stdio.h>
#include <stdlib.h>
#include <string.h>

enum { STATIONS = 5, POOL = 48, PLACES = 64, LATE = 1000, ROOM = GEOSTATION_FRAME_MAX };
enum { TARGET_AT = 0, SENDER_AT = 6, LIFETIME_AT = 16, HOPS_AT = 17, MAC = 6 };

#define CHECK(e) do { if (!(e)) { fprintf(stderr, "call %lu: %s:%d: %s\n", called, __FILE__, \
    __LINE__, #e); exit(1); } } while (0)

static unsigned long called;
static uint64_t drawing = 1, now = 1000;

static uint32_t drawn(uint32_t below) {
    drawing ^= drawing << 13;
    drawing ^= drawing >> 7;
    drawing ^= drawing << 17;
    return (uint32_t)((drawing * UINT64_C(2685821657736338717) >> 32) * below >> 32);
}

/* ---- the rule, once more */

struct point {
    int64_t latitude, longitude;
};

struct held {
    uint8_t octets[ROOM];
    size_t length, senders;
    uint64_t due;
    uint8_t macs[3][MAC];
};

struct pair {
    geostation_handle *contends, *simple;
    struct geostation_config config;
    struct point place;
    uint64_t clock;
    size_t count;
    struct held held[PLACES];
    uint64_t all, released, cancelled, dropped, full;
};

static struct pair pairs[STATIONS];
static struct {
    uint64_t all, released, cancelled, dropped, full;
} sum; /* of all stations */

static int64_t sine(int64_t degrees) {
    return llround(10000 * sin((double)degrees * acos(-1) / 180));
}

/* How long a degree of longitude is at this latitude: 10000 at the equator. */
static int64_t scale(int64_t latitude) {
    int64_t u = llabs(latitude), d = u / 10000000, r = u - d * 10000000;
    return d == 90 ? 0 : (sine(90 - d) * (10000000 - r) + sine(89 - d) * r) / 10000000;
}

/* From a centre, in centimetres. */
static void offset(struct point centre, struct point p, int64_t *north, int64_t *east) {
    *north = (p.latitude - centre.latitude) * 11132 / 10000;
    *east = (p.longitude - centre.longitude) * 11132 * scale(centre.latitude) / 100000000;
}

static int is_inside(const struct geostation_area *area, struct point p) {
    const struct point centre = { area->latitude, area->longitude };
    const int64_t a = 100 * area->a, b = 100 * area->b;
    const int64_t cosine = sine(90 - area->angle), sinus = sine(area->angle);
    int64_t north, east;
    offset(centre, p, &north, &east);
    const int64_t x = (north * cosine + east * sinus) / 10000;
    const int64_t y = (east * cosine - north * sinus) / 10000;
    switch (area->shape) {
    case GEOSTATION_CIRCLE: return north * north + east * east <= a * a;
    case GEOSTATION_RECTANGLE: return llabs(x) <= a && llabs(y) <= b;
    default: return x * x * b * b + y * y * a * a <= a * a * b * b; /* all distances are short */
    }
}

static void mac_of(uint64_t address, uint8_t mac[MAC]) {
    for (int k = 0; k < MAC; k++) {
        mac[k] = (uint8_t)(address >> (40 - 8 * k));
    }
}

/* The live source of least address with this MAC, if its position is accurate. */
static int sender_place(const struct pair *p, const uint8_t *mac, struct point *place) {
    uint64_t low = 0;
    for (int k = 0; k < MAC; k++) {
        low = low << 8 | mac[k];
    }
    for (uint64_t high = 0; high < 64; high++) { /* by hand or not, and the station type */
        struct geostation_vector v;
        if (geostation_look_up(p->simple, p->clock, high << 58 | low, &v)) {
            *place = (struct point){ v.latitude, v.longitude };
            return v.accurate;
        }
    }
    return 0;
}

static uint64_t wait_of(const struct pair *p, const uint8_t *frame, uint16_t number) {
    const struct geostation_config *c = &p->config;
    const uint64_t span = c->contention_max - c->contention_min;
    struct point from;
    if (!sender_place(p, frame + SENDER_AT, &from)) {
        uint64_t tie = (p->config.address & UINT64_C(0xffffffffffff)) + number;
        return c->contention_max - tie % (span / 2 + 1);
    }
    int64_t north, east;
    offset(p->place, from, &north, &east);
    const uint64_t range = UINT64_C(100) * c->contention_range;
    const uint64_t square = (uint64_t)(north * north + east * east);
    uint64_t k = 0;
    while (k < span && (k + 1) * range * ((k + 1) * range) <= span * span * square) {
        k++;
    }
    return c->contention_max - k;
}

static int is_broadcast(const uint8_t *frame) {
    static const uint8_t all[MAC] = { 255, 255, 255, 255, 255, 255 };
    return memcmp(frame + TARGET_AT, all, MAC) == 0;
}

/* All but the link sender and the lifetime are equal. */
static int is_same(const struct held *h, const uint8_t *frame, size_t length) {
    return h->length == length && memcmp(h->octets, frame, SENDER_AT) == 0
        && memcmp(h->octets + SENDER_AT + MAC, frame + SENDER_AT + MAC,
                  LIFETIME_AT - SENDER_AT - MAC) == 0
        && memcmp(h->octets + LIFETIME_AT + 1, frame + LIFETIME_AT + 1, length - LIFETIME_AT - 1)
            == 0;
}

static void add_sender(struct held *h, const uint8_t *mac) {
    for (size_t k = 0; k < h->senders; k++) {
        if (memcmp(h->macs[k], mac, MAC) == 0) {
            return;
        }
    }
    memcpy(h->macs[h->senders++], mac, MAC);
}

static void take_out(struct pair *p, size_t k) {
    memmove(&p->held[k], &p->held[k + 1], (--p->count - k) * sizeof p->held[0]);
}

/* A duplicate came. Does it cancel? */
static uint32_t hear(struct pair *p, const uint8_t *frame, size_t length) {
    uint8_t own[MAC];
    uint32_t cancelled = 0;
    mac_of(p->config.address, own);
    if (!is_broadcast(frame) || memcmp(own, frame + SENDER_AT, MAC) == 0) {
        return 0;
    }
    for (size_t k = p->count; k-- > 0;) {
        struct held *h = &p->held[k];
        if (is_same(h, frame, length)) {
            add_sender(h, frame + SENDER_AT);
        }
        if (h->senders >= p->config.contention_copies) {
            take_out(p, k);
            p->cancelled++;
            cancelled = 1;
        }
    }
    return cancelled;
}

static uint64_t next_due(const struct pair *p) {
    uint64_t least = UINT64_MAX;
    for (size_t k = 0; k < p->count; k++) {
        least = p->held[k].due < least ? p->held[k].due : least;
    }
    return least;
}

/* Puts the one that is released into `out`. Returns its length, or 0. */
static size_t release(struct pair *p, uint64_t at, uint8_t *out) {
    for (size_t k = p->count; k-- > 0;) {
        if (p->held[k].due + LATE < at) {
            take_out(p, k);
            p->dropped++;
        }
    }
    const uint64_t due = next_due(p);
    for (size_t k = 0; due <= at && k < p->count; k++) {
        if (p->held[k].due == due) {
            const size_t length = p->held[k].length;
            memcpy(out, p->held[k].octets, length);
            take_out(p, k);
            p->released++;
            return length;
        }
    }
    return 0;
}

/* ---- drawn calls */

static struct {
    uint8_t octets[ROOM];
    size_t length;
} pool[POOL];
static size_t pooled;

static void keep(const uint8_t *frame, size_t length) {
    if (length != 0) {
        const size_t at = pooled++ % POOL;
        memcpy(pool[at].octets, frame, length);
        pool[at].length = length;
    }
}

static void compare_counts(const struct pair *p) {
    struct geostation_counts got, twin;
    geostation_counts(p->contends, &got);
    geostation_counts(p->simple, &twin);
    CHECK(got.contention.held == p->all && got.contention.released == p->released);
    CHECK(got.contention.cancelled == p->cancelled && got.contention.dropped == p->dropped);
    CHECK(got.contention.full == p->full);
    CHECK(got.contention.held == p->released + p->cancelled + p->dropped + p->count);
    CHECK(twin.contention.held == 0 && twin.contention.full == 0);
    CHECK(got.relayed == twin.relayed - p->all + p->released);
    CHECK(got.accepted == twin.accepted && got.delivered == twin.delivered);
    CHECK(memcmp(&got.ignored, &twin.ignored, sizeof got.ignored) == 0);
    CHECK(geostation_next_due(p->contends) == next_due(p));
    CHECK(geostation_next_due(p->simple) == UINT64_MAX);
}

static void end(struct pair *p) {
    sum.all += p->all;
    sum.released += p->released;
    sum.cancelled += p->cancelled;
    sum.dropped += p->dropped;
    sum.full += p->full;
    geostation_free(p->contends);
    geostation_free(p->simple);
    memset(p, 0, sizeof *p);
}

static void make(size_t i) {
    static const uint16_t ranges[] = { 1, 20, 100, 1000, 65535 };
    struct pair *p = &pairs[i];
    end(p);
    geostation_config_init(&p->config);
    p->place = (struct point){ (int64_t)drawn(4000) - 2000, (int64_t)drawn(4000) - 2000 };
    p->config.address = (UINT64_C(5) << 58) + UINT64_C(0x020000000001) + i / 2;
    p->config.address |= i % 2 == 0 ? 0 : UINT64_C(1) << 63; /* two have one MAC */
    p->config.latitude = (int32_t)p->place.latitude;
    p->config.longitude = (int32_t)p->place.longitude;
    p->config.remember = (uint16_t)(1 + drawn(64));
    p->config.forward_rate = p->config.source_rate = p->config.own_rate = 0;
    p->config.hop_cap = p->config.deliver_once = 0;
    p->config.contention_max = 1 + drawn(drawn(4) == 0 ? 1000 : 150);
    p->config.contention_min = drawn(p->config.contention_max + 1);
    p->config.contention_range = ranges[drawn(5)];
    p->config.contention_copies = 1 + drawn(3);
    CHECK(geostation_new_from_config(&p->simple, &p->config) == GEOSTATION_OK);
    p->config.area_forwarding = GEOSTATION_CONTENTION;
    CHECK(geostation_new_from_config(&p->contends, &p->config) == GEOSTATION_OK);
}

static int step_clock(struct pair *p, uint64_t at, int status) {
    if (status != GEOSTATION_MOMENT_EARLIER && status != GEOSTATION_MOMENT_TOO_LATE) {
        p->clock = at > p->clock && status == GEOSTATION_OK ? at : p->clock;
    }
    return status == GEOSTATION_OK;
}

static void move(struct pair *p, uint64_t at) {
    const int32_t latitude = (int32_t)drawn(4000) - 2000, longitude = (int32_t)drawn(4000) - 2000;
    const uint8_t accurate = drawn(4) != 0;
    const int status = geostation_move(p->contends, at, latitude, longitude, accurate, 0, 0);
    CHECK(geostation_move(p->simple, at, latitude, longitude, accurate, 0, 0) == status);
    if (step_clock(p, at, status)) {
        p->place = (struct point){ latitude, longitude };
    }
}

static void use_port(struct pair *p, uint64_t at) {
    int (*call)(geostation_handle *, uint64_t, uint16_t) =
        drawn(2) ? geostation_open_port : geostation_close_port;
    const int status = call(p->contends, at, 2002);
    CHECK(call(p->simple, at, 2002) == status);
    step_clock(p, at, status);
}

static void restart(struct pair *p, uint64_t at) {
    const uint16_t number = (uint16_t)drawn(65536);
    const int status = geostation_restart(p->contends, at, number);
    CHECK(geostation_restart(p->simple, at, number) == status);
    if (step_clock(p, at, status)) {
        p->dropped += p->count;
        p->count = 0;
    }
}

static void send(struct pair *p, uint64_t at) {
    static const uint8_t hi[] = { 'h', 'i' };
    static uint8_t one[ROOM], two[ROOM];
    const uint8_t shape = (uint8_t)drawn(3);
    const struct geostation_area_request r = {
        .port = 2002, .lifetime = (uint8_t)drawn(256), .max_hops = (uint8_t)(1 + drawn(5)),
        .shape = shape, .latitude = (int32_t)drawn(2000) - 1000,
        .longitude = (int32_t)drawn(2000) - 1000, .a = (uint16_t)(1 + drawn(60)),
        .b = (uint16_t)(shape == GEOSTATION_CIRCLE ? 0 : 1 + drawn(60)),
        .angle = (uint16_t)(shape == GEOSTATION_CIRCLE ? 0 : drawn(360)),
    };
    const struct geostation_shb_request shb = { 2002, 0, 0 };
    const uint32_t kind = drawn(10);
    size_t n = 0, m = 0;
    int status;
    if (kind == 0) {
        status = geostation_send_shb(p->contends, at, &shb, hi, 2, one, ROOM, &n);
        CHECK(geostation_send_shb(p->simple, at, &shb, hi, 2, two, ROOM, &m) == status);
    } else if (kind == 1) {
        status = geostation_send_gac(p->contends, at, &r, hi, 2, one, ROOM, &n);
        CHECK(geostation_send_gac(p->simple, at, &r, hi, 2, two, ROOM, &m) == status);
    } else {
        status = geostation_send_gbc(p->contends, at, &r, hi, 2, one, ROOM, &n);
        CHECK(geostation_send_gbc(p->simple, at, &r, hi, 2, two, ROOM, &m) == status);
    }
    CHECK(n == m && memcmp(one, two, n) == 0);
    step_clock(p, at, status);
    keep(one, n);
}

/* A frame of the pool, the newest most often, and sometimes as another one would send it. */
static size_t draw_frame(const struct pair *p, uint8_t *frame) {
    const size_t kept = pooled < POOL ? pooled : POOL;
    const size_t back = drawn(2) ? drawn((uint32_t)(kept < 4 ? kept : 4)) : drawn((uint32_t)kept);
    const size_t at = (pooled - 1 - back) % POOL, length = pool[at].length;
    memcpy(frame, pool[at].octets, length);
    if (drawn(3) == 0 && p->count != 0) {
        const struct held *h = &p->held[drawn((uint32_t)p->count)];
        memcpy(frame, h->octets, h->length);
        frame[SENDER_AT + MAC - 1] = (uint8_t)(1 + drawn(6));
        frame[LIFETIME_AT] = (uint8_t)(drawn(2) ? frame[LIFETIME_AT] : drawn(256));
        frame[HOPS_AT] = (uint8_t)(frame[HOPS_AT] + (drawn(8) == 0) - (drawn(8) == 0));
        frame[TARGET_AT + MAC - 1] = drawn(8) == 0 ? 2 : frame[TARGET_AT + MAC - 1];
        if (drawn(8) == 0) {
            frame[h->length - 1] ^= 1;
        }
        return h->length;
    }
    if (drawn(4) == 0) {
        frame[SENDER_AT + MAC - 1] = (uint8_t)(1 + drawn(6));
    }
    return length;
}

/* Whether an accepted frame contends: a GBC whose area has the station inside. */
static int contends(const struct pair *p, const uint8_t *frame, size_t length) {
    struct geostation_packet packet;
    CHECK(geostation_read_frame(frame, length, &packet) == GEOSTATION_OK);
    return packet.kind == GEOSTATION_GBC && is_inside(&packet.area, p->place);
}

static void hold(struct pair *p, uint64_t due, const uint8_t *relay, size_t length) {
    struct held *h = &p->held[p->count++];
    memcpy(h->octets, relay, length);
    h->length = length;
    h->senders = 0;
    h->due = due;
    p->all++;
}

static void take(struct pair *p, uint64_t at, const uint8_t *frame, size_t length) {
    static uint8_t one[ROOM], two[ROOM];
    struct geostation_reception got, want;
    const int status = geostation_receive(p->contends, at, frame, length, &got, one, ROOM);
    CHECK(geostation_receive(p->simple, at, frame, length, &want, two, ROOM) == status);
    CHECK(want.held == 0 && want.due == 0 && want.cancelled == 0);
    if (step_clock(p, at, status) && want.ignored == GEOSTATION_DUPLICATE) {
        want.cancelled = hear(p, frame, length);
    }
    keep(two, want.relay_length);
    if (want.relay_length != 0 && contends(p, frame, length)) {
        if (p->count == PLACES) {
            p->full++;
        } else {
            want.held = 1;
            want.due = at + wait_of(p, frame, want.number);
            hold(p, want.due, two, want.relay_length);
            want.relay_length = 0;
        }
    }
    CHECK(memcmp(&got, &want, sizeof got) == 0);
    CHECK(memcmp(one, two, got.relay_length) == 0);
}

static void receive(struct pair *p, uint64_t at) {
    static uint8_t frame[ROOM];
    take(p, at, frame, pooled == 0 ? 0 : draw_frame(p, frame));
}

static void release_all(struct pair *p, uint64_t at) {
    static uint8_t one[ROOM], two[ROOM];
    size_t length, wanted;
    do {
        const int status = geostation_release(p->contends, at, one, ROOM, &length);
        CHECK(status == (at < p->clock ? GEOSTATION_MOMENT_EARLIER : GEOSTATION_OK));
        wanted = status == GEOSTATION_OK ? release(p, at, two) : 0;
        CHECK(length == wanted && memcmp(one, two, length) == 0);
        keep(one, length);
    } while (length != 0 && drawn(4) != 0);
    CHECK(geostation_release(p->contends, at, one, ROOM - 1, &length) == GEOSTATION_NO_ROOM);
    CHECK(geostation_release(p->contends, GEOSTATION_LAST_MOMENT + 1, one, ROOM, &length)
          == GEOSTATION_MOMENT_TOO_LATE && length == 0);
}

/* So many packets at one time that no place is free. */
static void burst(struct pair *p, uint64_t at) {
    for (int k = 0; k < 400; k++) {
        static uint8_t frame[ROOM];
        send(&pairs[drawn(STATIONS)], at);
        const size_t newest = (pooled - 1) % POOL, length = pool[newest].length;
        memcpy(frame, pool[newest].octets, length);
        take(p, at, frame, length);
    }
}

static void call(void) {
    struct pair *p = &pairs[drawn(STATIONS)];
    now += drawn(3) ? 0 : drawn(40) == 0 ? drawn(3000) : drawn(20);
    const uint64_t at = drawn(100) == 0 ? now - drawn(50) : now;
    const uint32_t what = drawn(100);
    if (what < 4) {
        move(p, at);
    } else if (what < 6) {
        use_port(p, at);
    } else if (what < 20) {
        send(p, at);
    } else if (what < 85) {
        receive(p, at);
    } else if (what < 99) {
        release_all(p, at);
    } else if (drawn(4) == 0) {
        restart(p, at);
    } else if (drawn(8) == 0) {
        make((size_t)(p - pairs));
    } else if (drawn(4) == 0) {
        burst(p, now);
    }
    compare_counts(p);
}

int main(int argc, char **argv) {
    const unsigned long calls = argc > 1 ? strtoul(argv[1], NULL, 10) : 100000;
    drawing = argc > 2 ? strtoull(argv[2], NULL, 10) : 1;
    for (size_t i = 0; i < STATIONS; i++) {
        make(i);
    }
    for (called = 1; called <= calls; called++) {
        call();
    }
    for (size_t i = 0; i < STATIONS; i++) {
        end(&pairs[i]);
    }
    printf("%lu calls of stations that contend: %" PRIu64 " frames held, %" PRIu64 " released, %"
           PRIu64 " cancelled, %" PRIu64 " dropped, %" PRIu64 " with no place\n",
           calls, sum.all, sum.released, sum.cancelled, sum.dropped, sum.full);
    return 0;
}
