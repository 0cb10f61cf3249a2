/* Events: lines that are not answers. They go to all clients; `lost` and `closed` go to one. */
#include "parts.h"
#include <inttypes.h>
#include <stdarg.h>
#include <stdio.h>
#include <string.h>

/* The longest event is a delivery: about 200 octets, and two for each octet of the payload. */
_Static_assert(sizeof(((struct text *)0)->octets) > 2 * GEOSTATION_PAYLOAD_MAX + 256, "text");

__attribute__((format(printf, 2, 3))) static void put(struct text *t, const char *format, ...) {
    va_list rest;
    va_start(rest, format);
    t->length += (size_t)vsnprintf(t->octets + t->length, sizeof t->octets - t->length, format,
                                   rest);
    va_end(rest);
}

static void begin_at(struct text *t, uint64_t moment, const char *event) {
    t->length = 0;
    put(t, "{\"at\":%" PRIu64 ",\"event\":\"%s\",", moment, event);
}

static void begin(struct text *t, uint64_t now, const char *event) {
    begin_at(t, clock_moment_at(now), event);
}

void event_ready(struct text *t, uint64_t now, uint64_t address) {
    begin(t, now, "ready");
    put(t, "\"address\":\"%016" PRIx64 "\"}\n", address);
}

void event_link(struct text *t, uint64_t now, bool up) {
    begin(t, now, "link");
    put(t, "\"up\":%s}\n", up ? "true" : "false");
}

static void put_mac(struct text *t, const uint8_t mac[6]) {
    put(t, "\"mac\":\"%02x%02x%02x%02x%02x%02x\"}\n", mac[0], mac[1], mac[2], mac[3], mac[4],
        mac[5]);
}

void event_mac(struct text *t, uint64_t now, const uint8_t mac[6]) {
    begin(t, now, "mac");
    put_mac(t, mac);
}

void event_fix(struct text *t, uint64_t now, enum fix_state state) {
    static const char *const names[] = { "none", "current", "old", "lost" };
    begin(t, now, "fix");
    put(t, "\"state\":\"%s\"}\n", names[state]);
}

void event_lost(struct text *t, uint64_t now, uint64_t count) {
    begin(t, now, "lost");
    put(t, "\"count\":%" PRIu64 "}\n", count);
}

void event_closed(struct text *t, uint64_t now) {
    begin(t, now, "closed");
    put(t, "\"reason\":\"idle while others wait\"}\n");
}

void event_security(struct text *t, uint64_t now, bool up) {
    begin(t, now, "security");
    put(t, "\"up\":%s}\n", up ? "true" : "false");
}

void event_conflict(struct text *t, uint64_t now, const uint8_t mac[6]) {
    begin(t, now, "conflict");
    put_mac(t, mac);
}

void event_address(struct text *t, uint64_t now, uint64_t address) {
    begin(t, now, "address");
    put(t, "\"address\":\"%016" PRIx64 "\"}\n", address);
}

void event_clock(struct text *t, uint64_t now, bool synchronised, int64_t step, int64_t offset) {
    begin(t, now, "clock");
    put(t, "\"synchronised\":%s,\"step\":%" PRId64 ",\"offset\":%" PRId64 "}\n",
        synchronised ? "true" : "false", step, offset);
}

/* What the security entity says about a message. */
static void put_verified(struct text *t, const struct answer *a) {
    if (a->has_psid) {
        put(t, ",\"psid\":%" PRIu64, a->psid);
    }
    if (a->has_generated) {
        put(t, ",\"generated\":%" PRIu64, a->generated);
    }
}

/* Media-dependent data of zeros are left out. */
static void put_media(struct text *t, const uint8_t media[4]) {
    static const uint8_t none[4];
    if (memcmp(media, none, sizeof none) != 0) {
        put(t, "\"media\":\"%02x%02x%02x%02x\",", media[0], media[1], media[2], media[3]);
    }
}

void event_delivered(struct text *t, uint64_t moment, const struct geostation_reception *r,
                     const uint8_t *payload, const struct answer *verified) {
    begin_at(t, moment, "delivered");
    put(t, "\"source\":\"%016" PRIx64 "\",\"port\":%u,\"info\":%u,\"tc\":%u,", r->source,
        r->port, r->info, r->traffic_class);
    put_media(t, r->media);
    put(t, "\"payload\":\"");
    t->length += hex_write(t->octets + t->length, payload, r->payload_length);
    put(t, "\"");
    if (verified != NULL) {
        put_verified(t, verified);
    }
    put(t, "}\n");
}
