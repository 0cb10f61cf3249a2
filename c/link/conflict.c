/* Another station that uses this station's address. Packets with this address come back if others
 * forward them, and over UDP if the station is in the group to which it sends. Those that it did
 * not send are somebody else's. */
#include "parts.h"
#include <string.h>

enum { TELL_EACH = 60000 /* ms */, STAMP_AT = 20 /* of a packet for an area, in its plain part */ };

/* FNV-1a */
static uint64_t hash_of(const uint8_t *octets, size_t n) {
    uint64_t hash = UINT64_C(0xcbf29ce484222325);
    for (size_t k = 0; k < n; k++) {
        hash = (hash ^ octets[k]) * UINT64_C(0x100000001b3);
    }
    return hash;
}

void conflict_start(struct conflict *c) { c->started = (uint32_t)clock_moment(); }

/* The station has another address, with which it has sent nothing yet. */
void conflict_forget(struct conflict *c) {
    memset(c->packets, 0, sizeof c->packets);
    memset(c->numbers, 0, sizeof c->numbers);
    conflict_start(c);
}

/* To be called for each packet before it is sent or signed. */
void conflict_remember(struct conflict *c, const uint8_t *frame, size_t length) {
    struct geostation_packet packet;
    if (geostation_read_frame(frame, length, &packet) != GEOSTATION_OK) {
        return;
    }
    if (packet.kind == GEOSTATION_BEACON || packet.kind == GEOSTATION_SHB) {
        c->packets[c->next++ % OWN_PACKETS] = hash_of(frame + BASIC_END, length - BASIC_END);
    } else {
        c->numbers[packet.number / 8] |= (uint8_t)(1 << packet.number % 8);
    }
}

static bool is_remembered(const struct conflict *c, uint64_t hash) {
    size_t k = 0;
    while (k < OWN_PACKETS && c->packets[k] != hash) {
        k++;
    }
    return k < OWN_PACKETS;
}

/* A packet for an area is also this station's if it is older than the program: an earlier run sent
 * it. Beacons and SHBs aren't forwarded, so no old ones come back. */
static bool is_own(const struct conflict *c, uint32_t kind, uint16_t number, const uint8_t *plain,
                   size_t n) {
    if (kind == GEOSTATION_BEACON || kind == GEOSTATION_SHB) {
        return is_remembered(c, hash_of(plain, n));
    }
    const uint8_t *at = plain + STAMP_AT;
    uint32_t stamp = (uint32_t)at[0] << 24 | (uint32_t)at[1] << 16 | (uint32_t)at[2] << 8 | at[3];
    return (c->numbers[number / 8] >> number % 8 & 1) != 0 || (int32_t)(stamp - c->started) < 0;
}

static void tell(struct station *s, const uint8_t *mac) {
    struct conflict *c = &s->conflict;
    struct text t;
    uint64_t now = clock_now();
    if (c->count == 1) {
        note("another station uses the address %016llx: its frames come from the MAC "
             "%02x:%02x:%02x:%02x:%02x:%02x", (unsigned long long)s->address, mac[0], mac[1],
             mac[2], mac[3], mac[4], mac[5]);
    }
    if (now >= c->tell_at) {
        c->tell_at = now + TELL_EACH;
        event_conflict(&t, now, mac);
        clients_tell(s->clients, &t, now);
    }
}

void conflict_look(struct station *s, const struct geostation_reception *got, const uint8_t *mac,
                   const uint8_t *plain, size_t n) {
    if (got->ignored == GEOSTATION_OWN_SOURCE
        && !is_own(&s->conflict, got->kind, got->number, plain, n)) {
        s->conflict.count++;
        tell(s, mac);
    }
}
