/* What is signed and what is accepted. A message is a generation time (8 octets, microseconds of
 * TAI since 2004-01-01), a tag (32), and the plain part. The stations share their keys. */
#define _GNU_SOURCE
#include "rules.h"
#include "hsm.h"
#include <inttypes.h>
#include <stdio.h>
#include <string.h>
#include <time.h>

enum { WINDOW = 500000 /* microseconds */, STATIONS = 64, SEEN = 4096 };
enum { BEACON = 1, GAC = 3, GBC = 4, SHB = 5, BEACON_PSID = 141, SHORTEST = 32 };

static struct station {
    uint64_t address;
    uint8_t key[HSM_KEY];
} stations[STATIONS];
static size_t station_count;
static const struct station *own;
static struct {
    uint64_t time, source;
} seen[SEEN]; /* messages that were accepted; the next one replaces the oldest */
static size_t next_seen;

/* TAI was 32 s ahead of UTC in 2004, and is 37 s ahead now. */
static uint64_t now(void) {
    struct timespec t;
    clock_gettime(CLOCK_REALTIME, &t);
    return (uint64_t)(t.tv_sec - 1072915200 + 5) * 1000000 + (uint64_t)t.tv_nsec / 1000;
}

uint64_t rules_number_at(const uint8_t *at, size_t n) {
    uint64_t value = 0;
    for (size_t k = 0; k < n; k++) {
        value = value << 8 | at[k];
    }
    return value;
}

/* A plain part is a Common Header of 8 octets, an extended header, the port, and the payload. */
static int kind_of(const uint8_t *plain) { return plain[1] >> 4; }

static uint64_t source_of(const uint8_t *plain) {
    return rules_number_at(plain + (kind_of(plain) == GBC || kind_of(plain) == GAC ? 12 : 8), 8);
}

int rules_psid_of(const uint8_t *plain, size_t n) {
    static const int psids[][2] = { { 2001, 36 },  { 2002, 37 },  { 2003, 138 }, { 2004, 137 },
                                    { 2006, 139 }, { 2007, 140 }, { 2009, 639 } };
    size_t at = kind_of(plain) == SHB ? 36 : 52;
    if (kind_of(plain) == BEACON || n < at + 4) {
        return kind_of(plain) == BEACON ? BEACON_PSID : -1;
    }
    for (size_t k = 0; k < sizeof psids / sizeof *psids; k++) {
        if (rules_number_at(plain + at, 2) == (uint64_t)psids[k][0]) {
            return psids[k][1];
        }
    }
    return -1;
}

static const struct station *find_station(uint64_t address) {
    for (size_t k = 0; k < station_count; k++) {
        if (stations[k].address == address) {
            return &stations[k];
        }
    }
    return NULL;
}

static void tag_of(const struct station *s, const uint8_t *message, size_t n,
                   uint8_t tag[HSM_TAG]) {
    static uint8_t part[MESSAGE_MAX];
    memcpy(part, message, TIME);
    memcpy(part + TIME, message + FRONT, n - FRONT);
    hsm_tag(s->key, part, n - HSM_TAG, tag);
}

/* The key is that of the source in the plain part: no station signs as another one. */
static bool is_tagged(const uint8_t *message, size_t n) {
    uint8_t tag[HSM_TAG], difference = 0;
    const struct station *signer = find_station(source_of(message + FRONT));
    if (signer == NULL) {
        return false;
    }
    tag_of(signer, message, n, tag);
    for (size_t k = 0; k < HSM_TAG; k++) {
        difference |= tag[k] ^ message[TIME + k];
    }
    return difference == 0;
}

/* Notes a message that is good otherwise. Nothing is forgotten within the window. */
static const char *note(uint64_t time, uint64_t source, uint64_t present) {
    for (size_t k = 0; k < SEEN; k++) {
        if (seen[k].time == time && seen[k].source == source) {
            return "seen before";
        }
    }
    if (seen[next_seen].time + WINDOW >= present) {
        return "more messages than can be remembered";
    }
    seen[next_seen].time = time;
    seen[next_seen].source = source;
    next_seen = (next_seen + 1) % SEEN;
    return NULL;
}

const char *rules_verify(const uint8_t *message, size_t n) {
    uint64_t present = now();
    if (n < FRONT + SHORTEST || rules_psid_of(message + FRONT, n - FRONT) < 0) {
        return "not a message, or a port without a PSID";
    }
    uint64_t time = rules_number_at(message, TIME);
    if (time < present ? present - time > WINDOW : time - present > WINDOW) {
        return "the generation time is more than 500 ms away";
    }
    if (!is_tagged(message, n)) {
        return "the signer is unknown, or the tag is wrong";
    }
    return note(time, source_of(message + FRONT), present);
}

const char *rules_sign(const uint8_t *plain, size_t n, uint8_t message[MESSAGE_MAX]) {
    static uint64_t last; /* no two messages have one time */
    if (n < SHORTEST || n > MESSAGE_MAX - FRONT || rules_psid_of(plain, n) < 0) {
        return "not a packet, or a port without a PSID";
    }
    if (source_of(plain) != own->address) {
        return "not a packet of the own station";
    }
    last = now() > last ? now() : last + 1;
    for (size_t k = 0; k < TIME; k++) {
        message[k] = (uint8_t)(last >> (56 - 8 * k));
    }
    memcpy(message + FRONT, plain, n);
    tag_of(own, message, FRONT + n, message + TIME);
    return NULL;
}

static bool read_key(FILE *file, struct station *s) {
    bool good = fscanf(file, "%" SCNx64, &s->address) == 1;
    for (size_t k = 0; good && k < HSM_KEY; k++) {
        good = fscanf(file, "%2hhx", &s->key[k]) == 1;
    }
    return good;
}

bool rules_read_keys(const char *path, uint64_t address) {
    FILE *file = fopen(path, "r");
    while (file != NULL && station_count < STATIONS && read_key(file, &stations[station_count])) {
        station_count++;
    }
    if (file != NULL) {
        fclose(file);
    }
    own = find_station(address);
    return own != NULL;
}
