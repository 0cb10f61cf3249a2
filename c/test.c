/* Tests of the station from C: test [DAMAGED FRAMES]. Built with -Wl,--wrap=malloc. */
#include "geostation.h"
#include <stdio.h>
#include <stdlib.h>
#include <string.h>

#define A_ADDRESS UINT64_C(0x1400020000000001)
#define B_ADDRESS UINT64_C(0x1400020000000002)
#define C_ADDRESS UINT64_C(0x1400020000000003)
#define ROOM GEOSTATION_FRAME_MAX

static long checks;
#define CHECK(e) do { checks++; if (!(e)) { \
    fprintf(stderr, "%s:%d: %s\n", __FILE__, __LINE__, #e); exit(1); } } while (0)

/* a malloc that fails after a given number of calls */
static long until_fail = -1;
void *__real_malloc(size_t n);
void *__wrap_malloc(size_t n);
void *__wrap_malloc(size_t n) {
    if (until_fail == 0) return NULL;
    if (until_fail > 0) until_fail--;
    return __real_malloc(n);
}

static const struct geostation_area_request AREA = {
    .port = 2002, .info = 7, .traffic_class = 2, .lifetime = 0x1a, .max_hops = 5,
    .shape = GEOSTATION_CIRCLE, .latitude = 449, .longitude = 0, .a = 200,
};
static const uint8_t HI[] = { 'h', 'i' };
static uint8_t frame[ROOM], relay[ROOM], other[ROOM], payload[1395];
static struct geostation_reception r;

static struct geostation *station(uint64_t address, int32_t longitude, uint16_t capacity) {
    struct geostation *s = NULL;
    CHECK(geostation_new(&s, address, 449, longitude, capacity, 8) == GEOSTATION_OK && s != NULL);
    return s;
}

static int is_nothing(void) {
    return r.ignored == 0 && r.delivered == 0 && r.port == 0 && r.info == 0
        && r.payload_start == 0 && r.payload_length == 0 && r.relay_length == 0
        && r.fault == 0 && r.fault_kind == 0 && r.fault_at == 0 && r.source == 0 && r.kind == 0
        && r.number == 0 && r.traffic_class == 0 && r.hops_left == 0 && r.due == 0 && r.held == 0
        && r.cancelled == 0 && memcmp(r.media, "\0\0\0\0", 4) == 0;
}

/* The fields of the reception that each valid frame sets. */
static int is_of(uint64_t source, uint32_t kind, uint16_t number, uint8_t traffic_class,
                 uint8_t hops_left) {
    return r.source == source && r.kind == kind && r.number == number
        && r.traffic_class == traffic_class && r.hops_left == hops_left;
}

static void test_new(void) {
    static const struct { uint64_t address; int32_t latitude, longitude; uint16_t capacity;
        uint8_t remember; } bad[] = {
        { A_ADDRESS | UINT64_C(1) << 40, 0, 0, 64, 8 },
        { A_ADDRESS, 900000001, 0, 64, 8 }, { A_ADDRESS, -900000001, 0, 64, 8 },
        { A_ADDRESS, 0, 1800000001, 64, 8 }, { A_ADDRESS, 0, -1800000001, 64, 8 },
        { A_ADDRESS, 0, 0, 0, 8 }, { A_ADDRESS, 0, 0, 4097, 8 },
        { A_ADDRESS, 0, 0, 64, 0 }, { A_ADDRESS, 0, 0, 64, 65 },
    };
    struct geostation *s;
    for (size_t i = 0; i < sizeof bad / sizeof bad[0]; i++) {
        s = (struct geostation *)frame;
        CHECK(geostation_new(&s, bad[i].address, bad[i].latitude, bad[i].longitude,
                             bad[i].capacity, bad[i].remember) == GEOSTATION_BAD_ARGUMENT);
        CHECK(s == NULL);
    }
    CHECK(geostation_new(&s, A_ADDRESS, 900000000, -1800000000, 4096, 64) == GEOSTATION_OK);
    geostation_free(s);
    long fails = 0;
    for (;; fails++) {
        s = (struct geostation *)frame;
        until_fail = fails;
        int status = geostation_new(&s, A_ADDRESS, 449, 0, 64, 8);
        until_fail = -1;
        if (status == GEOSTATION_OK) break;
        CHECK(status == GEOSTATION_NO_MEMORY && s == NULL);
    }
    CHECK(fails > 2);
    geostation_free(s);
    geostation_free(NULL);
}

static void test_calls(void) {
    struct geostation *s = station(A_ADDRESS, 0, 64);
    CHECK(geostation_open_port(s, 0, 2002) == GEOSTATION_OK);
    CHECK(geostation_open_port(s, 0, 2002) == GEOSTATION_PORT_ALREADY_OPEN);
    CHECK(geostation_close_port(s, 0, 2003) == GEOSTATION_PORT_NOT_OPEN);
    for (uint16_t port = 1; port < 64; port++)
        CHECK(geostation_open_port(s, 0, port) == GEOSTATION_OK);
    CHECK(geostation_open_port(s, 0, 64) == GEOSTATION_PORTS_FULL);
    CHECK(geostation_close_port(s, 0, 1) == GEOSTATION_OK);
    CHECK(geostation_move(s, 1, 449, 0, 1, -16384, 900) == GEOSTATION_OK);
    CHECK(geostation_move(s, 1, 449, 0, 1, 16383, 900) == GEOSTATION_OK);
    CHECK(geostation_move(s, 1, 449, 0, 1, 16384 - 32768 - 1, 900) == GEOSTATION_BAD_ARGUMENT);
    CHECK(geostation_move(s, 1, 449, 0, 1, 16384, 900) == GEOSTATION_BAD_ARGUMENT);
    CHECK(geostation_move(s, 1, 900000001, 0, 1, 0, 900) == GEOSTATION_BAD_ARGUMENT);
    CHECK(geostation_move(s, 0, 449, 0, 1, 0, 900) == GEOSTATION_MOMENT_EARLIER);
    CHECK(geostation_restart(s, GEOSTATION_LAST_MOMENT + 1, 0) == GEOSTATION_MOMENT_TOO_LATE);
    CHECK(geostation_restart(s, GEOSTATION_LAST_MOMENT, 0) == GEOSTATION_OK);
    geostation_free(s);
}

static void test_beacons(void) {
    struct geostation *a = station(A_ADDRESS, 0, 64), *b = station(B_ADDRESS, 900, 64);
    size_t n = 99, m = 99;
    CHECK(geostation_tick(a, 10, 0, frame, ROOM - 1, &n) == GEOSTATION_NO_ROOM && n == 0);
    n = 99;
    CHECK(geostation_tick(a, 10, 751, frame, ROOM, &n) == GEOSTATION_JITTER_RANGE && n == 0);
    n = 99;
    until_fail = 0;
    CHECK(geostation_tick(a, 10, 0, frame, ROOM, &n) == GEOSTATION_NO_MEMORY && n == 0);
    until_fail = -1;
    CHECK(geostation_tick(a, 10, 0, frame, ROOM, &n) == GEOSTATION_OK && n == 50);
    CHECK(frame[12] == 0x89 && frame[13] == 0x47);
    CHECK(geostation_tick(a, 3009, 0, frame, ROOM, &m) == GEOSTATION_OK && m == 0);
    CHECK(geostation_receive(b, 12, frame, n, &r, relay, ROOM) == GEOSTATION_OK);
    CHECK(is_of(A_ADDRESS, GEOSTATION_BEACON, 0, 0, 1) && r.delivered == 0 && r.relay_length == 0);
    CHECK(geostation_tick(a, 3010, 1, frame, ROOM, &m) == GEOSTATION_OK && m == 0);
    CHECK(geostation_tick(a, 3011, 1, frame, ROOM, &m) == GEOSTATION_OK && m == 50);
    geostation_free(a);
    geostation_free(b);
}

/* The time of a beacon with a jitter: 3000 ms and the jitter after the last packet, and never
 * before the last call. */
static void test_beacon_moments(void) {
    struct geostation *a = station(A_ADDRESS, 0, 64);
    size_t n = 0;
    CHECK(geostation_beacon_at(a, 0) == 0 && geostation_beacon_at(a, 750) == 750);
    CHECK(geostation_beacon_at(a, 751) == UINT64_MAX);
    CHECK(geostation_tick(a, 10, 0, frame, ROOM, &n) == GEOSTATION_OK && n == 50);
    CHECK(geostation_beacon_at(a, 0) == 3010 && geostation_beacon_at(a, 750) == 3760);
    CHECK(geostation_receive(a, 3500, frame, n, &r, relay, ROOM) == GEOSTATION_OK);
    CHECK(geostation_next_beacon(a) == 3500 && geostation_beacon_at(a, 750) == 3760);
    CHECK(geostation_tick(a, 3759, 750, frame, ROOM, &n) == GEOSTATION_OK && n == 0);
    CHECK(geostation_tick(a, 3760, 750, frame, ROOM, &n) == GEOSTATION_OK && n == 50);
    geostation_free(a);
}

/* A position with another time stamp, and a single-hop broadcast with a lifetime of its own: the
 * time stamp is octets 34 to 37 of a frame, the lifetime its octet 16. */
static void test_beside(void) {
    static const struct geostation_shb_request request = { .port = 2001 };
    struct geostation *a = station(A_ADDRESS, 0, 64);
    size_t n = 99;
    CHECK(geostation_move_at(a, 20, 0x01020304, 449, 0, 1, 0, 0) == GEOSTATION_OK);
    CHECK(geostation_move_at(a, 19, 5, 449, 0, 1, 0, 0) == GEOSTATION_MOMENT_EARLIER);
    CHECK(geostation_move_at(a, 20, 5, 900000001, 0, 1, 0, 0) == GEOSTATION_BAD_ARGUMENT);
    CHECK(geostation_move_at(a, 20, 5, 449, 0, 1, 16384, 0) == GEOSTATION_BAD_ARGUMENT);
    CHECK(geostation_send_shb_with_lifetime(a, 20, &request, 0x05, HI, 2, frame, ROOM, &n)
          == GEOSTATION_OK && n == 60);
    CHECK(frame[16] == 0x05 && memcmp(frame + 34, "\1\2\3\4", 4) == 0);
    CHECK(geostation_send_shb_with_lifetime(a, 20, &request, 0x05, payload, 1395, frame, ROOM, &n)
          == GEOSTATION_PAYLOAD_TOO_LONG && n == 0);
    CHECK(geostation_send_shb_with_lifetime(a, 20, &request, 0x05, HI, 2, frame, ROOM - 1, &n)
          == GEOSTATION_NO_ROOM && n == 0);
    CHECK(geostation_send_shb(a, 20, &request, HI, 2, frame, ROOM, &n) == GEOSTATION_OK);
    CHECK(frame[16] == 0x1a);
    CHECK(geostation_next_number(a) == 0);
    CHECK(geostation_restart(a, 20, 65535) == GEOSTATION_OK);
    CHECK(geostation_next_number(a) == 65535);
    CHECK(geostation_send_gbc(a, 20, &AREA, HI, 2, frame, ROOM, &n) == GEOSTATION_OK);
    CHECK(geostation_next_number(a) == 0);
    geostation_free(a);
}

/* Media-dependent data of an SHB are octets 50 to 53 of its frame, and nothing else differs. Each
 * reception of the frame has them, and no other does. */
static void test_media(void) {
    static const struct geostation_shb_request request = { .port = 2001 };
    static const struct geostation_shb_options options = { 0x05, { 0x12, 0x34, 0x56, 0x78 } };
    static const struct geostation_shb_options usual = { .lifetime = 0x1a };
    struct geostation *a = station(A_ADDRESS, 0, 64), *b = station(B_ADDRESS, 900, 64);
    struct geostation_packet p;
    size_t n = 99, m = 99;
    CHECK(geostation_send_shb_with(a, 20, &request, &options, HI, 2, frame, ROOM, &n)
          == GEOSTATION_OK && n == 60);
    CHECK(frame[16] == 0x05 && memcmp(frame + 50, "\x12\x34\x56\x78", 4) == 0);
    CHECK(geostation_read_frame(frame, n, &p) == GEOSTATION_OK && p.lifetime == 0x05);
    CHECK(memcmp(p.media, options.media, 4) == 0);
    CHECK(geostation_send_shb_with_lifetime(a, 20, &request, 0x05, HI, 2, other, ROOM, &m)
          == GEOSTATION_OK && m == n);
    CHECK(memcmp(frame, other, 50) == 0 && memcmp(frame + 54, other + 54, n - 54) == 0);
    CHECK(memcmp(other + 50, "\0\0\0\0", 4) == 0);

    memset(r.media, 0xff, 4);
    CHECK(geostation_receive(b, 21, frame, n, &r, relay, ROOM) == GEOSTATION_OK && r.ignored == 0);
    CHECK(is_of(A_ADDRESS, GEOSTATION_SHB, 0, 0, 1) && memcmp(r.media, options.media, 4) == 0);
    CHECK(geostation_receive(a, 21, frame, n, &r, relay, ROOM) == GEOSTATION_OK);
    CHECK(r.ignored == GEOSTATION_OWN_SOURCE && memcmp(r.media, options.media, 4) == 0);
    CHECK(geostation_receive(b, 21, other, m, &r, relay, ROOM) == GEOSTATION_OK);
    CHECK(memcmp(r.media, "\0\0\0\0", 4) == 0);
    memset(r.media, 0xff, 4);
    CHECK(geostation_send_gbc(a, 21, &AREA, HI, 2, other, ROOM, &m) == GEOSTATION_OK);
    CHECK(geostation_receive(b, 21, other, m, &r, relay, ROOM) == GEOSTATION_OK);
    CHECK(r.kind == GEOSTATION_GBC && memcmp(r.media, "\0\0\0\0", 4) == 0);
    memset(r.media, 0xff, 4);
    CHECK(geostation_receive(b, 21, frame, n - 1, &r, relay, ROOM) == GEOSTATION_BAD_FRAME);
    CHECK(memcmp(r.media, "\0\0\0\0", 4) == 0);

    CHECK(geostation_send_shb_with(a, 22, &request, &usual, HI, 2, frame, ROOM, &n)
          == GEOSTATION_OK);
    CHECK(geostation_send_shb(a, 22, &request, HI, 2, other, ROOM, &m) == GEOSTATION_OK);
    CHECK(m == n && memcmp(frame, other, n) == 0);
    CHECK(geostation_send_shb_with(a, 22, &request, &options, payload, 1395, frame, ROOM, &n)
          == GEOSTATION_PAYLOAD_TOO_LONG && n == 0);
    CHECK(geostation_send_shb_with(a, 22, &request, &options, HI, 2, frame, ROOM - 1, &n)
          == GEOSTATION_NO_ROOM && n == 0);
    CHECK(geostation_send_shb_with(a, 21, &request, &options, HI, 2, frame, ROOM, &n)
          == GEOSTATION_MOMENT_EARLIER && n == 0);
    until_fail = 0;
    CHECK(geostation_send_shb_with(a, 22, &request, &options, HI, 2, frame, ROOM, &n)
          == GEOSTATION_NO_MEMORY && n == 0);
    until_fail = -1;
    CHECK(geostation_send_shb_with(a, 22, &request, &options, NULL, 0, frame, ROOM, &n)
          == GEOSTATION_OK && n == 58);
    geostation_free(a);
    geostation_free(b);
}

static void check_code(const char *wanted, int status, uint32_t fault, uint32_t kind, size_t at) {
    char code[GEOSTATION_CODE_MAX];
    CHECK(geostation_code(status, fault, kind, at, code, sizeof code) == strlen(wanted));
    CHECK(strcmp(code, wanted) == 0);
}

static void test_codes(void) {
    char code[6] = "sssss";
    check_code("", GEOSTATION_OK, 0, 0, 0);
    check_code("S4", GEOSTATION_TABLE_FULL, 0, 0, 0);
    check_code("S8 B2", GEOSTATION_PORT_ALREADY_OPEN, 0, 0, 0);
    check_code("S8 B3", GEOSTATION_PORTS_FULL, 0, 0, 0);
    check_code("S8 B4", GEOSTATION_PORT_NOT_OPEN, 0, 0, 0);
    check_code("S9", GEOSTATION_JITTER_RANGE, 0, 0, 0);
    check_code("S3 L1", GEOSTATION_BAD_FRAME, 1, 0, 0);
    check_code("S3 L5 G9 at 10", GEOSTATION_BAD_FRAME, 5, 9, 10);
    check_code("S3 L6 G4294967295 at 18446744073709551615", GEOSTATION_BAD_FRAME, 6, UINT32_MAX,
               SIZE_MAX);
    check_code("", GEOSTATION_NO_ROOM, 0, 0, 0);
    check_code("", GEOSTATION_OVER_RATE, 0, 0, 0);
    CHECK(geostation_code(GEOSTATION_BAD_FRAME, 5, 12, 140, NULL, 0) == 16);
    CHECK(geostation_code(GEOSTATION_BAD_FRAME, 5, 9, 10, code, sizeof code) == 14);
    CHECK(strcmp(code, "S3 L5") == 0);
    CHECK(geostation_abi() == GEOSTATION_ABI);
    CHECK(strcmp(geostation_version(), GEOSTATION_VERSION) == 0);
}

/* A frame of a geobroadcast from A, which is at longitude 0. */
static size_t test_sending(struct geostation *a) {
    size_t n = 99;
    struct geostation_area_request bad = AREA;
    bad.max_hops = 0;
    CHECK(geostation_send_gbc(a, 20, &bad, HI, 2, frame, ROOM, &n) == GEOSTATION_HOP_LIMIT_ZERO);
    CHECK(n == 0);
    bad = AREA, bad.shape = 3;
    CHECK(geostation_send_gbc(a, 20, &bad, HI, 2, frame, ROOM, &n) == GEOSTATION_BAD_ARGUMENT);
    CHECK(geostation_send_gac(a, 20, &bad, HI, 2, frame, ROOM, &n) == GEOSTATION_BAD_ARGUMENT);
    bad = AREA, bad.a = 0;
    CHECK(geostation_send_gbc(a, 20, &bad, HI, 2, frame, ROOM, &n) == GEOSTATION_BAD_ARGUMENT);
    bad = AREA, bad.shape = GEOSTATION_ELLIPSE, bad.b = 1, bad.angle = 360;
    CHECK(geostation_send_gac(a, 20, &bad, HI, 2, frame, ROOM, &n) == GEOSTATION_BAD_ARGUMENT);
    bad.angle = 359;
    CHECK(geostation_send_gac(a, 20, &bad, HI, 2, frame, ROOM, &n) == GEOSTATION_OK && n == 76);
    CHECK(geostation_send_gac(a, 20, &AREA, HI, 2, frame, ROOM - 1, &n) == GEOSTATION_NO_ROOM);
    CHECK(geostation_send_gbc(a, 20, &AREA, payload, 1395, frame, ROOM, &n)
          == GEOSTATION_PAYLOAD_TOO_LONG && n == 0);
    CHECK(geostation_send_gbc(a, 20, &AREA, payload, 1394, frame, ROOM, &n) == GEOSTATION_OK);
    CHECK(n == ROOM);
    until_fail = 0;
    CHECK(geostation_send_gbc(a, 20, &AREA, HI, 2, frame, ROOM, &n) == GEOSTATION_NO_MEMORY);
    CHECK(n == 0);
    until_fail = -1;
    CHECK(geostation_send_gbc(a, 20, &AREA, HI, 2, frame, ROOM, &n) == GEOSTATION_OK && n == 76);
    return n;
}

static void test_receiving(long damaged) {
    struct geostation *a = station(A_ADDRESS, 0, 64), *b = station(B_ADDRESS, 900, 64);
    struct geostation *c = station(C_ADDRESS, 1800, 1);
    struct geostation_shb_request shb = { .port = 2001, .info = 0, .traffic_class = 0 };
    size_t n, m;
    CHECK(geostation_open_port(b, 0, 2002) == GEOSTATION_OK);
    n = test_sending(a);
    CHECK(geostation_receive(b, 21, frame, n, &r, relay, ROOM - 1) == GEOSTATION_NO_ROOM);
    CHECK(is_nothing());
    until_fail = 0;
    CHECK(geostation_receive(b, 21, frame, n, &r, relay, ROOM) == GEOSTATION_NO_MEMORY);
    until_fail = -1;
    CHECK(is_nothing());
    CHECK(geostation_receive(b, 21, frame, n, &r, relay, ROOM) == GEOSTATION_OK);
    CHECK(r.ignored == 0 && r.delivered == 1 && r.port == 2002 && r.info == 7 && r.fault == 0);
    CHECK(r.payload_length == 2 && memcmp(frame + r.payload_start, HI, 2) == 0);
    CHECK(r.relay_length == n);
    CHECK(memcmp(relay, "\xff\xff\xff\xff\xff\xff\x02\x00\x00\x00\x00\x02", 12) == 0);
    m = r.relay_length;
    CHECK(geostation_receive(b, 22, frame, n, &r, other, ROOM) == GEOSTATION_OK);
    CHECK(r.ignored == GEOSTATION_DUPLICATE && r.delivered == 0 && r.relay_length == 0);
    CHECK(geostation_receive(a, 22, relay, m, &r, other, ROOM) == GEOSTATION_OK);
    CHECK(r.ignored == GEOSTATION_OWN_SOURCE);
    CHECK(geostation_receive(c, 22, relay, m, &r, other, ROOM) == GEOSTATION_OK && !r.delivered);
    CHECK(geostation_send_shb(b, 23, &shb, HI, 0, other, ROOM, &m) == GEOSTATION_OK && m > 0);
    CHECK(geostation_receive(c, 23, other, m, &r, relay, ROOM) == GEOSTATION_TABLE_FULL);
    CHECK(is_nothing());
    other[11] = 9;
    CHECK(geostation_receive(a, 24, other, m, &r, relay, ROOM) == GEOSTATION_OK);
    CHECK(r.ignored == GEOSTATION_SENDER_MISMATCH);
    other[5] = 9, other[0] = 2;
    CHECK(geostation_receive(a, 24, other, m, &r, relay, ROOM) == GEOSTATION_OK);
    CHECK(r.ignored == GEOSTATION_NOT_FOR_ME);

    /* octets that are not a valid frame */
    CHECK(geostation_receive(b, 25, HI, 0, &r, relay, ROOM) == GEOSTATION_BAD_FRAME);
    CHECK(r.fault == 1 && r.fault_kind == 0 && r.fault_at == 0);
    for (size_t k = 14; k < n; k++) {
        CHECK(geostation_receive(b, 25, frame, k, &r, relay, ROOM) == GEOSTATION_BAD_FRAME);
        CHECK(r.fault == 5 && r.fault_kind == 1 && r.fault_at == k - 14);
    }
    memcpy(other, frame, n);
    other[13] = 0;
    CHECK(geostation_receive(b, 25, other, n, &r, relay, ROOM) == GEOSTATION_BAD_FRAME);
    CHECK(r.fault == 2);
    other[13] = 0x47, other[n] = 0;
    CHECK(geostation_receive(b, 25, other, n + 1, &r, relay, ROOM) == GEOSTATION_BAD_FRAME);
    CHECK(r.fault == 4);
    other[14] = 0x21; /* the version */
    CHECK(geostation_receive(b, 25, other, n, &r, relay, ROOM) == GEOSTATION_BAD_FRAME);
    CHECK(r.fault == 5 && r.fault_kind == 2 && r.fault_at == 0);
    uint8_t *long_one = calloc(ROOM + 1, 1);
    memcpy(long_one, frame, n);
    CHECK(geostation_receive(b, 25, long_one, ROOM + 1, &r, relay, ROOM) == GEOSTATION_BAD_FRAME);
    CHECK(r.fault == 3);
    free(long_one);

    /* damaged frames, each in a block of exactly its size */
    for (long i = 0; i < damaged; i++) {
        size_t l = i % 7 ? n : (size_t)rand() % (n + 1);
        uint8_t *block = malloc(l != 0 ? l : 1);
        memcpy(block, frame, l);
        for (int k = 0; k < 3 && l != 0; k++) block[(size_t)rand() % l] = (uint8_t)rand();
        int status = geostation_receive(b, 26, block, l, &r, relay, ROOM);
        CHECK(status == GEOSTATION_OK || status == GEOSTATION_BAD_FRAME
              || status == GEOSTATION_TABLE_FULL);
        CHECK((r.fault != 0) == (status == GEOSTATION_BAD_FRAME));
        if (r.delivered) CHECK(r.payload_start + r.payload_length == l);
        free(block);
    }

    /* a restart closes the ports, and what was heard is new again; the packet that was delivered
     * before is not forwarded again */
    CHECK(geostation_restart(b, 30, 500) == GEOSTATION_OK);
    CHECK(geostation_receive(b, 31, frame, n, &r, relay, ROOM) == GEOSTATION_OK);
    CHECK(r.ignored == GEOSTATION_REPEATED && r.delivered == 0 && r.relay_length == 0);
    geostation_free(a);
    geostation_free(b);
    geostation_free(c);
}

static int is_vector(const struct geostation_vector *v, uint64_t address, uint32_t timestamp,
                     int32_t longitude, int16_t speed, uint16_t heading, uint8_t accurate) {
    return v->address == address && v->timestamp == timestamp && v->latitude == 449
        && v->longitude == longitude && v->speed == speed && v->heading == heading
        && v->accurate == accurate;
}

/* B receives beacons from A and from the station with address 0; C only a packet for an area. */
static void test_look_ups(void) {
    const uint64_t group = B_ADDRESS | UINT64_C(1) << 40;
    struct geostation *a = station(A_ADDRESS, 0, 64), *b = station(B_ADDRESS, 900, 64);
    struct geostation *c = station(C_ADDRESS, 1800, 64), *zero = station(0, 7, 64);
    struct geostation_vector v;
    size_t n;
    memset(&v, 1, sizeof v);
    CHECK(geostation_neighbour(b, 0, 0, &v) == 0 && v.accurate == 0 && v.timestamp == 0);
    CHECK(v.address == 0 && v.latitude == 0 && v.longitude == 0 && v.heading == 0);
    CHECK(geostation_move(a, 5, 449, -31, 1, -7, 900) == GEOSTATION_OK);
    CHECK(geostation_tick(a, 10, 0, frame, ROOM, &n) == GEOSTATION_OK && n == 50);
    CHECK(geostation_receive(b, 20, frame, n, &r, relay, ROOM) == GEOSTATION_OK);
    CHECK(geostation_tick(zero, 10, 0, frame, ROOM, &n) == GEOSTATION_OK && n == 50);
    CHECK(geostation_receive(b, 20, frame, n, &r, relay, ROOM) == GEOSTATION_OK);
    CHECK(geostation_send_gbc(c, 20, &AREA, HI, 2, frame, ROOM, &n) == GEOSTATION_OK);
    CHECK(geostation_receive(b, 21, frame, n, &r, relay, ROOM) == GEOSTATION_OK);

    /* a neighbour's frames arrive directly; address 0 is never above another */
    CHECK(geostation_neighbour(b, 21, 0, &v) == 1);
    CHECK(is_vector(&v, A_ADDRESS, 5, -31, -7, 900, 1));
    CHECK(geostation_neighbour(b, 21, A_ADDRESS - 1, &v) == 1 && v.address == A_ADDRESS);
    CHECK(geostation_neighbour(b, 21, A_ADDRESS, &v) == 0 && v.address == 0);
    CHECK(geostation_neighbour(b, 21, UINT64_MAX, &v) == 0);
    CHECK(geostation_neighbour(b, 21, group, &v) == 0);
    CHECK(geostation_neighbour(b, 21, UINT64_C(1) << 40, &v) == 1 && v.address == A_ADDRESS);
    CHECK(geostation_look_up(b, 21, C_ADDRESS, &v) == 1);
    CHECK(is_vector(&v, C_ADDRESS, 0, 1800, 0, 0, 0));
    CHECK(geostation_look_up(b, 21, 0, &v) == 1 && is_vector(&v, 0, 0, 7, 0, 0, 0));
    CHECK(geostation_look_up(b, 21, B_ADDRESS, &v) == 0 && v.longitude == 0);
    CHECK(geostation_look_up(b, 21, group, &v) == 0);

    /* 20000 ms after its last packet a source isn't live; an earlier or too late time finds none */
    CHECK(geostation_look_up(b, 20, A_ADDRESS, &v) == 0);
    CHECK(geostation_neighbour(b, 20, 0, &v) == 0);
    CHECK(geostation_look_up(b, 20019, A_ADDRESS, &v) == 1);
    CHECK(geostation_look_up(b, 20020, A_ADDRESS, &v) == 0);
    CHECK(geostation_neighbour(b, 20019, 0, &v) == 1);
    CHECK(geostation_neighbour(b, 20020, 0, &v) == 0);
    CHECK(geostation_look_up(b, GEOSTATION_LAST_MOMENT + 1, A_ADDRESS, &v) == 0);
    CHECK(geostation_look_up(b, 21, A_ADDRESS, &v) == 1);

    /* a beacon is due 3000 ms after the last packet of the station's own */
    CHECK(geostation_next_beacon(b) == 21 && geostation_next_beacon(a) == 3010);
    CHECK(geostation_next_beacon(c) == 3020);
    geostation_free(a);
    geostation_free(b);
    geostation_free(c);
    geostation_free(zero);
}

/* The fields of a GBC, an SHB and a BEACON, and what is wrong with others. */
static void test_frames(void) {
    static const uint8_t all[6] = { 255, 255, 255, 255, 255, 255 };
    static const uint8_t mid[6] = { 2, 0, 0, 0, 0, 1 };
    static const struct geostation_packet nothing;
    const struct geostation_shb_request shb = { .port = 2001, .info = 9, .traffic_class = 3 };
    struct geostation *a = station(A_ADDRESS, 12, 64);
    struct geostation_area_request area = AREA;
    struct geostation_packet p;
    size_t n;
    area.shape = GEOSTATION_ELLIPSE, area.b = 100, area.angle = 30, area.longitude = -5;
    CHECK(geostation_move(a, 5, 449, 12, 0, 8, 9) == GEOSTATION_OK);
    CHECK(geostation_restart(a, 5, 77) == GEOSTATION_OK);
    CHECK(geostation_send_gbc(a, 6, &area, HI, 2, frame, ROOM, &n) == GEOSTATION_OK && n == 76);
    memset(&p, 1, sizeof p);
    CHECK(geostation_read_frame(frame, n, &p) == GEOSTATION_OK);
    CHECK(memcmp(p.target, all, 6) == 0 && memcmp(p.source, mid, 6) == 0);
    CHECK(p.kind == GEOSTATION_GBC && p.hops_left == 5 && p.max_hops == 5 && p.lifetime == 0x1a);
    CHECK(p.traffic_class == 2 && p.mobile == 1 && p.number == 77);
    CHECK(p.media[0] == 0 && p.media[3] == 0);
    CHECK(is_vector(&p.vector, A_ADDRESS, 5, 12, 8, 9, 0));
    CHECK(p.area.shape == GEOSTATION_ELLIPSE && p.area.latitude == 449 && p.area.longitude == -5);
    CHECK(p.area.a == 200 && p.area.b == 100 && p.area.angle == 30);
    CHECK(p.message.port == 2002 && p.message.info == 7);
    CHECK(p.message.payload_start == 74 && p.message.payload_length == 2);
    CHECK(p.fault == 0 && p.fault_kind == 0 && p.fault_at == 0);

    CHECK(geostation_send_gac(a, 6, &area, HI, 0, frame, ROOM, &n) == GEOSTATION_OK && n == 74);
    CHECK(geostation_read_frame(frame, n, &p) == GEOSTATION_OK);
    CHECK(p.kind == GEOSTATION_GAC && p.number == 78 && p.message.payload_length == 0);

    CHECK(geostation_send_shb(a, 7, &shb, HI, 2, frame, ROOM, &n) == GEOSTATION_OK && n == 60);
    frame[50] = 1, frame[53] = 4; /* the media-dependent data */
    CHECK(geostation_read_frame(frame, n, &p) == GEOSTATION_OK);
    CHECK(p.kind == GEOSTATION_SHB && p.hops_left == 1 && p.max_hops == 1 && p.number == 0);
    CHECK(p.media[0] == 1 && p.media[1] == 0 && p.media[3] == 4 && p.traffic_class == 3);
    CHECK(p.message.port == 2001 && p.message.info == 9);
    CHECK(p.message.payload_start == 58 && p.message.payload_length == 2);
    CHECK(p.area.a == 0 && p.area.latitude == 0);

    CHECK(geostation_tick(a, 9000, 0, frame, ROOM, &n) == GEOSTATION_OK && n == 50);
    CHECK(geostation_read_frame(frame, n, &p) == GEOSTATION_OK && p.kind == GEOSTATION_BEACON);
    CHECK(p.message.port == 0 && p.message.payload_start == 0 && p.message.payload_length == 0);
    CHECK(is_vector(&p.vector, A_ADDRESS, 5, 12, 8, 9, 0));

    CHECK(geostation_read_frame(frame, n - 1, &p) == GEOSTATION_BAD_FRAME);
    CHECK(p.fault == 5 && p.fault_kind == 1 && p.fault_at == 35);
    p.fault = 0, p.fault_kind = 0, p.fault_at = 0;
    CHECK(memcmp(&p, &nothing, sizeof p) == 0);
    CHECK(geostation_read_frame(HI, 0, &p) == GEOSTATION_BAD_FRAME && p.fault == 1);
    CHECK(p.fault_kind == 0 && p.fault_at == 0 && p.kind == 0);
    geostation_free(a);
}

/* A station from a struct: its size, its ranges, whether it is mobile, its first number. */
static void test_config(void) {
    struct geostation_config c;
    struct geostation_packet p;
    struct geostation *s = NULL;
    size_t n;
    memset(&c, 0xff, sizeof c);
    geostation_config_init(&c);
    CHECK(c.size == sizeof c && c.address == 0 && c.latitude == 0 && c.longitude == 0);
    CHECK(c.capacity == 64 && c.remember == 8 && c.mobile == 1 && c.number == 0);
    CHECK(c.forward_rate == 100 && c.forward_burst == 50 && c.source_rate == 20
          && c.source_burst == 20 && c.own_rate == 50 && c.own_burst == 50);
    CHECK(c.hop_cap == 10 && c.deliver_once == 1);
    c.address = A_ADDRESS;
    c.latitude = 449;
    c.mobile = 0;
    c.number = 65535;
    static const struct { uint64_t size; uint16_t capacity, remember; } bad[] = {
        { 0, 64, 8 }, { sizeof c - 1, 64, 8 }, { sizeof c + 8, 64, 8 }, { sizeof c, 0, 8 },
        { sizeof c, 4097, 8 }, { sizeof c, 64, 0 }, { sizeof c, 64, 65 }, { sizeof c, 64, 256 + 8 },
    };
    for (size_t i = 0; i < sizeof bad / sizeof bad[0]; i++) {
        struct geostation_config b = c;
        b.size = bad[i].size, b.capacity = bad[i].capacity, b.remember = bad[i].remember;
        s = (struct geostation *)frame;
        CHECK(geostation_new_from_config(&s, &b) == GEOSTATION_BAD_ARGUMENT && s == NULL);
    }
    c.latitude = 900000001;
    CHECK(geostation_new_from_config(&s, &c) == GEOSTATION_BAD_ARGUMENT && s == NULL);
    c.latitude = 449;
    CHECK(geostation_new_from_config(&s, &c) == GEOSTATION_OK && s != NULL);
    CHECK(geostation_next_number(s) == 65535);
    CHECK(geostation_tick(s, 0, 0, frame, ROOM, &n) == GEOSTATION_OK && n == 50);
    CHECK(geostation_read_frame(frame, n, &p) == GEOSTATION_OK && p.mobile == 0);
    CHECK(p.vector.address == A_ADDRESS && p.vector.latitude == 449 && p.vector.timestamp == 0);
    CHECK(geostation_send_gbc(s, 1, &AREA, HI, 2, frame, ROOM, &n) == GEOSTATION_OK);
    CHECK(geostation_read_frame(frame, n, &p) == GEOSTATION_OK);
    CHECK(p.number == 65535 && p.mobile == 0 && geostation_next_number(s) == 0);
    geostation_free(s);
}

/* Frames with Ethernet padding; octets that are NULL; and the fields that each frame sets. */
static void test_padding(void) {
    struct geostation *a = station(A_ADDRESS, 0, 64), *b = station(B_ADDRESS, 900, 64);
    uint8_t padded[ROOM];
    size_t n;
    CHECK(geostation_frame_length(NULL, 0) == 0 && geostation_frame_length(HI, 2) == 0);
    CHECK(geostation_tick(a, 0, 0, frame, ROOM, &n) == GEOSTATION_OK && n == 50);
    memset(padded, 0, sizeof padded);
    memcpy(padded, frame, n);
    for (size_t most = 0; most < 50; most++)
        CHECK(geostation_frame_length(padded, most) == 0);
    for (size_t most = 50; most < 100; most++) {
        CHECK(geostation_frame_length(padded, most) == 50);
        int status = geostation_receive(b, most, padded, most, &r, relay, ROOM);
        CHECK(status == (most <= 60 ? GEOSTATION_OK : GEOSTATION_BAD_FRAME));
        CHECK(status == GEOSTATION_OK ? is_of(A_ADDRESS, GEOSTATION_BEACON, 0, 0, 1)
                                      : r.fault == 4 && r.source == 0);
    }
    padded[55] = 1; /* not zero: not padding */
    CHECK(geostation_frame_length(padded, 60) == 50);
    CHECK(geostation_receive(b, 60, padded, 60, &r, relay, ROOM) == GEOSTATION_BAD_FRAME);
    CHECK(r.fault == 4);
    padded[13] = 0x48; /* another type */
    CHECK(geostation_frame_length(padded, 60) == 0);
    CHECK(geostation_receive(b, 60, NULL, 0, &r, relay, ROOM) == GEOSTATION_BAD_FRAME);
    CHECK(r.fault == 1 && r.fault_kind == 0 && r.fault_at == 0);

    /* an SHB with no payload, 58 octets: its payload begins where the padding did */
    const struct geostation_shb_request shb = { .port = 2001, .info = 9, .traffic_class = 3 };
    CHECK(geostation_open_port(b, 60, 2001) == GEOSTATION_OK);
    CHECK(geostation_send_shb(a, 61, &shb, NULL, 0, frame, ROOM, &n) == GEOSTATION_OK && n == 58);
    memset(padded, 0, sizeof padded);
    memcpy(padded, frame, n);
    CHECK(geostation_receive(b, 61, padded, 60, &r, relay, ROOM) == GEOSTATION_OK);
    CHECK(r.delivered == 1 && r.payload_length == 0 && r.payload_start == 58);
    CHECK(r.port == 2001 && r.info == 9 && is_of(A_ADDRESS, GEOSTATION_SHB, 0, 3, 1));
    CHECK(r.fault == 0 && r.fault_kind == 0 && r.fault_at == 0);

    /* a GBC is forwarded; its second copy is ignored, and its fields are set all the same */
    CHECK(geostation_send_gbc(a, 62, &AREA, NULL, 0, frame, ROOM, &n) == GEOSTATION_OK);
    CHECK(geostation_receive(b, 62, frame, n, &r, relay, ROOM) == GEOSTATION_OK);
    CHECK(r.relay_length == n && is_of(A_ADDRESS, GEOSTATION_GBC, 0, 2, 5));
    CHECK(geostation_receive(b, 63, frame, n, &r, relay, ROOM) == GEOSTATION_OK);
    CHECK(r.ignored == GEOSTATION_DUPLICATE && r.relay_length == 0);
    CHECK(is_of(A_ADDRESS, GEOSTATION_GBC, 0, 2, 5));
    CHECK(geostation_receive(b, 62, frame, n, &r, relay, ROOM) == GEOSTATION_MOMENT_EARLIER);
    CHECK(is_nothing());
    geostation_free(a);
    geostation_free(b);
}

/* Which events are counted, and which are not. */
static void test_counts(void) {
    struct geostation *a = station(A_ADDRESS, 0, 64), *b = station(B_ADDRESS, 900, 1);
    struct geostation *c = station(C_ADDRESS, 1800, 64);
    const struct geostation_shb_request shb = { .port = 2001 };
    struct geostation_counts k, zero;
    size_t n;
    memset(&zero, 0, sizeof zero);
    memset(&k, 0xff, sizeof k);
    geostation_counts(a, &k);
    CHECK(memcmp(&k, &zero, sizeof k) == 0);

    CHECK(geostation_open_port(b, 1, 2002) == GEOSTATION_OK);
    CHECK(geostation_open_port(b, 1, 2002) == GEOSTATION_PORT_ALREADY_OPEN);
    CHECK(geostation_send_gbc(a, 1, &AREA, HI, 2, frame, ROOM, &n) == GEOSTATION_OK);
    CHECK(geostation_receive(b, 1, frame, n, &r, relay, ROOM) == GEOSTATION_OK);
    CHECK(geostation_receive(b, 2, frame, n, &r, relay, ROOM) == GEOSTATION_OK);
    CHECK(geostation_receive(b, 2, frame, n, &r, relay, ROOM - 1) == GEOSTATION_NO_ROOM);
    CHECK(geostation_receive(b, 1, frame, n, &r, relay, ROOM) == GEOSTATION_MOMENT_EARLIER);
    CHECK(geostation_receive(b, 2, frame, 13, &r, relay, ROOM) == GEOSTATION_BAD_FRAME);
    CHECK(geostation_tick(c, 2, 0, frame, ROOM, &n) == GEOSTATION_OK && n == 50);
    CHECK(geostation_receive(b, 2, frame, n, &r, relay, ROOM) == GEOSTATION_TABLE_FULL);
    CHECK(geostation_send_gac(a, 2, &AREA, HI, 2, frame, ROOM, &n) == GEOSTATION_OK);
    CHECK(geostation_send_shb(a, 2, &shb, HI, 2, frame, ROOM, &n) == GEOSTATION_OK);
    CHECK(geostation_send_shb_with_lifetime(a, 2, &shb, 5, HI, 2, frame, ROOM, &n)
          == GEOSTATION_OK);
    CHECK(geostation_tick(a, 2, 0, frame, ROOM, &n) == GEOSTATION_OK && n == 0);
    CHECK(geostation_tick(a, 3002, 0, frame, ROOM, &n) == GEOSTATION_OK && n == 50);
    CHECK(geostation_tick(a, 3002, 751, frame, ROOM, &n) == GEOSTATION_JITTER_RANGE);
    CHECK(geostation_move(a, GEOSTATION_LAST_MOMENT + 1, 0, 0, 1, 0, 0)
          == GEOSTATION_MOMENT_TOO_LATE);
    CHECK(geostation_move(a, 3002, 900000001, 0, 1, 0, 0) == GEOSTATION_BAD_ARGUMENT);
    until_fail = 0;
    CHECK(geostation_send_shb(a, 3002, &shb, HI, 2, frame, ROOM, &n) == GEOSTATION_NO_MEMORY);
    until_fail = -1;

    memset(&k, 0xff, sizeof k);
    geostation_counts(b, &k);
    CHECK(k.received == 5 && k.accepted == 1 && k.delivered == 1 && k.relayed == 1);
    CHECK(k.ignored.duplicate == 1 && k.ignored.not_for_me == 0 && k.ignored.own_source == 0);
    CHECK(k.refused.moment_earlier == 1 && k.refused.frame == 1 && k.refused.table_full == 1);
    CHECK(k.refused.other == 1 && k.refused.no_memory == 0 && k.sent.beacons == 0);
    CHECK(geostation_restart(a, 3002, 0) == GEOSTATION_OK);
    geostation_counts(a, &k);
    CHECK(k.received == 0 && k.sent.beacons == 1 && k.sent.single_hop == 2);
    CHECK(k.sent.geobroadcasts == 1 && k.sent.geoanycasts == 1);
    CHECK(k.refused.other == 1 && k.refused.moment_too_late == 1 && k.refused.no_memory == 1);
    CHECK(k.refused.moment_earlier == 0 && k.refused.frame == 0 && k.refused.table_full == 0);
    geostation_free(a);
    geostation_free(b);
    geostation_free(c);
}

static uint8_t answer[GEOSTATION_ANSWER_MAX];
static size_t answered, framed;

static int serve(struct geostation *s, uint64_t now, const char *line) {
    answered = framed = 99;
    return geostation_handle_json(s, now, 5, (const uint8_t *)line, strlen(line), answer,
                                  sizeof answer, &answered, frame, ROOM, &framed);
}

/* The answer to the line is this text or, if `more` is set, begins with it; and a frame of so many
 * octets is to be sent. */
static int answers(struct geostation *s, uint64_t now, const char *line, const char *text, int more,
                   size_t length) {
    return serve(s, now, line) == GEOSTATION_OK && memcmp(answer, text, strlen(text)) == 0
        && (more ? answered > strlen(text) : answered == strlen(text)) && framed == length;
}

/* The octets are these digits, up to a quotation mark. */
static int are_digits(const uint8_t *digits, const uint8_t *octets, size_t n) {
    for (size_t i = 0; i < n; i++) {
        char pair[3];
        snprintf(pair, sizeof pair, "%02x", octets[i]);
        if (memcmp(digits + 2 * i, pair, 2) != 0) return 0;
    }
    return digits[2 * n] == '"';
}

static const char TO_AREA[] =
    "{\"id\":\"w\",\"do\":\"gbc\",\"port\":2002,\"info\":7,\"tc\":2,\"lt\":26,\"hops\":5,"
    "\"shape\":\"circle\",\"alat\":449,\"alon\":0,\"a\":200,\"b\":0,\"angle\":0,"
    "\"payload\":\"6869\"}";

/* A line that receives the frame of this length. */
static void write_receive(char *line, size_t room, size_t n) {
    size_t at = (size_t)snprintf(line, room, "{\"do\":\"receive\",\"frame\":\"");
    for (size_t i = 0; i < n; i++, at += 2)
        snprintf(line + at, room - at, "%02x", frame[i]);
    snprintf(line + at, room - at, "\"}");
}

/* Media-dependent data of a line are sent, and those that came are in the answer, but zeros. */
static void test_media_of_lines(void) {
    static const char sent[] = "{\"at\":7,\"result\":\"sent\",\"frame\":\"";
    struct geostation *a = station(A_ADDRESS, 0, 64), *b = station(B_ADDRESS, 900, 64);
    char line[2 * ROOM + 40];
    CHECK(answers(a, 7, "{\"do\":\"shb\",\"port\":2002,\"info\":0,\"tc\":0,\"media\":\"4D5a00Ff\","
                  "\"payload\":\"6869\"}", sent, 1, 60));
    CHECK(frame[16] == 0x1a && memcmp(frame + 50, "\x4d\x5a\x00\xff", 4) == 0);
    write_receive(line, sizeof line, 60);
    CHECK(answers(b, 8, line, "{\"at\":8,\"result\":\"accepted\",\"source\":\"1400020000000001\","
                  "\"media\":\"4d5a00ff\"}", 0, 0));
    CHECK(answers(a, 7, "{\"do\":\"shb\",\"port\":2002,\"info\":0,\"tc\":0,\"payload\":\"6869\"}", sent,
                  1, 60) && memcmp(frame + 50, "\0\0\0\0", 4) == 0);
    write_receive(line, sizeof line, 60);
    CHECK(answers(b, 8, line, "{\"at\":8,\"result\":\"accepted\",\"source\":\"1400020000000001\"}", 0, 0));
    CHECK(answers(a, 7, "{\"do\":\"shb\",\"port\":2002,\"info\":0,\"tc\":0,\"media\":\"4d5a00f\","
                  "\"payload\":\"6869\"}", "{\"line\":5,\"error\":\"media\",\"reason\":\"", 1, 0));
    geostation_free(a);
    geostation_free(b);
}

/* Lines of JSON: their answers and frames are those of the calls. */
static void test_lines(void) {
    static const char sent[] = "{\"id\":\"w\",\"at\":7,\"result\":\"sent\",\"frame\":\"";
    static const char came[] = "{\"at\":8,\"result\":\"accepted\",\"source\":\"1400020000000001\","
        "\"port\":2002,\"info\":7,\"payload\":\"6869\",\"frame\":\"";
    struct geostation *a = station(A_ADDRESS, 0, 64), *b = station(B_ADDRESS, 900, 64);
    struct geostation *twin = station(A_ADDRESS, 0, 64);
    char line[2 * ROOM + 40];
    size_t n, m = 99;
    CHECK(answers(b, 7, "{\"at\":3,\"do\":\"open\",\"port\":2002}",
                  "{\"at\":7,\"result\":\"opened\"}", 0, 0));
    CHECK(answers(b, 7, "{\"do\":\"open\",\"port\":2002}",
                  "{\"at\":7,\"result\":\"refused\",\"code\":\"S8 B2\",\"reason\":\"", 1, 0));
    CHECK(geostation_send_gbc(twin, 7, &AREA, HI, 2, other, ROOM, &n) == GEOSTATION_OK);
    CHECK(answers(a, 7, TO_AREA, sent, 1, n) && memcmp(frame, other, n) == 0);
    CHECK(are_digits(answer + sizeof sent - 1, frame, n));
    CHECK(geostation_next_number(a) == 1);

    write_receive(line, sizeof line, n);
    CHECK(answers(b, 8, line, came, 1, n) && are_digits(answer + sizeof came - 1, frame, n));
    CHECK(answers(b, 8, line, "{\"at\":8,\"result\":\"ignored\",\"why\":\"duplicate\"}", 0,
                  0));

    CHECK(answers(a, 7, "{\"do\":\"tick\",\"jitter\":0}",
                  "{\"at\":7,\"result\":\"quiet\"}", 0, 0));
    CHECK(answers(a, 3007, "{\"do\":\"tick\",\"jitter\":0}",
                  "{\"at\":3007,\"result\":\"sent\",\"frame\":\"", 1, 50));
    CHECK(answers(a, 3007, "{\"do\":\"next_beacon\",\"jitter\":9}",
                  "{\"at\":3007,\"result\":\"next_beacon\",\"moment\":6016}", 0, 0));
    CHECK(answers(a, 3006, "{\"do\":\"close\",\"port\":1}",
                  "{\"at\":3006,\"result\":\"refused\",\"code\":\"S1\",\"reason\":\"", 1, 0));
    CHECK(answers(a, 3007, "{\"do\":\"open\",\"port\":65536}",
                  "{\"line\":5,\"error\":\"port\",\"reason\":\"", 1, 0));
    CHECK(answers(a, 3007, "x", "{\"line\":5,\"error\":\"not JSON\"", 1, 0));
    CHECK(answers(a, 3007, "{\"do\":\"counts\"}",
                  "{\"at\":3007,\"result\":\"counts\",\"received\":0,", 1, 0));
    CHECK(answers(a, 3007, " \t\r", "", 0, 0));
    CHECK(geostation_handle_json(a, 3007, 1, NULL, 0, answer, sizeof answer, &n, frame, ROOM, &m)
              == GEOSTATION_OK && n == 0 && m == 0);
    n = m = 99;
    CHECK(geostation_handle_json(a, 3007, 1, HI, 2, answer, sizeof answer - 1, &n, frame, ROOM, &m)
              == GEOSTATION_NO_ROOM && n == 0 && m == 0);
    n = m = 99;
    CHECK(geostation_handle_json(a, 3007, 1, HI, 2, answer, sizeof answer, &n, frame, ROOM - 1, &m)
              == GEOSTATION_NO_ROOM && n == 0 && m == 0);
    geostation_free(a);
    geostation_free(b);
    geostation_free(twin);
}

static struct geostation_line_result done;

static int handle(struct geostation *s, uint64_t now, const char *line, uint32_t rights) {
    memset(&done, 99, sizeof done);
    return geostation_handle_line(s, now, 5, (const uint8_t *)line, strlen(line), rights, answer,
                                  sizeof answer, frame, ROOM, &done);
}

/* The line has this command and this outcome, and its answer begins with this text. */
static int comes_to(struct geostation *s, uint64_t now, const char *line, uint32_t rights,
                    uint32_t command, uint32_t outcome, const char *text) {
    return handle(s, now, line, rights) == GEOSTATION_OK && done.command == command
        && done.outcome == outcome && done.answer_length >= strlen(text)
        && memcmp(answer, text, strlen(text)) == 0;
}

static const char NOT_ALLOWED[] = "{\"at\":7,\"result\":\"refused\",\"code\":\"not allowed\"";

/* A line that lacks its right changes nothing, and each right is that of its commands alone. */
static void test_rights(void) {
    static const struct { const char *line; uint32_t command, right; } rows[] = {
        { "{\"do\":\"move\",\"lat\":9,\"lon\":8,\"pai\":true,\"speed\":-7,\"heading\":6}", 1, 4 },
        { "{\"do\":\"open\",\"port\":2002}", 2, 8 },
        { "{\"do\":\"close\",\"port\":2002}", 3, 8 },
        { "{\"do\":\"tick\",\"jitter\":0}", 4, 1 },
        { "{\"do\":\"shb\",\"port\":7,\"info\":0,\"tc\":0,\"payload\":\"68\"}", 5, 1 },
        { "{\"do\":\"restart\",\"number\":9}", 8, 16 },
        { "{\"do\":\"receive\",\"frame\":\"00\"}", 9, 2 },
    };
    struct geostation *a = station(A_ADDRESS, 0, 64);
    for (size_t k = 0; k < sizeof rows / sizeof *rows; k++) {
        struct geostation_counts before, after;
        geostation_counts(a, &before);
        CHECK(comes_to(a, 7, rows[k].line, GEOSTATION_RIGHTS_ALL - rows[k].right, rows[k].command,
                       GEOSTATION_OUTCOME_NOT_ALLOWED, NOT_ALLOWED));
        CHECK(done.frame_length == 0 && done.status == GEOSTATION_OK && done.number == 0);
        geostation_counts(a, &after);
        CHECK(memcmp(&before, &after, sizeof before) == 0);
        CHECK(handle(a, 7, rows[k].line, rows[k].right) == GEOSTATION_OK);
        CHECK(done.outcome != GEOSTATION_OUTCOME_NOT_ALLOWED);
    }
    CHECK(comes_to(a, 7, TO_AREA, 0, GEOSTATION_COMMAND_GBC, GEOSTATION_OUTCOME_NOT_ALLOWED,
                   "{\"id\":\"w\",\"at\":7,\"result\":\"refused\",\"code\":\"not allowed\""));
    CHECK(done.port == 2002 && done.payload_length == 2 && done.id_length == 3);
    CHECK(geostation_next_number(a) == 9);
    geostation_free(a);
}

/* what a line asked for, and the outcome. */
static void test_line_results(void) {
    struct geostation *a = station(A_ADDRESS, 0, 64), *twin = station(A_ADDRESS, 0, 64);
    size_t n;
    CHECK(geostation_send_gbc(twin, 7, &AREA, HI, 2, other, ROOM, &n) == GEOSTATION_OK);
    CHECK(comes_to(a, 7, TO_AREA, GEOSTATION_RIGHT_SEND, GEOSTATION_COMMAND_GBC,
                   GEOSTATION_OUTCOME_DONE, "{\"id\":\"w\",\"at\":7,\"result\":\"sent\",\"frame\":\""));
    CHECK(done.frame_length == n && memcmp(frame, other, n) == 0 && done.number == 0);
    CHECK(n == 74 + done.payload_length);
    CHECK(comes_to(a, 7, TO_AREA, GEOSTATION_RIGHT_SEND, GEOSTATION_COMMAND_GBC,
                   GEOSTATION_OUTCOME_DONE, "{\"id\":\"w\",\"at\":7,\"result\":\"sent\""));
    CHECK(done.number == 1 && geostation_next_number(a) == 2);
    CHECK(comes_to(a, 8, "{\"do\":\"move\",\"lat\":9,\"lon\":8,\"pai\":true,\"speed\":-7,"
                   "\"heading\":6}", GEOSTATION_RIGHT_MOVE, GEOSTATION_COMMAND_MOVE,
                   GEOSTATION_OUTCOME_DONE, "{\"at\":8,\"result\":\"moved\"}"));
    CHECK(done.vector.address == A_ADDRESS && done.vector.timestamp == 8);
    CHECK(done.vector.latitude == 9 && done.vector.longitude == 8 && done.vector.accurate == 1);
    CHECK(done.vector.speed == -7 && done.vector.heading == 6 && done.id_length == 0);
    CHECK(comes_to(a, 8, "{\"do\":\"close\",\"port\":3}", GEOSTATION_RIGHT_PORTS,
                   GEOSTATION_COMMAND_CLOSE, GEOSTATION_OUTCOME_REFUSED, "{\"at\":8,"));
    CHECK(done.status == GEOSTATION_PORT_NOT_OPEN && done.port == 3);
    CHECK(comes_to(a, 8, "{\"do\":\"fly\"}", 0, 0, GEOSTATION_OUTCOME_UNKNOWN_COMMAND, "{\"line\":5,"));
    CHECK(comes_to(a, 8, "{}", 0, 0, GEOSTATION_OUTCOME_UNKNOWN_COMMAND, "{\"line\":5,"));
    CHECK(comes_to(a, 8, "{", 0, 0, GEOSTATION_OUTCOME_MALFORMED, "{\"line\":5,"));
    CHECK(comes_to(a, 8, "{\"do\":\"open\"}", 0, 0, GEOSTATION_OUTCOME_MALFORMED, "{\"line\":5,"));
    CHECK(comes_to(a, 8, "{\"id\":12,\"do\":\"counts\"}", 0, GEOSTATION_COMMAND_COUNTS,
                   GEOSTATION_OUTCOME_DONE, "{\"id\":12,\"at\":8,") && done.id_length == 2);
    CHECK(comes_to(a, 8, "{\"do\":\"read_frame\",\"frame\":\"00\"}", 0,
                   GEOSTATION_COMMAND_READ_FRAME, GEOSTATION_OUTCOME_REFUSED, "{\"at\":8,"));
    CHECK(done.status == GEOSTATION_BAD_FRAME);
    CHECK(comes_to(a, 8, " ", 0, 0, GEOSTATION_OUTCOME_BLANK, "") && done.answer_length == 0);
    CHECK(geostation_handle_line(a, 8, 1, NULL, 0, 0, answer, sizeof answer, frame, ROOM, &done)
              == GEOSTATION_OK && done.outcome == GEOSTATION_OUTCOME_BLANK);
    done.command = 99;
    CHECK(geostation_handle_line(a, 8, 1, HI, 2, 0, answer, sizeof answer - 1, frame, ROOM, &done)
              == GEOSTATION_NO_ROOM && done.command == 0);
    geostation_free(a);
    geostation_free(twin);
}

/* A line is within the rate of own packets, and gets the delivery of a packet once. */
static void test_limited_lines(void) {
    static const char shb[] = "{\"do\":\"shb\",\"port\":7,\"info\":0,\"tc\":0,\"payload\":\"68\"}";
    struct geostation_config c;
    struct geostation *a;
    geostation_config_init(&c);
    c.address = A_ADDRESS;
    c.own_rate = c.own_burst = 1;
    CHECK(geostation_new_from_config(&a, &c) == GEOSTATION_OK);
    CHECK(comes_to(a, 0, shb, 1, 5, GEOSTATION_OUTCOME_DONE, "{\"at\":0,\"result\":\"sent\""));
    CHECK(comes_to(a, 1, shb, 1, 5, GEOSTATION_OUTCOME_REFUSED,
                   "{\"at\":1,\"result\":\"refused\",\"code\":\"over rate\",\"reason\":\"own packets "
                   "are over their rate\"}"));
    CHECK(done.status == GEOSTATION_OVER_RATE && done.frame_length == 0);
    CHECK(answers(a, 1, shb, "{\"at\":1,\"result\":\"sent\"", 1, 59));
    geostation_free(a);
}

/* The longest answers fit, and an allocation that fails leaves the station unchanged. */
static void test_large_lines(void) {
    struct geostation *a = station(A_ADDRESS, 0, 64), *s;
    static char line[70000];
    size_t n;
    for (uint64_t k = 0; k < 33; k++) {
        s = station(A_ADDRESS + 1 + k, -1800000000, 64);
        CHECK(geostation_move(s, 0, -900000000 + (int)k, -1799999999, 1, -16384, 3600)
              == GEOSTATION_OK);
        CHECK(geostation_tick(s, 3000, 0, frame, ROOM, &n) == GEOSTATION_OK && n == 50);
        CHECK(geostation_receive(a, 3000, frame, n, &r, relay, ROOM) == GEOSTATION_OK);
        geostation_free(s);
    }
    CHECK(serve(a, 3000, "{\"do\":\"neighbours\"}") == GEOSTATION_OK && answered > 3000);
    static const char more[] = "}],\"more\":true}";
    CHECK(memcmp(answer + answered - (sizeof more - 1), more, sizeof more - 1) == 0);

    n = (size_t)snprintf(line, sizeof line,
                         "{\"do\":\"shb\",\"port\":1,\"info\":0,\"tc\":0,\"payload\":\"");
    memset(line + n, 'a', 2 * 1394);
    strcpy(line + n + 2 * 1394, "\"}");
    CHECK(serve(a, 3000, line) == GEOSTATION_OK && framed == 58 + 1394
          && answered > 2 * framed);
    memset(line, ' ', 65537);
    strcpy(line + 65537, "x");
    CHECK(answers(a, 3000, line, "{\"line\":5,\"error\":\"not JSON\"", 1, 0));

    long fails = 0;
    for (;; fails++) {
        const uint16_t number = geostation_next_number(a);
        until_fail = fails;
        const int status = serve(a, 3000, TO_AREA);
        until_fail = -1;
        CHECK(geostation_next_number(a) == number + (status == GEOSTATION_OK));
        if (status == GEOSTATION_OK) break;
        CHECK(status == GEOSTATION_NO_MEMORY && answered == 0 && framed == 0);
    }
    CHECK(fails > 4 && framed != 0 && answered > 2 * framed);
    geostation_free(a);
}

static uint8_t sealed[GEOSTATION_SECURED_FRAME_MAX], forwarded[GEOSTATION_SECURED_FRAME_MAX];
#define SECURED_ROOM GEOSTATION_SECURED_FRAME_MAX
static const uint8_t SIGNED[] = { 3, 0x81, 0x40 };

/* The parts of frames, and the secured frame of one with a message. */
static void test_sealing(void) {
    struct geostation *a = station(A_ADDRESS, 0, 64);
    static uint8_t message[2293];
    size_t n, start = 9, m = 9;
    CHECK(geostation_send_gbc(a, 20, &AREA, HI, 2, frame, ROOM, &n) == GEOSTATION_OK && n == 76);
    CHECK(geostation_plain_part(frame, n, &start, &m) == GEOSTATION_OK);
    CHECK(start == 18 && m == n - 18);
    CHECK(geostation_message(frame, n, &start, &m) == GEOSTATION_BAD_FRAME);
    CHECK(start == 0 && m == 0);
    start = m = 9;
    CHECK(geostation_plain_part(frame, n - 1, &start, &m) == GEOSTATION_BAD_FRAME);
    CHECK(start == 0 && m == 0);
    CHECK(geostation_plain_part(NULL, 0, &start, &m) == GEOSTATION_BAD_FRAME);
    CHECK(geostation_message(NULL, 0, &start, &m) == GEOSTATION_BAD_FRAME);

    CHECK(geostation_seal(frame, n, SIGNED, 3, sealed, SECURED_ROOM, &m) == GEOSTATION_OK);
    CHECK(m == 21 && memcmp(sealed, frame, 14) == 0 && sealed[14] == 0x12);
    CHECK(memcmp(sealed + 15, frame + 15, 3) == 0 && memcmp(sealed + 18, SIGNED, 3) == 0);
    CHECK(geostation_message(sealed, m, &start, &n) == GEOSTATION_OK && start == 18 && n == 3);
    CHECK(geostation_plain_part(sealed, m, &start, &n) == GEOSTATION_BAD_FRAME && start == 0);
    CHECK(geostation_message(sealed, 18, &start, &n) == GEOSTATION_BAD_FRAME && n == 0);
    n = 76;
    CHECK(geostation_seal(frame, n, message, 2292, sealed, SECURED_ROOM, &m) == GEOSTATION_OK);
    CHECK(m == SECURED_ROOM);
    memset(sealed, 7, SECURED_ROOM);
    CHECK(geostation_seal(frame, n, message, 2293, sealed, SECURED_ROOM, &m)
          == GEOSTATION_BAD_ARGUMENT && m == 0);
    CHECK(geostation_seal(frame, n, NULL, 0, sealed, SECURED_ROOM, &m) == GEOSTATION_BAD_ARGUMENT);
    m = 9;
    CHECK(geostation_seal(frame, n, SIGNED, 3, sealed, SECURED_ROOM - 1, &m) == GEOSTATION_NO_ROOM
          && m == 0);
    CHECK(geostation_seal(NULL, 0, SIGNED, 3, sealed, SECURED_ROOM, &m) == GEOSTATION_BAD_FRAME);
    CHECK(geostation_seal(frame, n - 1, SIGNED, 3, sealed, SECURED_ROOM, &m)
          == GEOSTATION_BAD_FRAME);
    until_fail = 0;
    CHECK(geostation_seal(frame, n, SIGNED, 3, sealed, SECURED_ROOM, &m) == GEOSTATION_NO_MEMORY);
    until_fail = -1;
    CHECK(m == 0 && sealed[0] == 7 && memcmp(sealed, sealed + 1, SECURED_ROOM - 1) == 0);
    geostation_free(a);
}

/* Passes a secured frame to a station, with a plain part. */
static int hear(struct geostation *s, uint64_t now, const uint8_t *octets, size_t length,
                const uint8_t *plain, size_t plain_length) {
    return geostation_receive_verified(s, now, octets, length, plain, plain_length, &r, forwarded,
                                       SECURED_ROOM);
}

/* The fault that the reception has is this one. */
static int is_fault(int status, uint32_t layer, uint32_t kind, size_t at) {
    const int is = status == GEOSTATION_BAD_FRAME && r.fault == layer && r.fault_kind == kind
        && r.fault_at == at;
    r.fault = r.fault_kind = 0, r.fault_at = 0;
    return is && is_nothing();
}

/* Each fault of a secured frame, and of the packet that its plain part is. */
static void test_verified_faults(struct geostation *b, const uint8_t *plain, size_t n) {
    static uint8_t octets[SECURED_ROOM + 1], more[100];
    memcpy(octets, sealed, 21);
    for (size_t k = 0; k < 14; k++) CHECK(is_fault(hear(b, 26, octets, k, plain, n), 1, 0, 0));
    for (size_t k = 14; k < 19; k++)
        CHECK(is_fault(hear(b, 26, octets, k, plain, n), 5, 1, k - 14));
    octets[13] = 0;
    CHECK(is_fault(hear(b, 26, octets, 21, plain, n), 2, 0, 0));
    octets[13] = 0x47;
    CHECK(is_fault(hear(b, 26, octets, SECURED_ROOM + 1, plain, n), 3, 0, 0));
    static const struct { size_t at; uint8_t octet; uint32_t kind; } wrong[] = {
        { 0, 0x22, 2 }, { 0, 0x11, 3 }, { 1, 1, 4 }, { 3, 0, 5 },
    };
    for (size_t k = 0; k < sizeof wrong / sizeof *wrong; k++) {
        octets[14 + wrong[k].at] = wrong[k].octet;
        CHECK(is_fault(hear(b, 26, octets, 21, plain, n), 5, wrong[k].kind, wrong[k].at));
        memcpy(octets, sealed, 21);
    }
    CHECK(is_fault(hear(b, 26, octets, 21, NULL, 0), 6, 1, 4));
    for (size_t k = 0; k < n; k++) CHECK(is_fault(hear(b, 26, octets, 21, plain, k), 6, 1, k + 4));
    octets[17] = 6; /* the Basic Header has more hops left than the plain part allows */
    CHECK(is_fault(hear(b, 26, octets, 21, plain, n), 6, 9, 10));
    octets[17] = 5;
    memcpy(more, plain, n);
    CHECK(is_fault(hear(b, 26, octets, 21, more, n + 1), 4, 0, 0));
}

/* A secured frame is the packet in its plain part. */
static void test_verified(void) {
    struct geostation *a = station(A_ADDRESS, 0, 64), *b = station(B_ADDRESS, 900, 64);
    struct geostation *full = station(C_ADDRESS, 900, 1);
    struct geostation_shb_request shb = { .port = 2001, .info = 0, .traffic_class = 0 };
    uint8_t plain[58], both[200];
    size_t n, m;
    CHECK(geostation_open_port(b, 20, 2002) == GEOSTATION_OK);
    CHECK(geostation_send_gbc(a, 20, &AREA, HI, 2, frame, ROOM, &n) == GEOSTATION_OK && n == 76);
    memcpy(plain, frame + 18, 58);
    CHECK(geostation_seal(frame, n, SIGNED, 3, sealed, SECURED_ROOM, &m) == GEOSTATION_OK);

    CHECK(geostation_receive_verified(b, 21, sealed, m, plain, 58, &r, forwarded, SECURED_ROOM - 1)
          == GEOSTATION_NO_ROOM);
    CHECK(is_nothing());
    until_fail = 0;
    CHECK(hear(b, 21, sealed, m, plain, 58) == GEOSTATION_NO_MEMORY && is_nothing());
    until_fail = -1;
    CHECK(hear(b, 19, sealed, m, plain, 58) == GEOSTATION_MOMENT_EARLIER && is_nothing());
    CHECK(hear(b, GEOSTATION_LAST_MOMENT + 1, NULL, 0, NULL, 0) == GEOSTATION_MOMENT_TOO_LATE);
    CHECK(is_nothing());
    CHECK(hear(b, 21, sealed, m, plain, 58) == GEOSTATION_OK);
    CHECK(r.ignored == 0 && r.delivered == 1 && r.port == 2002 && r.info == 7 && r.fault == 0);
    CHECK(is_of(A_ADDRESS, GEOSTATION_GBC, 0, 2, 5));
    CHECK(r.payload_start == 56 && r.payload_length == 2 && memcmp(plain + 56, HI, 2) == 0);
    CHECK(r.relay_length == m);
    CHECK(memcmp(forwarded, "\xff\xff\xff\xff\xff\xff\x02\x00\x00\x00\x00\x02", 12) == 0);
    CHECK(memcmp(forwarded + 12, sealed + 12, 5) == 0 && forwarded[17] == 4);
    CHECK(memcmp(forwarded + 18, SIGNED, 3) == 0);

    CHECK(geostation_receive(b, 22, frame, n, &r, relay, ROOM) == GEOSTATION_OK);
    CHECK(r.ignored == GEOSTATION_DUPLICATE);
    CHECK(hear(b, 22, sealed, m, plain, 58) == GEOSTATION_OK);
    CHECK(r.ignored == GEOSTATION_DUPLICATE && is_of(A_ADDRESS, GEOSTATION_GBC, 0, 2, 5));
    CHECK(hear(a, 22, sealed, m, plain, 58) == GEOSTATION_OK && r.ignored == GEOSTATION_OWN_SOURCE);
    sealed[0] = 2;
    CHECK(hear(b, 23, sealed, m, plain, 58) == GEOSTATION_OK && r.ignored == GEOSTATION_NOT_FOR_ME);
    sealed[0] = 0xff;
    CHECK(hear(full, 23, sealed, m, plain, 58) == GEOSTATION_OK && r.relay_length == m);
    CHECK(geostation_send_shb(b, 24, &shb, HI, 2, other, ROOM, &n) == GEOSTATION_OK);
    CHECK(geostation_seal(other, n, SIGNED, 3, forwarded, SECURED_ROOM, &m) == GEOSTATION_OK);
    memcpy(both, forwarded, m);
    CHECK(hear(full, 24, both, m, other + 18, n - 18) == GEOSTATION_TABLE_FULL && is_nothing());
    both[11] = 9;
    CHECK(hear(a, 24, both, m, other + 18, n - 18) == GEOSTATION_OK);
    CHECK(r.ignored == GEOSTATION_SENDER_MISMATCH);

    /* a message that has its plain part inside: the two buffers overlap */
    CHECK(geostation_send_gbc(a, 25, &AREA, HI, 2, frame, ROOM, &n) == GEOSTATION_OK && n == 76);
    memcpy(both, SIGNED, 3), memcpy(both + 3, frame + 18, 58), both[61] = 0xee;
    CHECK(geostation_seal(frame, n, both, 62, sealed, SECURED_ROOM, &m) == GEOSTATION_OK);
    CHECK(m == 80);
    CHECK(hear(b, 25, sealed, m, sealed + 21, 58) == GEOSTATION_OK);
    CHECK(r.delivered == 1 && r.payload_start == 56 && r.relay_length == 80);
    CHECK(memcmp(forwarded + 18, both, 62) == 0);

    CHECK(geostation_seal(frame, n, SIGNED, 3, sealed, SECURED_ROOM, &m) == GEOSTATION_OK);
    struct geostation_counts before, after;
    geostation_counts(b, &before);
    test_verified_faults(b, frame + 18, 58);
    geostation_counts(b, &after);
    CHECK(after.received - before.received == after.refused.frame - before.refused.frame);
    CHECK(after.refused.frame > before.refused.frame && after.accepted == before.accepted);
    check_code("S3 L6 G10 at 8", GEOSTATION_BAD_FRAME, 6, 10, 8);
    CHECK(strcmp(geostation_fault_text(6, 10), geostation_fault_text(5, 10)) == 0);
    geostation_free(a);
    geostation_free(b);
    geostation_free(full);
}

/* Damaged secured frames and plain parts, each in a block of exactly its size. */
static void test_damaged(long damaged) {
    struct geostation *a = station(A_ADDRESS, 0, 64), *b = station(B_ADDRESS, 900, 64);
    size_t n, m;
    CHECK(geostation_send_gbc(a, 20, &AREA, HI, 2, frame, ROOM, &n) == GEOSTATION_OK && n == 76);
    CHECK(geostation_seal(frame, n, SIGNED, 3, sealed, SECURED_ROOM, &m) == GEOSTATION_OK);
    for (long i = 0; i < damaged; i++) {
        const size_t l = i % 5 ? m : (size_t)rand() % (m + 1);
        const size_t k = i % 7 ? n - 18 : (size_t)rand() % (n - 17);
        uint8_t *block = malloc(l != 0 ? l : 1), *plain = malloc(k != 0 ? k : 1);
        memcpy(block, sealed, l), memcpy(plain, frame + 18, k);
        if (l != 0 && i % 2) block[(size_t)rand() % l] = (uint8_t)rand();
        for (int j = 0; j < 3 && k != 0 && i % 3; j++) plain[(size_t)rand() % k] = (uint8_t)rand();
        const int status = hear(b, 26, block, l, plain, k);
        CHECK(status == GEOSTATION_OK || status == GEOSTATION_BAD_FRAME
              || status == GEOSTATION_TABLE_FULL);
        CHECK((r.fault != 0) == (status == GEOSTATION_BAD_FRAME) && r.fault <= 6);
        if (r.delivered) CHECK(r.payload_start + r.payload_length == k);
        if (r.relay_length != 0)
            CHECK(r.relay_length == l && memcmp(forwarded + 18, block + 18, l - 18) == 0);
        free(block), free(plain);
    }
    geostation_free(a);
    geostation_free(b);
}

/* Writes a line of JSON whose keys have digits. */
static size_t put_key(char *line, size_t at, const char *key, const uint8_t *octets, size_t n) {
    at += (size_t)sprintf(line + at, ",\"%s\":\"", key);
    for (size_t i = 0; i < n; i++) at += (size_t)sprintf(line + at, "%02x", octets[i]);
    return at + (size_t)sprintf(line + at, "\"");
}

/* The line is done once no allocation fails any more. Until then nothing is known of A. */
static int is_done_with_memory(struct geostation *s, uint64_t now, const char *line, size_t n) {
    struct geostation_vector v;
    for (long fails = 0;; fails++) {
        answered = framed = 99;
        until_fail = fails;
        const int status = geostation_handle_json(s, now, 1, (const uint8_t *)line, n, answer,
                                                  sizeof answer, &answered, forwarded,
                                                  SECURED_ROOM, &framed);
        until_fail = -1;
        if (status == GEOSTATION_OK) return fails > 4;
        CHECK(status == GEOSTATION_NO_MEMORY && answered == 0 && framed == 0);
        CHECK(geostation_look_up(s, now, A_ADDRESS, &v) == 0);
    }
}

/* Lines of JSON for a security entity need room for a secured frame, and do nothing without it. */
static void test_signed_lines(void) {
    struct geostation *a = station(A_ADDRESS, 0, 64), *b = station(B_ADDRESS, 900, 64);
    static char seal[300], receive[300];
    size_t n, m, l, k;
    CHECK(geostation_send_gbc(a, 20, &AREA, HI, 2, frame, ROOM, &n) == GEOSTATION_OK && n == 76);
    CHECK(geostation_seal(frame, n, SIGNED, 3, sealed, SECURED_ROOM, &m) == GEOSTATION_OK);
    k = (size_t)sprintf(seal, "{\"do\":\"seal\"");
    k = put_key(seal, put_key(seal, k, "frame", frame, n), "message", SIGNED, 3);
    k += (size_t)sprintf(seal + k, "}");
    l = (size_t)sprintf(receive, "{\"do\":\"receive\"");
    l = put_key(receive, put_key(receive, l, "frame", sealed, m), "plain", frame + 18, n - 18);
    l += (size_t)sprintf(receive + l, "}");
    CHECK(serve(b, 30, seal) == GEOSTATION_NO_ROOM && answered == 0 && framed == 0);
    CHECK(serve(b, 30, receive) == GEOSTATION_NO_ROOM && answered == 0 && framed == 0);
    CHECK(serve(b, 30, "{\"do\":\"seal\"}") == GEOSTATION_NO_ROOM);
    CHECK(geostation_handle_json(b, 30, 1, (const uint8_t *)receive, l, answer, sizeof answer,
                                 &answered, forwarded, SECURED_ROOM - 1, &framed)
          == GEOSTATION_NO_ROOM);
    struct geostation_counts counts;
    geostation_counts(b, &counts);
    CHECK(counts.received == 0 && geostation_next_beacon(b) == 0);

    CHECK(is_done_with_memory(b, 30, seal, k));
    static const char is_sealed[] = "{\"at\":30,\"result\":\"sealed\",\"frame\":\"";
    CHECK(framed == m && memcmp(forwarded, sealed, m) == 0);
    CHECK(memcmp(answer, is_sealed, sizeof is_sealed - 1) == 0);
    CHECK(are_digits(answer + sizeof is_sealed - 1, sealed, m));
    CHECK(is_done_with_memory(b, 31, receive, l));
    CHECK(framed == m && forwarded[11] == 2 && forwarded[17] == 4);
    CHECK(memcmp(forwarded + 18, SIGNED, 3) == 0);
    geostation_counts(b, &counts);
    CHECK(counts.received == 1 + counts.refused.no_memory);
    CHECK(counts.accepted == 1 && counts.relayed == 1);
    geostation_free(a);
    geostation_free(b);
}

/* A config without limits. */
static struct geostation_config unlimited(uint64_t address, int32_t longitude) {
    struct geostation_config c;
    geostation_config_init(&c);
    c.address = address, c.latitude = 449, c.longitude = longitude;
    c.forward_rate = c.forward_burst = c.source_rate = c.source_burst = 0;
    c.own_rate = c.own_burst = c.hop_cap = c.deliver_once = 0;
    return c;
}

static struct geostation *made(const struct geostation_config *c) {
    struct geostation *s = NULL;
    CHECK(geostation_new_from_config(&s, c) == GEOSTATION_OK && s != NULL);
    return s;
}

/* The greatest rate, burst and hop cap, and numbers above them. */
static void test_limit_ranges(void) {
    struct geostation_config c = unlimited(A_ADDRESS, 0), good = c;
    uint32_t *const numbers[] = { &c.forward_rate, &c.forward_burst, &c.source_rate,
        &c.source_burst, &c.own_rate, &c.own_burst };
    struct geostation *s;
    for (size_t i = 0; i < sizeof numbers / sizeof numbers[0]; i++) {
        c = good;
        *numbers[i] = GEOSTATION_RATE_MAX;
        geostation_free(made(&c));
        *numbers[i] = GEOSTATION_RATE_MAX + 1;
        CHECK(geostation_new_from_config(&s, &c) == GEOSTATION_BAD_ARGUMENT && s == NULL);
    }
    c = good, c.hop_cap = 255;
    geostation_free(made(&c));
    c.hop_cap = 256;
    CHECK(geostation_new_from_config(&s, &c) == GEOSTATION_BAD_ARGUMENT && s == NULL);
}

static int is_refused(const struct geostation_config *c) {
    struct geostation *s = NULL;
    int refused = geostation_new_from_config(&s, c) == GEOSTATION_BAD_ARGUMENT && s == NULL;
    geostation_free(s);
    return refused;
}

/* A limit per source needs a common limit with which no source is forgotten before its bucket is
 * full: forward_burst below 256, and source_burst * forward_rate at most
 * (256 - forward_burst) * source_rate. */
static void test_remembered_sources(void) {
    struct geostation_config c = unlimited(A_ADDRESS, 0);
    c.source_rate = 20, c.source_burst = 20;
    CHECK(is_refused(&c));
    c.forward_rate = 206, c.forward_burst = 50;
    CHECK(!is_refused(&c));
    c.forward_rate = 207;
    CHECK(is_refused(&c));
    c.forward_rate = 1, c.forward_burst = 255;
    CHECK(!is_refused(&c));
    c.forward_burst = 256;
    CHECK(is_refused(&c));
    c.source_rate = 0;
    CHECK(!is_refused(&c));
}

/* Sends a GBC of A, with so many hops, and has it received: whether it is forwarded. */
static int forwards(struct geostation *a, struct geostation *b, uint64_t now, uint8_t hops) {
    struct geostation_area_request request = AREA;
    size_t n;
    request.max_hops = hops;
    CHECK(geostation_send_gbc(a, now, &request, HI, 2, frame, ROOM, &n) == GEOSTATION_OK);
    CHECK(geostation_receive(b, now, frame, n, &r, relay, ROOM) == GEOSTATION_OK);
    CHECK(r.ignored == 0 && (r.relay_length == 0 || r.relay_length == n));
    return r.relay_length != 0;
}

/* Two own packets at once and ten per second: each takes 100 ms to come back. A packet over the
 * rate leaves the station as it was, and a beacon passes all the same. */
static void test_own_rate(void) {
    static const struct geostation_shb_request shb = { .port = 2001 };
    static const struct geostation_shb_options options = { .lifetime = 5 };
    struct geostation_config c = unlimited(A_ADDRESS, 0);
    struct geostation_counts k;
    c.own_rate = 10, c.own_burst = 2;
    struct geostation *a = made(&c);
    size_t n = 99;
    CHECK(geostation_send_shb(a, 1000, &shb, HI, 2, frame, ROOM, &n) == GEOSTATION_OK);
    CHECK(geostation_send_gbc(a, 1000, &AREA, HI, 2, frame, ROOM, &n) == GEOSTATION_OK);
    CHECK(geostation_next_number(a) == 1);
    CHECK(geostation_send_gbc(a, 1000, &AREA, HI, 2, frame, ROOM, &n) == GEOSTATION_OVER_RATE);
    CHECK(n == 0 && geostation_next_number(a) == 1);
    CHECK(geostation_send_gac(a, 1000, &AREA, HI, 2, frame, ROOM, &n) == GEOSTATION_OVER_RATE);
    CHECK(geostation_send_shb(a, 1000, &shb, HI, 2, frame, ROOM, &n) == GEOSTATION_OVER_RATE);
    CHECK(geostation_send_shb_with_lifetime(a, 1000, &shb, 5, HI, 2, frame, ROOM, &n)
          == GEOSTATION_OVER_RATE && n == 0);
    CHECK(geostation_send_shb_with(a, 1000, &shb, &options, HI, 2, frame, ROOM, &n)
          == GEOSTATION_OVER_RATE && n == 0);
    /* the beacon is due 3 s after the packet of 1000, not after those that were refused */
    CHECK(geostation_send_shb(a, 1099, &shb, HI, 2, frame, ROOM, &n) == GEOSTATION_OVER_RATE);
    CHECK(geostation_beacon_at(a, 0) == 4000);
    CHECK(geostation_send_shb(a, 1100, &shb, HI, 2, frame, ROOM, &n) == GEOSTATION_OK && n == 60);
    CHECK(geostation_send_shb(a, 1199, &shb, HI, 2, frame, ROOM, &n) == GEOSTATION_OVER_RATE);
    CHECK(geostation_send_shb(a, 1200, &shb, HI, 2, frame, ROOM, &n) == GEOSTATION_OK);
    /* other refusals come first if the time is refused, and after it otherwise */
    CHECK(geostation_send_shb(a, 1199, &shb, HI, 2, frame, ROOM, &n) == GEOSTATION_MOMENT_EARLIER);
    CHECK(geostation_send_shb(a, GEOSTATION_LAST_MOMENT + 1, &shb, HI, 2, frame, ROOM, &n)
          == GEOSTATION_MOMENT_TOO_LATE);
    CHECK(geostation_send_shb(a, 1200, &shb, payload, 1395, frame, ROOM, &n)
          == GEOSTATION_OVER_RATE);
    CHECK(geostation_send_shb(a, 1200, &shb, HI, 2, frame, ROOM - 1, &n) == GEOSTATION_NO_ROOM);
    CHECK(geostation_tick(a, 4200, 0, frame, ROOM, &n) == GEOSTATION_OK && n == 50);
    /* full again after a long time: two at once, and no third */
    CHECK(geostation_send_shb(a, 9000, &shb, payload, 1395, frame, ROOM, &n)
          == GEOSTATION_PAYLOAD_TOO_LONG);
    CHECK(geostation_send_shb(a, 9000, &shb, HI, 2, frame, ROOM, &n) == GEOSTATION_OK);
    CHECK(geostation_send_shb(a, 9000, &shb, HI, 2, frame, ROOM, &n) == GEOSTATION_OK);
    CHECK(geostation_send_shb(a, 9000, &shb, HI, 2, frame, ROOM, &n) == GEOSTATION_OVER_RATE);
    geostation_counts(a, &k);
    CHECK(k.over_rate == 9 && k.suppressed == 0 && k.repeated == 0);
    CHECK(k.sent.single_hop == 5 && k.sent.geobroadcasts == 1 && k.sent.geoanycasts == 0);
    CHECK(k.sent.beacons == 1 && k.refused.other == 1 && k.refused.moment_earlier == 1);
    geostation_free(a);
    /* a rate or a burst of 0 is no limit */
    for (int without = 0; without < 2; without++) {
        c.own_rate = without ? 0 : 1, c.own_burst = without ? 1 : 0;
        a = made(&c);
        for (int i = 0; i < 200; i++)
            CHECK(geostation_send_shb(a, 5, &shb, HI, 2, frame, ROOM, &n) == GEOSTATION_OK);
        geostation_free(a);
    }
}

/* Two frames at once and ten per second are forwarded. A frame over that is still delivered. */
static void test_forward_rate(void) {
    struct geostation_config plain = unlimited(A_ADDRESS, 0), c = unlimited(B_ADDRESS, 900);
    struct geostation_counts k;
    c.forward_rate = 10, c.forward_burst = 2;
    struct geostation *a = made(&plain), *b = made(&c);
    CHECK(geostation_open_port(b, 0, 2002) == GEOSTATION_OK);
    CHECK(forwards(a, b, 1000, 5) && forwards(a, b, 1000, 5));
    CHECK(!forwards(a, b, 1000, 5) && r.delivered == 1);
    CHECK(!forwards(a, b, 1099, 5) && forwards(a, b, 1100, 5) && !forwards(a, b, 1100, 5));
    CHECK(forwards(a, b, 9000, 5) && forwards(a, b, 9000, 5) && !forwards(a, b, 9000, 5));
    geostation_counts(b, &k);
    CHECK(k.received == 9 && k.accepted == 9 && k.delivered == 9 && k.relayed == 5);
    CHECK(k.suppressed == 4 && k.repeated == 0 && k.over_rate == 0);
    geostation_free(b);
    for (int without = 0; without < 2; without++) {
        c.forward_rate = without ? 0 : 1, c.forward_burst = without ? 1 : 0;
        b = made(&c);
        for (uint64_t i = 0; i < 200; i++) CHECK(forwards(a, b, 9000, 5));
        geostation_free(b);
    }
    geostation_free(a);
}

/* The frames of one source don't use up the rate of another. */
static void test_source_rate(void) {
    struct geostation_config plain = unlimited(A_ADDRESS, 0), other_one = unlimited(C_ADDRESS, 5);
    struct geostation_config limited = unlimited(B_ADDRESS, 900);
    limited.forward_rate = 100, limited.forward_burst = 50;
    limited.source_rate = 1, limited.source_burst = 1;
    struct geostation *a = made(&plain), *c = made(&other_one), *b = made(&limited);
    CHECK(forwards(a, b, 1000, 5) && !forwards(a, b, 1000, 5) && forwards(c, b, 1000, 5));
    CHECK(!forwards(c, b, 1999, 5) && !forwards(a, b, 1999, 5));
    CHECK(forwards(c, b, 2000, 5) && forwards(a, b, 2000, 5) && !forwards(a, b, 2000, 5));
    geostation_free(b);
    limited.source_rate = 0;
    b = made(&limited);
    for (int i = 0; i < 50; i++) CHECK(forwards(a, b, 2000, 5));
    geostation_free(a);
    geostation_free(b);
    geostation_free(c);
}

/* A packet with more hops left than the cap is not forwarded; 0 is no cap. */
static void test_hop_cap(void) {
    struct geostation_config plain = unlimited(A_ADDRESS, 0), c = unlimited(B_ADDRESS, 900);
    struct geostation_counts k;
    c.hop_cap = 4;
    struct geostation *a = made(&plain), *b = made(&c);
    CHECK(geostation_open_port(b, 0, 2002) == GEOSTATION_OK);
    CHECK(forwards(a, b, 10, 4) && !forwards(a, b, 10, 5) && r.delivered == 1);
    CHECK(!forwards(a, b, 10, 255) && forwards(a, b, 10, 2));
    geostation_counts(b, &k);
    CHECK(k.suppressed == 2 && k.relayed == 2);
    geostation_free(b);
    c.hop_cap = 0;
    b = made(&c);
    CHECK(forwards(a, b, 10, 255));
    geostation_free(a);
    geostation_free(b);
}

/* The station remembers one sequence number, so that an older packet is new to it. The limit on
 * deliveries knows it within its lifetime of 60 s (0x1a). */
static void test_echo(void) {
    struct geostation_config plain = unlimited(A_ADDRESS, 0), c = unlimited(B_ADDRESS, 900);
    struct geostation_counts k;
    for (uint32_t once = 0; once < 2; once++) {
        uint8_t echo[ROOM];
        c.deliver_once = once, c.remember = 1;
        struct geostation *a = made(&plain), *b = made(&c);
        CHECK(geostation_open_port(b, 0, 2002) == GEOSTATION_OK);
        CHECK(forwards(a, b, 1000, 5) && r.delivered == 1);
        const size_t n = r.payload_start + r.payload_length;
        memcpy(echo, frame, n);
        CHECK(forwards(a, b, 1001, 5) && r.delivered == 1);
        CHECK(geostation_receive(b, 1002, echo, n, &r, relay, ROOM) == GEOSTATION_OK);
        CHECK(r.ignored == (once ? GEOSTATION_REPEATED : 0u) && r.delivered == !once);
        CHECK((r.relay_length == 0) == (once != 0));
        CHECK(forwards(a, b, 60999, 5));
        CHECK(geostation_receive(b, 60999, echo, n, &r, relay, ROOM) == GEOSTATION_OK);
        CHECK(r.ignored == (once ? GEOSTATION_REPEATED : 0u) && r.delivered == !once);
        CHECK(forwards(a, b, 61000, 5));
        CHECK(geostation_receive(b, 61000, echo, n, &r, relay, ROOM) == GEOSTATION_OK);
        CHECK(r.ignored == 0 && r.delivered == 1 && r.relay_length == n);
        geostation_counts(b, &k);
        CHECK(k.repeated == (once ? 2u : 0u) && k.suppressed == k.repeated);
        geostation_free(a);
        geostation_free(b);
    }
}

/* A source that restarts begins at number 0 again. Its time stamps are new, so its packet is not a
 * copy of the one that was delivered before. A station that was never moved has the time stamp 0 in
 * all its packets. */
static void test_restarted_source(void) {
    struct geostation_config plain = unlimited(A_ADDRESS, 0), c = unlimited(B_ADDRESS, 900);
    for (int moves = 0; moves < 2; moves++) {
        c.deliver_once = 1;
        struct geostation *a = made(&plain), *b = made(&c);
        CHECK(geostation_open_port(b, 0, 2002) == GEOSTATION_OK);
        if (moves) CHECK(geostation_move(a, 1000, 449, 0, 1, 0, 0) == GEOSTATION_OK);
        CHECK(forwards(a, b, 1000, 5) && r.delivered == 1 && r.number == 0);
        geostation_free(a);
        a = made(&plain);
        if (moves) {
            CHECK(geostation_move(a, 31000, 449, 0, 1, 0, 0) == GEOSTATION_OK);
            CHECK(forwards(a, b, 31000, 5) && r.delivered == 1 && r.number == 0);
        } else {
            const struct geostation_area_request request = AREA;
            size_t n;
            CHECK(geostation_send_gbc(a, 31000, &request, HI, 2, frame, ROOM, &n) == GEOSTATION_OK);
            CHECK(geostation_receive(b, 31000, frame, n, &r, relay, ROOM) == GEOSTATION_OK);
            CHECK(r.ignored == GEOSTATION_REPEATED && r.delivered == 0 && r.relay_length == 0);
        }
        geostation_free(a);
        geostation_free(b);
    }
}

/* A station that does not contend holds nothing. contention.c has the tests of those that do. */
static void test_nothing_is_held(void) {
    struct geostation *a = station(A_ADDRESS, 0, 64), *b = station(B_ADDRESS, 900, 64);
    struct geostation_counts counts;
    size_t length = 1;
    CHECK(geostation_send_gbc(a, 10, &AREA, HI, 2, frame, ROOM, &length) == GEOSTATION_OK);
    CHECK(geostation_receive(b, 10, frame, length, &r, relay, ROOM) == GEOSTATION_OK);
    CHECK(r.relay_length == length && r.held == 0 && r.due == 0);
    CHECK(geostation_next_due(b) == UINT64_MAX);
    CHECK(geostation_release(b, 10, other, ROOM, &length) == GEOSTATION_OK && length == 0);
    CHECK(geostation_release(b, 10, other, ROOM - 1, &length) == GEOSTATION_NO_ROOM);
    CHECK(geostation_release(b, 9, other, ROOM, &length) == GEOSTATION_MOMENT_EARLIER);
    CHECK(geostation_release(b, GEOSTATION_LAST_MOMENT + 1, other, ROOM, &length)
          == GEOSTATION_MOMENT_TOO_LATE);
    geostation_counts(b, &counts);
    CHECK(counts.contention.held == 0 && counts.contention.full == 0 && counts.relayed == 1);
    CHECK(counts.refused.moment_earlier == 1 && counts.refused.moment_too_late == 1);
    geostation_free(a);
    geostation_free(b);
}

int main(int argc, char **argv) {
    test_limit_ranges();
    test_own_rate();
    test_forward_rate();
    test_source_rate();
    test_remembered_sources();
    test_hop_cap();
    test_echo();
    test_restarted_source();
    test_nothing_is_held();
    test_new();
    test_config();
    test_padding();
    test_counts();
    test_lines();
    test_media_of_lines();
    test_rights();
    test_line_results();
    test_limited_lines();
    test_large_lines();
    test_sealing();
    test_verified();
    test_damaged(argc > 1 ? atol(argv[1]) / 10 : 100);
    test_signed_lines();
    test_calls();
    test_beacons();
    test_beacon_moments();
    test_beside();
    test_media();
    test_codes();
    test_look_ups();
    test_frames();
    test_receiving(argc > 1 ? atol(argv[1]) : 1000);
    for (int status = 0; status <= 22; status++)
        if (status <= 11 || status >= 20)
            CHECK(strcmp(geostation_status_text(status), "unknown status") != 0);
    CHECK(strcmp(geostation_fault_text(5, 9), "more hops left than the maximum") == 0);
    printf("%ld checks\n", checks);
    return 0;
}
