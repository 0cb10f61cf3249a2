/* Tests of contention from C: a table of cases, worked out by hand. Station 0 has the address
 * 1400020000000001 and is at (0, 0). The station under test has 1400020000000002. F is the frame of
 * a GBC of station 0, with 10 hops left. A copy of it has the link sender 02000000000m. */
#include "geostation.h"
#include <stdio.h>
#include <stdlib.h>
#include <string.h>

#define ROOM GEOSTATION_SECURED_FRAME_MAX
#define CHECK(e) do { checks++; if (!(e)) { \
    fprintf(stderr, "%s:%d: %s\n", __FILE__, __LINE__, #e); exit(1); } } while (0)

enum { PLAIN = 18, AT_300_M = 26950, AT_1000_M = 89832 };
enum { TARGET_END = 5, SENDER_END = 11, LIFETIME_AT = 16, HOPS_AT = 17, BODY_AT = 26 };

static const uint64_t FIRST = UINT64_C(0x1400020000000001);
static const uint8_t HI[] = { 'h', 'i' }, MESSAGE[] = { 3, 0x81, 0x40 };
static long checks;
static uint8_t relay[ROOM], out[ROOM];
static size_t length;
static struct geostation_reception r;

/* Parameters of the station under test: no limits, waits of 1 to 100 ms, a range of 1000 m. */
static struct geostation_config contending(int32_t latitude, uint32_t copies) {
    struct geostation_config c;
    geostation_config_init(&c);
    c.address = FIRST + 1;
    c.latitude = latitude;
    c.remember = 64;
    c.forward_rate = c.source_rate = c.own_rate = c.hop_cap = c.deliver_once = 0;
    c.area_forwarding = GEOSTATION_CONTENTION;
    c.contention_copies = copies;
    return c;
}

static geostation_handle *made(struct geostation_config c) {
    geostation_handle *s;
    CHECK(geostation_new_from_config(&s, &c) == GEOSTATION_OK);
    CHECK(geostation_open_port(s, 0, 2002) == GEOSTATION_OK);
    CHECK(geostation_next_due(s) == UINT64_MAX);
    return s;
}

static geostation_handle *station(int32_t latitude, uint32_t copies) {
    return made(contending(latitude, copies));
}

struct frame {
    size_t length;
    uint8_t octets[ROOM];
};

/* The frame of a packet of station 0, or of another one, sent at 1000. */
static struct frame sent(int anycast, uint16_t number, uint8_t hops, int accurate) {
    const struct geostation_area_request area = {
        .port = 2002, .lifetime = 0x1a, .max_hops = hops, .shape = GEOSTATION_CIRCLE, .a = 1000,
    };
    struct geostation_config c;
    struct frame f;
    geostation_handle *s;
    geostation_config_init(&c);
    c.address = FIRST;
    c.number = number;
    CHECK(geostation_new_from_config(&s, &c) == GEOSTATION_OK);
    if (accurate) {
        CHECK(geostation_move(s, 500, 0, 0, 1, 0, 0) == GEOSTATION_OK);
    }
    CHECK((anycast ? geostation_send_gac : geostation_send_gbc)(s, 1000, &area, HI, 2, f.octets,
                                                                ROOM, &f.length) == GEOSTATION_OK);
    geostation_free(s);
    return f;
}

static struct frame gbc(uint16_t number) { return sent(0, number, 10, 1); }

static struct frame copy(struct frame f, uint8_t mac, uint8_t hops) {
    f.octets[SENDER_END] = mac;
    f.octets[HOPS_AT] = hops;
    return f;
}

static struct frame with(struct frame f, size_t at, uint8_t octet) {
    f.octets[at] = octet;
    return f;
}

static int is(struct frame f) { return length == f.length && !memcmp(out, f.octets, length); }

static int receive(geostation_handle *s, uint64_t at, struct frame f) {
    return geostation_receive(s, at, f.octets, f.length, &r, relay, ROOM);
}

/* It is accepted, and its frame waits until this time. */
static int waits(geostation_handle *s, uint64_t at, struct frame f, uint64_t due) {
    return receive(s, at, f) == GEOSTATION_OK && r.ignored == 0 && r.held == 1 && r.due == due
        && r.relay_length == 0 && r.cancelled == 0;
}

static int is_duplicate(geostation_handle *s, uint64_t at, struct frame f, uint32_t cancelled) {
    return receive(s, at, f) == GEOSTATION_OK && r.ignored == GEOSTATION_DUPLICATE && r.held == 0
        && r.due == 0 && r.cancelled == cancelled;
}

static int releases(geostation_handle *s, uint64_t at, struct frame f) {
    return geostation_release(s, at, out, ROOM, &length) == GEOSTATION_OK && is(f);
}

static int is_quiet(geostation_handle *s, uint64_t at) {
    return geostation_release(s, at, out, ROOM, &length) == GEOSTATION_OK && length == 0;
}

static struct geostation_counts counts(const geostation_handle *s) {
    struct geostation_counts c;
    geostation_counts(s, &c);
    return c;
}

static void test_waits(void) {
    static const struct { int32_t latitude; uint64_t wait; } rows[] = {
        { 0, 100 }, { 908, 100 }, { 909, 99 }, { AT_300_M, 71 }, { 89831, 2 }, { AT_1000_M, 1 },
    };
    for (size_t k = 0; k < sizeof rows / sizeof *rows; k++) {
        geostation_handle *s = station(rows[k].latitude, 1);
        CHECK(waits(s, 1001, gbc(0), 1001 + rows[k].wait));
        geostation_free(s);
    }
    struct geostation_config c = contending(AT_1000_M, 1);
    c.contention_min = 0;
    geostation_handle *s = made(c);
    CHECK(waits(s, 1001, gbc(0), 1001) && releases(s, 1001, copy(gbc(0), 2, 9)));
    geostation_free(s);
    c.contention_min = c.contention_max = 5;
    c.contention_range = 1;
    s = made(c);
    CHECK(waits(s, 1001, gbc(0), 1006));
    geostation_free(s);
}

static void test_unknown_senders(void) {
    geostation_handle *s = station(AT_300_M, 1);
    CHECK(waits(s, 1001, sent(0, 0, 10, 0), 1097) && waits(s, 1001, sent(0, 1, 10, 0), 1096));
    geostation_free(s);
    s = station(AT_300_M, 1);
    CHECK(waits(s, 1001, copy(gbc(0), 3, 9), 1097));
    geostation_free(s);
}

static void test_release(void) {
    geostation_handle *s = station(AT_300_M, 1);
    const struct frame f = gbc(0), relayed = copy(f, 2, 9);
    CHECK(waits(s, 1001, f, 1072) && r.delivered == 1 && r.source == FIRST && r.hops_left == 10);
    CHECK(geostation_next_due(s) == 1072 && is_quiet(s, 1071) && releases(s, 1072, relayed));
    CHECK(is_quiet(s, 1072) && geostation_next_due(s) == UINT64_MAX);
    const struct geostation_counts c = counts(s);
    CHECK(c.relayed == 1 && c.contention.held == 1 && c.contention.released == 1);
    CHECK(c.contention.cancelled == 0 && c.contention.dropped == 0 && c.contention.full == 0);
    geostation_free(s);
}

static void test_refusals(void) {
    geostation_handle *s = station(AT_300_M, 1);
    const struct frame f = gbc(0);
    CHECK(waits(s, 1001, f, 1072));
    length = 1;
    CHECK(geostation_release(s, 1072, out, GEOSTATION_FRAME_MAX - 1, &length)
          == GEOSTATION_NO_ROOM && length == 0);
    CHECK(geostation_release(s, 1000, out, ROOM, &length) == GEOSTATION_MOMENT_EARLIER);
    CHECK(geostation_release(s, GEOSTATION_LAST_MOMENT + 1, out, ROOM, &length)
          == GEOSTATION_MOMENT_TOO_LATE && length == 0);
    CHECK(counts(s).refused.moment_earlier == 1 && counts(s).refused.moment_too_late == 1);
    CHECK(geostation_next_due(s) == 1072);
    CHECK(geostation_release(s, 1072, out, GEOSTATION_FRAME_MAX, &length) == GEOSTATION_OK);
    CHECK(is(copy(f, 2, 9)) && is_duplicate(s, 1050, copy(f, 3, 9), 0)); /* the clock was 1001 */
    geostation_free(s);
}

static void test_copies(void) {
    const struct frame f = gbc(0), other = copy(f, 3, 9);
    geostation_handle *s = station(AT_300_M, 1);
    CHECK(waits(s, 1001, f, 1072) && is_duplicate(s, 1010, other, 1) && is_quiet(s, 1072));
    CHECK(counts(s).contention.cancelled == 1);
    geostation_free(s);

    s = station(AT_300_M, 1);
    CHECK(waits(s, 1001, f, 1072) && is_duplicate(s, 1010, f, 0));
    CHECK(is_duplicate(s, 1010, copy(f, 3, 10), 0) && is_duplicate(s, 1010, copy(f, 3, 8), 0));
    struct frame to_one = with(with(with(other, 0, 2), 1, 0), 2, 0);
    to_one = with(with(with(to_one, 3, 0), 4, 0), TARGET_END, 2);
    CHECK(is_duplicate(s, 1010, to_one, 0) && is_duplicate(s, 1010, copy(f, 2, 9), 0));
    CHECK(receive(s, 1010, with(to_one, TARGET_END, 4)) == GEOSTATION_OK
          && r.ignored == GEOSTATION_NOT_FOR_ME && r.cancelled == 0);
    CHECK(is_duplicate(s, 1010, with(other, other.length - 1, 'p'), 0));
    CHECK(receive(s, 1000, other) == GEOSTATION_MOMENT_EARLIER && r.cancelled == 0);
    struct frame longer = other;
    longer.octets[longer.length++] = 1;
    CHECK(receive(s, 1010, longer) == GEOSTATION_BAD_FRAME && r.fault == 4);
    CHECK(releases(s, 1072, copy(f, 2, 9)));
    geostation_free(s);

    s = station(AT_300_M, 1);
    CHECK(waits(s, 1001, f, 1072) && is_duplicate(s, 1010, with(other, LIFETIME_AT, 5), 1));
    geostation_free(s);

    s = station(AT_300_M, 2);
    CHECK(waits(s, 1001, f, 1072) && is_duplicate(s, 1010, other, 0));
    CHECK(is_duplicate(s, 1011, other, 0) && is_duplicate(s, 1012, copy(f, 4, 9), 1));
    geostation_free(s);
}

static void test_what_is_held(void) {
    geostation_handle *s = station(AT_300_M, 1);
    CHECK(receive(s, 1001, sent(0, 0, 1, 1)) == GEOSTATION_OK && r.delivered && r.held == 0);
    CHECK(r.relay_length == 0 && waits(s, 1001, sent(0, 1, 2, 1), 1072));
    CHECK(releases(s, 1072, copy(sent(0, 1, 2, 1), 2, 1)));
    CHECK(receive(s, 1072, sent(1, 2, 10, 1)) == GEOSTATION_OK && r.delivered && r.held == 0);
    CHECK(r.relay_length == 0);
    geostation_free(s);
    s = station(100000, 1); /* outside */
    for (int anycast = 0; anycast < 2; anycast++) {
        const struct frame f = sent(anycast, (uint16_t)anycast, 10, 0), relayed = copy(f, 2, 9);
        CHECK(receive(s, 1001, f) == GEOSTATION_OK && r.held == 0 && r.relay_length == f.length);
        CHECK(memcmp(relay, relayed.octets, f.length) == 0);
    }
    CHECK(counts(s).contention.held == 0 && counts(s).relayed == 2);
    geostation_free(s);
}

static void test_what_happens_meanwhile(void) {
    const struct frame f = gbc(0), relayed = copy(f, 2, 9);
    geostation_handle *s = station(AT_300_M, 1);
    CHECK(waits(s, 1001, f, 1072));
    CHECK(geostation_move(s, 1010, 200000, 0, 1, 0, 0) == GEOSTATION_OK);
    CHECK(releases(s, 1072, relayed));
    geostation_free(s);

    s = station(AT_300_M, 1);
    CHECK(geostation_close_port(s, 0, 2002) == GEOSTATION_OK && waits(s, 1001, f, 1072));
    CHECK(r.delivered == 0 && geostation_open_port(s, 1002, 2002) == GEOSTATION_OK);
    CHECK(releases(s, 1072, relayed) && counts(s).delivered == 0);
    geostation_free(s);

    s = station(AT_300_M, 1);
    CHECK(waits(s, 1001, f, 1072) && geostation_restart(s, 1010, 0) == GEOSTATION_OK);
    CHECK(is_quiet(s, 1072) && counts(s).contention.dropped == 1 && waits(s, 1080, f, 1151));
    geostation_free(s);

    s = station(AT_300_M, 1);
    CHECK(waits(s, 1001, f, 1072));
    const struct geostation_area_request area = {
        .port = 2002, .lifetime = 0x1a, .max_hops = 10, .shape = GEOSTATION_CIRCLE, .a = 1000,
    };
    struct frame own;
    CHECK(geostation_send_gbc(s, 1010, &area, HI, 2, own.octets, ROOM, &own.length)
          == GEOSTATION_OK);
    CHECK(receive(s, 1011, copy(own, 3, 9)) == GEOSTATION_OK && r.cancelled == 0);
    CHECK(r.ignored == GEOSTATION_OWN_SOURCE && releases(s, 1072, relayed));
    geostation_free(s);
}

static void test_places(void) {
    geostation_handle *s = station(AT_300_M, 1);
    for (uint16_t number = 0; number < 64; number++) {
        CHECK(waits(s, 1001, gbc(number), 1072));
    }
    CHECK(receive(s, 1001, gbc(64)) == GEOSTATION_OK && r.held == 0 && r.due == 0);
    CHECK(r.relay_length == gbc(64).length && counts(s).contention.full == 1);
    CHECK(is_duplicate(s, 1002, copy(gbc(5), 3, 9), 1) && waits(s, 1002, gbc(65), 1073));
    geostation_free(s);
}

static void test_order(void) {
    geostation_handle *s = station(AT_300_M, 1);
    CHECK(waits(s, 1001, copy(gbc(0), 3, 9), 1097) && waits(s, 1001, gbc(1), 1072));
    CHECK(waits(s, 1001, gbc(2), 1072) && releases(s, 1101, copy(gbc(1), 2, 9)));
    CHECK(releases(s, 1101, copy(gbc(2), 2, 9)) && releases(s, 1101, copy(gbc(0), 2, 8)));
    geostation_free(s);
    s = station(AT_300_M, 1);
    CHECK(waits(s, 1001, gbc(0), 1072) && releases(s, 2072, copy(gbc(0), 2, 9)));
    CHECK(waits(s, 1001, gbc(1), 1072) && is_quiet(s, 2073));
    CHECK(counts(s).contention.dropped == 1 && geostation_next_due(s) == UINT64_MAX);
    geostation_free(s);
}

static void test_forgotten_packets(void) {
    struct geostation_config c = contending(AT_300_M, 1);
    c.remember = 1;
    geostation_handle *s = made(c);
    CHECK(waits(s, 1001, gbc(0), 1072) && waits(s, 1002, gbc(1), 1073));
    CHECK(waits(s, 1003, gbc(0), 1074) && is_duplicate(s, 1010, copy(gbc(0), 3, 9), 1));
    CHECK(counts(s).contention.cancelled == 2 && geostation_next_due(s) == 1073);
    geostation_free(s);
}

/* The beacon of a station with the MAC 02:00:00:00:00:03, 400 m away. */
static struct frame beacon(void) {
    geostation_handle *s;
    struct frame f;
    CHECK(geostation_new(&s, FIRST + 2, 35933, 0, 64, 8) == GEOSTATION_OK);
    CHECK(geostation_move(s, 1000, 35933, 0, 1, 0, 0) == GEOSTATION_OK);
    CHECK(geostation_tick(s, 1000, 0, f.octets, ROOM, &f.length) == GEOSTATION_OK && f.length);
    geostation_free(s);
    return f;
}

static void test_link_senders(void) {
    static const uint64_t times[][2] = { { 1001, 1092 }, { 20999, 21090 }, { 21000, 21096 } };
    for (size_t k = 0; k < 3; k++) {
        geostation_handle *s = station(AT_300_M, 1);
        CHECK(receive(s, 1000, beacon()) == GEOSTATION_OK);
        CHECK(waits(s, times[k][0], copy(gbc(0), 3, 9), times[k][1]));
        geostation_free(s);
    }
}

static void test_limits(void) {
    struct geostation_config c = contending(AT_300_M, 1);
    c.hop_cap = 9;
    geostation_handle *s = made(c);
    CHECK(receive(s, 1001, gbc(0)) == GEOSTATION_OK && r.held == 0 && r.relay_length == 0);
    CHECK(counts(s).suppressed == 1 && counts(s).contention.held == 0);
    geostation_free(s);

    c.hop_cap = 0;
    c.forward_rate = c.forward_burst = 1;
    s = made(c);
    CHECK(waits(s, 1001, gbc(0), 1072) && waits(s, 1001, gbc(1), 1072));
    CHECK(releases(s, 1072, copy(gbc(0), 2, 9)) && is_quiet(s, 1072));
    CHECK(counts(s).suppressed == 1 && counts(s).contention.dropped == 1);
    geostation_free(s);

    c.forward_rate = 1000;
    s = made(c);
    CHECK(waits(s, 1001, gbc(0), 1072) && waits(s, 1001, copy(gbc(1), 3, 9), 1096));
    CHECK(releases(s, 1072, copy(gbc(0), 2, 9)) && releases(s, 1096, copy(gbc(1), 2, 8)));
    geostation_free(s);
    c.area_forwarding = GEOSTATION_SIMPLE;
    s = made(c);
    CHECK(receive(s, 1001, gbc(0)) == GEOSTATION_OK && r.relay_length != 0 && r.held == 0);
    CHECK(receive(s, 1001, copy(gbc(1), 3, 9)) == GEOSTATION_OK && r.relay_length == 0);
    CHECK(counts(s).suppressed == 1);
    geostation_free(s);
}

static void test_usual_limits(void) {
    struct geostation_config c, usual;
    geostation_config_init(&usual);
    CHECK(usual.area_forwarding == 0 && usual.contention_max == 100 && usual.contention_min == 1);
    CHECK(usual.contention_range == 1000 && usual.contention_copies == 2);
    c = usual;
    c.address = FIRST + 1;
    c.latitude = AT_300_M;
    c.area_forwarding = GEOSTATION_CONTENTION;
    geostation_handle *s = made(c);
    CHECK(waits(s, 1001, gbc(0), 1072) && releases(s, 1072, copy(gbc(0), 2, 9)));
    geostation_free(s);
    c.remember = 1;
    c.contention_copies = 1;
    s = made(c);
    CHECK(waits(s, 1001, gbc(0), 1072) && waits(s, 1002, gbc(1), 1073));
    CHECK(receive(s, 1003, gbc(0)) == GEOSTATION_OK && r.held == 0 && r.delivered == 0);
    CHECK(counts(s).suppressed == 1 && counts(s).repeated == 1);
    geostation_free(s);
}

static void test_config(void) {
    static const struct { uint32_t forwarding, max, min, range, copies; int status; } rows[] = {
        { 0, 100, 1, 1000, 2, GEOSTATION_OK }, { 1, 1, 1, 1, 1, GEOSTATION_OK },
        { 1, 1000, 0, 65535, 3, GEOSTATION_OK }, { 1, 1000, 1000, 1, 3, GEOSTATION_OK },
        { 2, 100, 1, 1000, 2, GEOSTATION_BAD_ARGUMENT }, { 1, 0, 0, 1, 1, GEOSTATION_BAD_ARGUMENT },
        { 1, 1001, 1, 1, 1, GEOSTATION_BAD_ARGUMENT }, { 0, 1, 2, 1, 1, GEOSTATION_BAD_ARGUMENT },
        { 0, 100, 1, 0, 1, GEOSTATION_BAD_ARGUMENT }, { 1, 9, 1, 65536, 1, GEOSTATION_BAD_ARGUMENT },
        { 0, 100, 1, 1, 0, GEOSTATION_BAD_ARGUMENT }, { 1, 100, 1, 1, 4, GEOSTATION_BAD_ARGUMENT },
    };
    for (size_t k = 0; k < sizeof rows / sizeof *rows; k++) {
        struct geostation_config c = contending(0, rows[k].copies);
        geostation_handle *s;
        c.area_forwarding = rows[k].forwarding;
        c.contention_max = rows[k].max;
        c.contention_min = rows[k].min;
        c.contention_range = rows[k].range;
        CHECK(geostation_new_from_config(&s, &c) == rows[k].status);
        CHECK((s != NULL) == (rows[k].status == GEOSTATION_OK));
        geostation_free(s);
    }
}

static struct frame sealed(struct frame f, const uint8_t *message, size_t n) {
    struct frame s;
    CHECK(geostation_seal(f.octets, f.length, message, n, s.octets, ROOM, &s.length)
          == GEOSTATION_OK);
    return s;
}

static int verify(geostation_handle *s, uint64_t at, struct frame f, struct frame plain) {
    return geostation_receive_verified(s, at, f.octets, f.length, plain.octets + PLAIN,
                                       plain.length - PLAIN, &r, relay, ROOM);
}

static void test_secured(void) {
    static const uint8_t another[] = { 3, 0x81, 0x41 };
    static uint8_t long_message[2000];
    const struct frame f = gbc(0), c = copy(f, 3, 9);
    geostation_handle *s = station(AT_300_M, 1);
    CHECK(verify(s, 1001, sealed(f, MESSAGE, 3), f) == GEOSTATION_OK && r.held && r.due == 1072);
    CHECK(is_duplicate(s, 1002, c, 0));
    CHECK(verify(s, 1003, sealed(c, another, 3), c) == GEOSTATION_OK && r.cancelled == 0);
    struct frame other = with(c, c.length - 1, 'p'); /* octets decide */
    CHECK(verify(s, 1004, sealed(c, MESSAGE, 3), other) == GEOSTATION_OK && r.cancelled == 1);
    CHECK(r.ignored == GEOSTATION_DUPLICATE && is_quiet(s, 1072));
    geostation_free(s);
    s = station(AT_300_M, 1);
    CHECK(verify(s, 1001, sealed(f, MESSAGE, 3), f) == GEOSTATION_OK);
    CHECK(releases(s, 1072, copy(sealed(f, MESSAGE, 3), 2, 9)));
    geostation_free(s);
    s = station(AT_300_M, 1);
    memset(long_message, 7, sizeof long_message);
    CHECK(verify(s, 1001, sealed(f, long_message, sizeof long_message), f) == GEOSTATION_OK);
    CHECK(geostation_release(s, 1001, out, GEOSTATION_FRAME_MAX, &length) == GEOSTATION_NO_ROOM);
    CHECK(releases(s, 1072, copy(sealed(f, long_message, sizeof long_message), 2, 9)));
    geostation_free(s);
}

int main(void) {
    test_config();
    test_waits();
    test_unknown_senders();
    test_release();
    test_refusals();
    test_copies();
    test_what_is_held();
    test_what_happens_meanwhile();
    test_places();
    test_order();
    test_forgotten_packets();
    test_link_senders();
    test_limits();
    test_usual_limits();
    test_secured();
    printf("%ld checks of contention", checks);
    return 0;
}
