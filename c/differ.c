/* Makes the same random calls on each machine: differ CALLS [SEED] prints a checksum of all results
 * after each 1000 calls. It judges no result. Compare the output of two machines.
 *
 * Some calls leave other bits above each small argument, as the calling convention of ARM allows.
 * With `clean` as third argument they don't. The checksums have to be the same. */
#define _GNU_SOURCE
#include "geostation.h"
#include <inttypes.h>
#include <stdarg.h>
#include <stdbool.h>
#include <stdio.h>
#include <stdlib.h>
#include <string.h>

/* These declarations give the calls arguments of 64 bits. */
extern int wide_new(geostation_handle **, uint64_t, uint64_t, uint64_t, uint64_t,
                    uint64_t) __asm__("geostation_new");
extern int wide_move(geostation_handle *, uint64_t, uint64_t, uint64_t, uint64_t, uint64_t,
                     uint64_t) __asm__("geostation_move");
extern int wide_open(geostation_handle *, uint64_t, uint64_t) __asm__("geostation_open_port");
extern int wide_close(geostation_handle *, uint64_t, uint64_t) __asm__("geostation_close_port");
extern int wide_restart(geostation_handle *, uint64_t, uint64_t) __asm__("geostation_restart");
extern int wide_tick(geostation_handle *, uint64_t, uint64_t, uint8_t *, size_t,
                     size_t *) __asm__("geostation_tick");
extern uint64_t wide_beacon_at(const geostation_handle *,
                               uint64_t) __asm__("geostation_beacon_at");

enum { STATIONS = 5, POOL = 256, LINE = 8192 };
static const uint64_t FIRST_ADDRESS = UINT64_C(0x1400020000000001);

static uint64_t drawing = 1, dirt = 7, now = 1;
static uint64_t checksum = UINT64_C(0xcbf29ce484222325);
static bool clean;

static geostation_handle *stations[STATIONS];
/* Frames that stations sent, to be received later, whole or damaged. */
static uint8_t pool[POOL][GEOSTATION_FRAME_MAX];
static size_t lengths[POOL], pooled;
static uint8_t frame[GEOSTATION_FRAME_MAX + 64], out[GEOSTATION_FRAME_MAX], payload[1400];
static uint8_t line[LINE], answer[GEOSTATION_ANSWER_MAX];
static uint64_t accepted, delivered, answers, statuses[32];

static uint64_t drawn64(void) {
    drawing ^= drawing << 13;
    drawing ^= drawing >> 7;
    drawing ^= drawing << 17;
    return drawing * UINT64_C(2685821657736338717);
}

/* Each random number is drawn in its own statement: C does not fix the order in which arguments
 * are evaluated. */
static uint32_t drawn(uint32_t below) {
    return (uint32_t)((drawn64() >> 32) * below >> 32);
}

/* A value of a given number of bits, with other bits above it. */
static uint64_t dirty(uint64_t value, int bits) {
    const uint64_t low = value & ((UINT64_C(1) << bits) - 1);
    dirt = dirt * UINT64_C(6364136223846793005) + 1;
    return clean ? low : low | (dirt ^ dirt >> 29) << bits;
}

static void add_octets(const void *octets, size_t count) {
    const uint8_t *octet = octets;
    for (size_t i = 0; i < count; i++) {
        checksum = (checksum ^ octet[i]) * UINT64_C(0x100000001b3);
    }
}

static void add(uint64_t value) {
    for (int i = 0; i < 8; i++) {
        const uint8_t octet = (uint8_t)(value >> 8 * i);
        add_octets(&octet, 1);
    }
}

static void add_signed(int64_t value) {
    add((uint64_t)value);
}

static void add_status(int status) {
    add_signed(status);
    statuses[status & 31]++;
}

static void add_vector(const struct geostation_vector *v) {
    add(v->address);
    add(v->timestamp);
    add_signed(v->latitude);
    add_signed(v->longitude);
    add_signed(v->speed);
    add(v->heading);
    add(v->accurate);
}

/* Adds a frame that was sent, and keeps it to be received. */
static void add_sent(int status, size_t length) {
    add_status(status);
    add(length);
    add_octets(out, length);
    if (length != 0) {
        const size_t at = pooled < POOL ? pooled++ : drawn(POOL);
        memcpy(pool[at], out, length);
        lengths[at] = length;
    }
}

/* Writes a frame to receive: one that was sent, often damaged, or random octets. */
static size_t write_frame(void) {
    size_t length = 0;
    if (pooled == 0 || drawn(20) == 0) {
        length = drawn(100);
        for (size_t i = 0; i < length; i++) {
            frame[i] = (uint8_t)drawn(256);
        }
        return length;
    }
    const size_t at = drawn((uint32_t)pooled);
    length = lengths[at];
    memcpy(frame, pool[at], length);
    if (drawn(3) == 0) {
        for (uint32_t flips = 1 + drawn(3); flips > 0; flips--) {
            const size_t octet = drawn((uint32_t)length);
            frame[octet] ^= (uint8_t)(1u << drawn(8));
        }
    }
    if (drawn(8) == 0) {
        length = drawn((uint32_t)length + 1);
    }
    if (drawn(8) == 0) {
        const size_t more = drawn(40);
        memset(frame + length, drawn(4) == 0, more);
        length += more;
    }
    return length;
}

/* Writes a number in one of the forms that JSON has, most often as a whole number. */
static const char *write_number(char text[96], int64_t value) {
    const uint64_t a = drawn64(), b = drawn64(), c = drawn64();
    switch (drawn(12)) {
    case 0: sprintf(text, "%" PRId64 ".0", value); break;
    case 1: sprintf(text, "%" PRId64 "e%u", value, drawn(400)); break;
    case 2: sprintf(text, "-%" PRId64, value); break;
    case 3: sprintf(text, "%" PRIu64, a); break;
    case 4: sprintf(text, "%" PRIu64 "%" PRIu64 "%" PRIu64, a, b, c); break;
    case 5: sprintf(text, "0.%" PRIu64 "e-%u", a, drawn(400)); break;
    default: sprintf(text, "%" PRId64, value);
    }
    return text;
}

static void write_hex(char *text, const uint8_t *octets, size_t count) {
    const char *digits = drawn(2) != 0 ? "0123456789abcdef" : "0123456789ABCDEF";
    for (size_t i = 0; i < count; i++) {
        *text++ = digits[octets[i] >> 4];
        *text++ = digits[octets[i] & 15];
    }
    *text = 0;
}

static size_t print_line(const char *format, ...) __attribute__((format(printf, 1, 2)));
static size_t print_line(const char *format, ...) {
    va_list list;
    va_start(list, format);
    const int length = vsnprintf((char *)line, LINE, format, list);
    va_end(list);
    return length < 0 || length >= LINE ? LINE - 1 : (size_t)length;
}

static const char *drawn_id(void) {
    static const char *const ids[] = {
        "", "\"id\":7,", "\"id\":\"a\\u00e9\\n\\ud83d\\ude80\xc3\xa9\",",
        "\"id\":-9007199254740993,", "\"id\":1.5,", "\"id\":\"\xff\",",
        "\"id\":\"\xe2\x82\xac and a longer text of over thirty-two octets, \\\\ \\/ \\b\",",
    };
    return ids[drawn(7)];
}

static const char *drawn_media(void) {
    static const char *const media[] = {
        "", "", "\"media\":\"4d00A0ff\",", "\"media\":\"00000000\",", "\"media\":\"4d00a0f\",",
    };
    return media[drawn(5)];
}

static size_t write_area_line(const char *id) {
    static const char *const shapes[] = { "circle", "rectangle", "ellipse", "elipse" };
    static const uint32_t below[10] = { 4, 70000, 256, 256, 256, 2000, 4000, 1000, 1000, 360 };
    static char hex[2 * 60 + 1];
    char n[10][96];
    for (int i = 0; i < 10; i++) {
        const int64_t value = (int64_t)drawn(below[i]);
        write_number(n[i], i == 0 ? 2000 + value : i == 5 || i == 6 ? value - 1000 : value);
    }
    write_hex(hex, payload, drawn(60));
    const char *kind = drawn(2) != 0 ? "gbc" : "gac";
    const char *shape = shapes[drawn(4)];
    return print_line("{%s\"do\":\"%s\",\"port\":%s,\"info\":%s,\"tc\":%s,\"lt\":%s,\"hops\":%s,"
                      "\"shape\":\"%s\",\"alat\":%s,\"alon\":%s,\"a\":%s,\"b\":%s,\"angle\":%s,"
                      "\"payload\":\"%s\"}",
                      id, kind, n[0], n[1], n[2], n[3], n[4], shape, n[5], n[6], n[7],
                      n[8], n[9], hex);
}

/* Writes a JSON request for a call, often with a wrong value. */
static size_t write_good_line(void) {
    static char hex[2 * sizeof frame + 1];
    const char *id = drawn_id();
    char a[96], b[96], c[96];
    write_number(a, (int64_t)drawn(2000) - 1000);
    write_number(b, (int64_t)drawn(4000) - 2000);
    write_number(c, drawn(800));
    const uint32_t port = 2000 + drawn(4), one_of_six = drawn(6);
    const bool coin = drawn(2) != 0;
    const uint64_t after = one_of_six < 3 ? drawn64() : 0, who = FIRST_ADDRESS + drawn(STATIONS);
    switch (drawn(9)) {
    case 0:
        return print_line("{%s\"do\":\"move\",\"lat\":%s,\"lon\":%s,\"pai\":%s,\"speed\":%s,"
                          "\"heading\":%s}",
                          id, a, b, coin ? "true" : "false", b, c);
    case 1:
        return print_line("{%s\"do\":\"%s\",\"port\":%u}", id, one_of_six != 0 ? "open" : "close",
                          port);
    case 2: return print_line("{%s\"do\":\"tick\",\"jitter\":%s}", id, c);
    case 3:
        write_hex(hex, payload, drawn(60));
        return print_line("{%s\"do\":\"shb\",\"port\":%u,\"info\":%s,\"tc\":3,%s"
                          "\"payload\":\"%s\"}",
                          id, port, c, drawn_media(), hex);
    case 4: return write_area_line(id);
    case 5:
        write_hex(hex, frame, write_frame());
        return print_line("{%s \"frame\" :\t\"%s\", \"do\":\"receive\"}", id, hex);
    case 6:
        write_hex(hex, frame, write_frame());
        return print_line("{%s\"do\":\"read_frame\",\"frame\":\"%s\"}", id, hex);
    case 7:
        return print_line("{%s\"do\":\"%s\",\"after\":\"%016" PRIx64 "\",\"address\":\"%016" PRIx64
                          "\"}",
                          id, coin ? "neighbours" : "look_up", after, who);
    default:
        return print_line("{%s\"do\":\"%s\",\"x\":[[],{\"a\":[null,%s]}],\"jitter\":%s}", id,
                          coin ? "counts" : "next_beacon", a, c);
    }
}

/* Writes a JSON request, sometimes damaged or cut short. */
static size_t write_line(void) {
    size_t length = write_good_line();
    if (drawn(6) == 0) {
        const size_t at = drawn((uint32_t)length);
        line[at] = (uint8_t)drawn(256);
    }
    return drawn(30) == 0 ? drawn((uint32_t)length) : length;
}

/* Makes a station again that contends. */
static void renew_contending(size_t i) {
    struct geostation_config c;
    geostation_config_init(&c);
    c.address = FIRST_ADDRESS + i;
    c.latitude = 449;
    c.longitude = (int32_t)(900 * i);
    c.area_forwarding = GEOSTATION_CONTENTION;
    c.contention_max = 1 + drawn(1000);
    c.contention_min = drawn(c.contention_max + 1);
    c.contention_range = 1 + drawn(65535);
    c.contention_copies = 1 + drawn(3);
    add_status(geostation_new_from_config(&stations[i], &c));
}

/* Makes a station again, with another capacity and another length of its duplicate lists. Each
 * second one contends. */
static void renew(size_t i) {
    geostation_free(stations[i]);
    stations[i] = NULL;
    if (i % 2 == 1) {
        renew_contending(i);
        return;
    }
    const uint64_t latitude = dirty(449, 32), longitude = dirty(900 * i, 32);
    const uint64_t capacity = dirty(1 + drawn(64), 16);
    const uint64_t remember = dirty(1 + drawn(16), 8);
    add_status(wide_new(&stations[i], FIRST_ADDRESS + i, latitude, longitude, capacity, remember));
    add_status(geostation_open_port(stations[i], now, 2002));
}

static void move(geostation_handle *s, uint64_t at) {
    const uint64_t latitude = dirty(drawn(2000), 32);
    const uint64_t longitude = dirty(drawn(4000) - 2000, 32);
    const uint64_t accurate = dirty(drawn(2), 8);
    const uint64_t speed = dirty(drawn(40000) - 20000, 16);
    const uint64_t heading = dirty(drawn(65536), 16);
    add_status(wide_move(s, at, latitude, longitude, accurate, speed, heading));
}

static void use_port(geostation_handle *s, uint64_t at) {
    const uint64_t port = dirty(2000 + drawn(4), 16);
    add_status(drawn(3) != 0 ? wide_open(s, at, port) : wide_close(s, at, port));
}

static void send(geostation_handle *s, uint64_t at) {
    struct geostation_area_request area;
    memset(&area, 0, sizeof area);
    area.port = (uint16_t)(2000 + drawn(4));
    area.info = (uint16_t)drawn(65536);
    area.traffic_class = (uint8_t)drawn(256);
    area.lifetime = (uint8_t)drawn(256);
    area.max_hops = (uint8_t)drawn(12);
    area.shape = (uint8_t)drawn(4);
    area.latitude = (int32_t)drawn(2000) - 1000;
    area.longitude = (int32_t)drawn(6000) - 1000;
    area.a = (uint16_t)drawn(600);
    area.b = (uint16_t)drawn(600);
    area.angle = (uint16_t)drawn(400);
    const struct geostation_shb_request shb = { area.port, area.info, area.traffic_class };
    const struct geostation_shb_options options = {
        area.lifetime, { (uint8_t)area.a, (uint8_t)area.b, area.max_hops, (uint8_t)area.angle },
    };
    const size_t length = drawn(10) == 0 ? drawn(1400) : drawn(60);
    size_t sent = 0;
    int status = 0;
    switch (drawn(5)) {
    case 0: {
        const uint64_t jitter = dirty(drawn(760), 16);
        status = wide_tick(s, at, jitter, out, sizeof out, &sent);
        break;
    }
    case 1:
        status = geostation_send_shb(s, at, &shb, payload, length, out, sizeof out, &sent);
        break;
    case 2:
        status = geostation_send_gbc(s, at, &area, payload, length, out, sizeof out, &sent);
        break;
    case 3:
        status = geostation_send_shb_with(s, at, &shb, &options, payload, length, out, sizeof out,
                                          &sent);
        break;
    default:
        status = geostation_send_gac(s, at, &area, payload, length, out, sizeof out, &sent);
    }
    add_sent(status, sent);
}

static void receive(geostation_handle *s, uint64_t at) {
    struct geostation_reception r;
    const size_t length = write_frame();
    const int status = geostation_receive(s, at, frame, length, &r, out, sizeof out);
    const uint64_t fields[] = {
        r.ignored, r.delivered, r.port, r.info, r.payload_start, r.payload_length, r.fault,
        r.fault_kind, r.fault_at, r.source, r.kind, r.number, r.traffic_class, r.hops_left,
        r.due, r.held, r.cancelled,
    };
    add_octets(fields, sizeof fields);
    add_octets(r.media, sizeof r.media);
    add_sent(status, r.relay_length);
    accepted += status == GEOSTATION_OK;
    delivered += r.delivered;
}

static void release(geostation_handle *s, uint64_t at) {
    size_t length = 0;
    const int status = geostation_release(s, at, out, sizeof out, &length);
    add_sent(status, length);
    add(geostation_next_due(s));
}

static void serve(geostation_handle *s, uint64_t at) {
    const size_t length = write_line();
    size_t said = 0, sent = 0;
    const uint64_t number = drawn(100);
    const int status = geostation_handle_json(s, at, number, line, length, answer, sizeof answer,
                                        &said, out, sizeof out, &sent);
    add(said);
    add_octets(answer, said);
    add_sent(status, sent);
    answers += said != 0;
}

static void read_frame(void) {
    struct geostation_packet p;
    const size_t length = write_frame();
    add_status(geostation_read_frame(frame, length, &p));
    add(geostation_frame_length(frame, length));
    add_octets(p.target, sizeof p.target);
    add_octets(p.source, sizeof p.source);
    add_octets(p.media, sizeof p.media);
    add_vector(&p.vector);
    add_signed(p.area.latitude);
    add_signed(p.area.longitude);
    const uint64_t fields[] = {
        p.kind, p.hops_left, p.max_hops, p.lifetime, p.traffic_class, p.mobile, p.number, p.area.a,
        p.area.b, p.area.angle, p.area.shape, p.message.payload_start, p.message.payload_length,
        p.message.port, p.message.info, p.fault, p.fault_kind, p.fault_at,
    };
    add_octets(fields, sizeof fields);
}

static void look_up(const geostation_handle *s, uint64_t at) {
    struct geostation_vector v;
    for (uint64_t after = 0; geostation_neighbour(s, at, after, &v); after = v.address) {
        add_vector(&v);
    }
    const uint64_t who = FIRST_ADDRESS + drawn(STATIONS);
    add_signed(geostation_look_up(s, at, who, &v));
    add_vector(&v);
    add(wide_beacon_at(s, dirty(drawn(800), 16)));
    add(geostation_next_beacon(s));
    add(geostation_next_number(s));
    struct geostation_counts counts;
    geostation_counts(s, &counts);
    add_octets(&counts, sizeof counts);
}

/* The time of a call: most often that of the clock, sometimes an earlier or a random one. */
static uint64_t drawn_time(void) {
    if (drawn(2) == 0) {
        now += drawn(40) == 0 ? drawn(30000) : drawn(300);
    }
    if (drawn(60) == 0) {
        return now - (now > 5 ? drawn(5) : 0);
    }
    return drawn(5000) == 0 ? drawn64() : now;
}

static void call(void) {
    const size_t i = drawn(STATIONS);
    const uint64_t at = drawn_time();
    geostation_handle *s = stations[i];
    switch (drawn(16)) {
    case 0: move(s, at); break;
    case 1: use_port(s, at); break;
    case 2: case 3: case 4: case 5: send(s, at); break;
    case 6: case 7: case 8: case 9: receive(s, at); break;
    case 10: case 11: case 12: serve(s, at); break;
    case 13: read_frame(); break;
    case 14: look_up(s, at); release(s, at); break;
    default:
        if (drawn(40) == 0) {
            add_status(wide_restart(s, at, dirty(drawn(65536), 16)));
        }
        if (drawn(400) == 0) {
            renew(i);
        }
    }
}

int main(int argc, char **argv) {
    const unsigned long calls = argc > 1 ? strtoul(argv[1], NULL, 10) : 100000;
    drawing = argc > 2 ? strtoull(argv[2], NULL, 10) : 1;
    clean = argc > 3;
    for (size_t i = 0; i < sizeof payload; i++) {
        payload[i] = (uint8_t)drawn(256);
    }
    for (size_t i = 0; i < STATIONS; i++) {
        renew(i);
    }
    for (unsigned long k = 1; k <= calls; k++) {
        call();
        if (k % 1000 == 0) {
            printf("%lu %016" PRIx64 "\n", k, checksum);
        }
    }
    printf("accepted %" PRIu64 " delivered %" PRIu64 " answers %" PRIu64 " statuses", accepted,
           delivered, answers);
    for (int i = 0; i < 32; i++) {
        printf(" %" PRIu64, statuses[i]);
    }
    printf("\n");
    for (size_t i = 0; i < STATIONS; i++) {
        geostation_free(stations[i]);
    }
    return 0;
}
