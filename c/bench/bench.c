/* Compares calls from C with the same calls in Rust: the loops of loops.rt.txt and the same loops
 * over geostation.h, alternately. Prints the least processor time per call, in nanoseconds, and the
 * ratio. A beacon is due in one of a thousand calls of `tick`. Rows of verified packets
 * compare secured frames, with their plain part as an argument, with the same packets unsecured. */
#define _POSIX_C_SOURCE 200809L
#include "geostation.h"
#include <inttypes.h>
#include <stdbool.h>
#include <stdio.h>
#include <stdlib.h>
#include <string.h>
#include <time.h>

#define ADDRESS UINT64_C(0x1400020000000001)
#define OTHER UINT64_C(0x1400020000000002)
#define THIRD UINT64_C(0x1400020000000003)
#define MANY 1000
#define TURNS 40
/* How many frames a station may hold. */
#define PLACES 64
/* What a message has before and behind its plain part, with a digest as signer. */
#define BEFORE 12
#define BEHIND 96
#define PLAIN_AT 18

struct noted {
    uint32_t ignored, delivered;
    uint16_t port, info;
    size_t payload_start, payload_length, relay_length;
    uint32_t fault;
    size_t fault_at;
};

struct asked {
    uint16_t port, info;
    uint8_t traffic_class, lifetime, max_hops;
    int32_t latitude, longitude;
    uint16_t radius;
};

uint64_t bench_receive(uint64_t address, const uint8_t *frames, size_t length, size_t stride,
                       uint32_t rounds, struct noted *noted, uint8_t *relay, size_t room);
uint64_t bench_send(uint64_t address, uint8_t kind, const struct asked *asked, size_t many,
                    const uint8_t *payload, size_t length, uint32_t rounds, uint8_t *frame,
                    size_t room);

uint64_t bench_contend(uint64_t address, const uint8_t *frames, size_t length, size_t stride,
                       bool releases, uint32_t rounds, struct noted *noted, uint8_t *relay,
                       size_t room);
uint64_t bench_next_due(uint64_t address, const uint8_t *frames, size_t length, size_t stride,
                        uint32_t times, struct noted *noted, uint8_t *relay, size_t room);

static uint8_t frames[MANY * 100], relay[GEOSTATION_FRAME_MAX], payload[20];
static size_t frames_length, stride;
static uint8_t secured_frames[MANY * 210], secured_relay[GEOSTATION_SECURED_FRAME_MAX];
static size_t secured_stride;

/* The same requests for the loops in C and in Rust, each for a circle around another position. */
static struct geostation_shb_request shbs[MANY];
static struct geostation_area_request areas[MANY];
static struct asked asked[MANY];

static void make_requests(void) {
    for (uint16_t k = 0; k < MANY; k++) {
        struct asked r = {
            .port = 2002, .info = k, .traffic_class = 2, .lifetime = 0x1a, .max_hops = 5,
            .latitude = 449 + k, .longitude = k, .radius = (uint16_t)(200 + k),
        };
        asked[k] = r;
        shbs[k] = (struct geostation_shb_request){
            .port = r.port, .info = r.info, .traffic_class = r.traffic_class,
        };
        areas[k] = (struct geostation_area_request){
            .port = r.port, .info = r.info, .traffic_class = r.traffic_class,
            .lifetime = r.lifetime, .max_hops = r.max_hops, .shape = GEOSTATION_CIRCLE,
            .latitude = r.latitude, .longitude = r.longitude, .a = r.radius,
        };
    }
}

static struct geostation *station_that(uint32_t forwards, uint64_t address, int32_t longitude) {
    struct geostation *s;
    /* without limits, as the loops that it is compared with */
    struct geostation_config config;
    geostation_config_init(&config);
    config.address = address;
    config.latitude = 449;
    config.longitude = longitude;
    config.forward_rate = config.source_rate = config.own_rate = 0;
    config.hop_cap = config.deliver_once = 0;
    config.area_forwarding = forwards;
    config.contention_copies = 1;
    if (geostation_new_from_config(&s, &config) != GEOSTATION_OK
        || geostation_open_port(s, 0, 2002) != GEOSTATION_OK) {
        exit(1);
    }
    return s;
}

static struct geostation *station(uint64_t address, int32_t longitude) {
    return station_that(GEOSTATION_SIMPLE, address, longitude);
}

static uint64_t receive_from_c(uint32_t rounds) {
    struct geostation *s = station(OTHER, 900);
    struct geostation_reception r;
    uint64_t sum = 0;
    for (uint32_t k = 0; k < rounds; k++) {
        for (size_t at = 0; at < frames_length; at += stride) {
            if (geostation_receive(s, 5, frames + at, stride, &r, relay, sizeof relay)
                == GEOSTATION_OK) {
                sum += r.payload_length + r.relay_length;
            }
        }
    }
    geostation_free(s);
    return sum;
}

static uint64_t receive_in_rust(uint32_t rounds) {
    struct noted noted;
    return bench_receive(OTHER, frames, frames_length, stride, rounds, &noted, relay,
                         sizeof relay);
}

static bool releases;

static uint64_t contend_from_c(uint32_t rounds) {
    struct geostation *s = station_that(GEOSTATION_CONTENTION, OTHER, 900);
    struct geostation_reception r;
    uint64_t sum = 0;
    size_t n;
    for (uint32_t k = 0; k < rounds; k++) {
        for (size_t at = 0; at < frames_length; at += stride) {
            if (geostation_receive(s, 5, frames + at, stride, &r, relay, sizeof relay)
                == GEOSTATION_OK) {
                sum += r.payload_length + r.due + r.cancelled;
            }
            if (releases
                && geostation_release(s, r.due, relay, sizeof relay, &n) == GEOSTATION_OK) {
                sum += n;
            }
        }
    }
    geostation_free(s);
    return sum;
}

static uint64_t contend_in_rust(uint32_t rounds) {
    struct noted noted;
    return bench_contend(OTHER, frames, frames_length, stride, releases, rounds, &noted, relay,
                         sizeof relay);
}

static uint64_t next_due_from_c(uint32_t rounds) {
    struct geostation *s = station_that(GEOSTATION_CONTENTION, OTHER, 900);
    struct geostation_reception r;
    uint64_t sum = 0;
    for (size_t k = 0; k < PLACES; k++) {
        if (geostation_receive(s, 5, frames + k * stride, stride, &r, relay, sizeof relay)
            != GEOSTATION_OK) {
            exit(1);
        }
    }
    for (uint32_t k = 0; k < rounds * MANY; k++) {
        sum += geostation_next_due(s);
    }
    geostation_free(s);
    return sum;
}

static uint64_t next_due_in_rust(uint32_t rounds) {
    struct noted noted;
    return bench_next_due(OTHER, frames, PLACES * stride, stride, rounds * MANY, &noted, relay,
                          sizeof relay);
}

static uint64_t receive_verified(uint32_t rounds) {
    struct geostation *s = station(OTHER, 900);
    struct geostation_reception r;
    const size_t plain_length = stride - PLAIN_AT, before = secured_stride - stride;
    uint64_t sum = 0;
    for (uint32_t k = 0; k < rounds; k++) {
        for (size_t i = 0; i < MANY; i++) {
            if (geostation_receive_verified(s, 5, secured_frames + i * secured_stride,
                                            secured_stride, frames + i * stride + PLAIN_AT,
                                            plain_length, &r, secured_relay, sizeof secured_relay)
                == GEOSTATION_OK) {
                sum += r.payload_length + r.relay_length - (r.relay_length == 0 ? 0 : before);
            }
        }
    }
    geostation_free(s);
    return sum;
}

static int send_once(struct geostation *s, int kind, uint32_t round, size_t k, size_t *n) {
    switch (kind) {
    case GEOSTATION_BEACON:
        return geostation_tick(s, 3000 * (uint64_t)round, 0, relay, sizeof relay, n);
    case GEOSTATION_SHB:
        return geostation_send_shb(s, 5, &shbs[k], payload, sizeof payload, relay, sizeof relay, n);
    case GEOSTATION_GBC:
        return geostation_send_gbc(s, 5, &areas[k], payload, sizeof payload, relay, sizeof relay,
                                   n);
    default:
        return geostation_send_gac(s, 5, &areas[k], payload, sizeof payload, relay, sizeof relay,
                                   n);
    }
}

static int sent_kind;

static uint64_t send_from_c(uint32_t rounds) {
    struct geostation *s = station(OTHER, 900);
    const int kind = sent_kind;
    uint64_t sum = 0;
    size_t n;
    for (uint32_t round = 0; round < rounds; round++) {
        for (size_t k = 0; k < MANY; k++) {
            if (send_once(s, kind, round, k, &n) == GEOSTATION_OK) {
                sum += n;
            }
        }
    }
    geostation_free(s);
    return sum;
}

static uint64_t send_in_rust(uint32_t rounds) {
    return bench_send(OTHER, (uint8_t)sent_kind, asked, MANY, payload, sizeof payload, rounds,
                      relay, sizeof relay);
}

static double processor_ns(void) {
    struct timespec t;
    clock_gettime(CLOCK_PROCESS_CPUTIME_ID, &t);
    return (double)t.tv_sec * 1e9 + (double)t.tv_nsec;
}

static double once(uint64_t (*loop)(uint32_t), uint32_t rounds, uint64_t *sum) {
    double from = processor_ns();
    *sum = loop(rounds);
    return (processor_ns() - from) / rounds / MANY;
}

static void compare(const char *what, uint64_t (*c)(uint32_t), uint64_t (*rust)(uint32_t),
                    const char *first, const char *second) {
    double least_c = 1e9, least_rust = 1e9;
    uint64_t sum_c, sum_rust;
    for (int turn = 0; turn < TURNS; turn++) {
        double took_c = once(c, 20, &sum_c), took_rust = once(rust, 20, &sum_rust);
        least_c = took_c < least_c ? took_c : least_c;
        least_rust = took_rust < least_rust ? took_rust : least_rust;
        if (sum_c != sum_rust) {
            fprintf(stderr, "%s: %" PRIu64 " %s, %" PRIu64 " %s\n", what, sum_c, first, sum_rust,
                    second);
            exit(1);
        }
    }
    printf("%-34s %6.1f ns %s %6.1f ns %s  %.2f\n", what, least_c, first, least_rust, second,
           least_c / least_rust);
}

static void row(const char *what, uint64_t (*c)(uint32_t), uint64_t (*rust)(uint32_t)) {
    compare(what, c, rust, "from C", "in Rust");
}

/* Writes a number of frames of this kind, one after the other. */
static void fill(int kind) {
    struct geostation *s = station(ADDRESS, 0);
    size_t n = 0;
    if (geostation_move(s, 0, 449, 0, 1, 0, 0) != GEOSTATION_OK) {
        exit(1);
    }
    for (uint32_t k = 0; k < MANY; k++) {
        if (send_once(s, kind, k, 0, &n) != GEOSTATION_OK || n != stride) {
            exit(1);
        }
        memcpy(frames + k * stride, relay, n);
    }
    frames_length = MANY * stride;
    geostation_free(s);
}

/* Puts the frame in which another station forwards it in the place of every second frame. */
static void fill_in_copies(void) {
    struct geostation *s = station(THIRD, 500);
    struct geostation_reception r;
    for (size_t at = 0; at + stride < frames_length; at += 2 * stride) {
        if (geostation_receive(s, 5, frames + at, stride, &r, relay, sizeof relay) != GEOSTATION_OK
            || r.relay_length != stride) {
            exit(1);
        }
        memcpy(frames + at + stride, relay, stride);
    }
    geostation_free(s);
}

/* Seals each frame into one whose message has the plain part among other octets. */
static void seal(void) {
    static uint8_t message[BEFORE + sizeof frames / MANY + BEHIND];
    size_t n = 0;
    secured_stride = stride + BEFORE + BEHIND;
    for (size_t i = 0; i < MANY; i++) {
        const uint8_t *frame = frames + i * stride;
        memcpy(message + BEFORE, frame + PLAIN_AT, stride - PLAIN_AT);
        if (geostation_seal(frame, stride, message, secured_stride - PLAIN_AT, secured_relay,
                            sizeof secured_relay, &n) != GEOSTATION_OK || n != secured_stride) {
            exit(1);
        }
        memcpy(secured_frames + i * secured_stride, secured_relay, n);
    }
}

static void row_of_verified(const char *what) {
    seal();
    compare(what, receive_verified, receive_from_c, "verified", "unsecured");
}

/* Rows of a station that contends, with GBCs of many numbers. */
static void rows_of_contention(void) {
    releases = true;
    row("receive a held GBC, and release", contend_from_c, contend_in_rust);
    releases = false;
    row("next_due, 64 held", next_due_from_c, next_due_in_rust);
    fill_in_copies();
    row("receive a held GBC or its copy", contend_from_c, contend_in_rust);
}

static void row_of_sends(const char *what, int kind) {
    sent_kind = kind;
    row(what, send_from_c, send_in_rust);
}

int main(void) {
    make_requests();
    stride = 50, fill(GEOSTATION_BEACON);
    row("receive a BEACON", receive_from_c, receive_in_rust);
    row_of_verified("receive a verified BEACON");
    stride = 78, fill(GEOSTATION_SHB);
    row("receive an SHB, delivered", receive_from_c, receive_in_rust);
    row_of_verified("receive a verified SHB, delivered");
    stride = 94, fill(GEOSTATION_GBC);
    row("receive a GBC, delivered, relayed", receive_from_c, receive_in_rust);
    row_of_verified("receive a verified GBC, relayed");
    rows_of_contention();
    fill(GEOSTATION_GBC);
    for (size_t at = stride; at < frames_length; at += stride) {
        memcpy(frames + at, frames, stride);
    }
    row("receive a duplicate", receive_from_c, receive_in_rust);
    row_of_verified("receive a verified duplicate");
    memset(frames, 0, frames_length);
    row("receive junk", receive_from_c, receive_in_rust);
    row_of_sends("tick, no beacon due", GEOSTATION_BEACON);
    row_of_sends("send an SHB", GEOSTATION_SHB);
    row_of_sends("send a GBC", GEOSTATION_GBC);
    row_of_sends("send a GAC", GEOSTATION_GAC);
    return 0;
}
