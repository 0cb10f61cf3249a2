/* A road-side unit over UDP on the loopback interface: one datagram is one Ethernet frame. It sends
 * beacons and one warning, forwards packets, and prints the payloads that are delivered. It ends
 * after the given number of seconds (default 10).
 *
 *     example PORT PEER_PORT NUMBER [SECONDS]
 *
 * Start two of them: `example 7001 7002 1 5 & example 7002 7001 2 5`. */
#define _POSIX_C_SOURCE 200809L
#include "geostation.h"
#include <arpa/inet.h>
#include <netinet/in.h>
#include <poll.h>
#include <stdio.h>
#include <stdlib.h>
#include <string.h>
#include <sys/socket.h>
#include <time.h>
#include <unistd.h>

static uint8_t frame[GEOSTATION_FRAME_MAX];

/* 2004-01-01T00:00:00Z in UTC milliseconds since 1970. TAI was 32 s ahead of UTC then. Since 2017
 * it is 37 s ahead: 5 s more. */
#define EPOCH_MS INT64_C(1072915200000)
#define LEAP_MS INT64_C(5000)

static int64_t ms_of(clockid_t clock) {
    struct timespec t;
    clock_gettime(clock, &t);
    return (int64_t)t.tv_sec * 1000 + t.tv_nsec / 1000000;
}

/* The time for all calls: milliseconds of TAI since 2004-01-01, which become the time stamps on the
 * air. The time of day is read once, in the first call. From then on the time that has passed is
 * added. So the result never goes back, even if the time of day is set. */
static uint64_t now_ms(void) {
    static int64_t at_zero; /* the time at which CLOCK_MONOTONIC was 0 */
    if (at_zero == 0) {
        at_zero = ms_of(CLOCK_REALTIME) - EPOCH_MS + LEAP_MS - ms_of(CLOCK_MONOTONIC);
    }
    return (uint64_t)(at_zero + ms_of(CLOCK_MONOTONIC));
}

static struct sockaddr_in loopback(const char *port) {
    struct sockaddr_in at;
    memset(&at, 0, sizeof at);
    at.sin_family = AF_INET;
    at.sin_addr.s_addr = htonl(INADDR_LOOPBACK);
    at.sin_port = htons((uint16_t)atoi(port));
    return at;
}

static void put_on_air(int link, const struct sockaddr_in *peer, const uint8_t *octets, size_t n) {
    if (n != 0) {
        (void)sendto(link, octets, n, 0, (const struct sockaddr *)peer, sizeof *peer);
    }
}

/* A random number that differs from one start to the next. A unit in the field should use a random
 * source of its system. */
static uint32_t drawn(void) {
    static uint64_t state;
    if (state == 0) {
        struct timespec t;
        clock_gettime(CLOCK_REALTIME, &t);
        state = (uint64_t)t.tv_sec * 1000000000 + (uint64_t)t.tv_nsec + (uint64_t)getpid();
    }
    state = state * UINT64_C(6364136223846793005) + UINT64_C(1442695040888963407);
    return (uint32_t)(state >> 33);
}

/* All stations that received a broadcast frame would forward it at the same time, and their frames
 * would collide. So each waits for a random time first. A unit with much traffic keeps such frames
 * in a queue, as c/link/forwards.c does, and sends its own frames at once. */
static void wait_to_forward(void) {
    const struct timespec spread = { .tv_sec = 0, .tv_nsec = (long)(drawn() % 2000) * 1000 };
    nanosleep(&spread, NULL);
}

/* The jitter of a beacon: a new one for each beacon. */
static uint16_t drawn_jitter(void) {
    return (uint16_t)(drawn() % (GEOSTATION_JITTER_MAX + 1));
}

static int fail(const char *what, int status) {
    fprintf(stderr, "%s: %s\n", what, geostation_status_text(status));
    return 1;
}

/* Receives one datagram, passes it to the station, and acts on the result. Frames with Ethernet
 * padding are received too. */
static void hear(struct geostation *s, int link, const struct sockaddr_in *peer) {
    uint8_t got[GEOSTATION_FRAME_MAX + 1];
    struct geostation_reception r;
    ssize_t n = recv(link, got, sizeof got, 0);
    if (n < 0) {
        return;
    }
    int status = geostation_receive(s, now_ms(), got, (size_t)n, &r, frame, sizeof frame);
    if (status == GEOSTATION_BAD_FRAME) {
        printf("bad frame: %s\n", geostation_fault_text(r.fault, r.fault_kind));
    } else if (status != GEOSTATION_OK) {
        printf("refused: %s\n", geostation_status_text(status));
    } else if (r.delivered) {
        printf("port %u: %.*s\n", r.port, (int)r.payload_length, (char *)got + r.payload_start);
    }
    if (r.relay_length != 0) {
        wait_to_forward();
        put_on_air(link, peer, frame, r.relay_length);
    }
}

/* Sleeps until a time, the end, or the next frame, which is received. */
static void hear_until(struct geostation *s, int link, const struct sockaddr_in *peer,
                       uint64_t moment, uint64_t end) {
    uint64_t next = moment < end ? moment : end, now = now_ms();
    struct pollfd ready = { .fd = link, .events = POLLIN, .revents = 0 };
    if (poll(&ready, 1, next > now ? (int)(next - now) : 0) > 0) {
        hear(s, link, peer);
    }
}

int main(int argc, char **argv) {
    if (argc < 4) {
        fprintf(stderr, "usage: example PORT PEER_PORT NUMBER [SECONDS]\n");
        return 2;
    }
    struct sockaddr_in here = loopback(argv[1]), peer = loopback(argv[2]);
    int link = socket(AF_INET, SOCK_DGRAM, 0);
    if (link < 0 || bind(link, (struct sockaddr *)&here, sizeof here) != 0) {
        perror("link");
        return 1;
    }

    /* A road-side unit (station type 15) that does not move. The low 48 bits of its address are the
     * source address of each frame: on a network interface, take the MAC of the interface. Other
     * stations may remember its old sequence numbers after a restart: the first one is random. */
    struct geostation *s = NULL;
    struct geostation_config config;
    geostation_config_init(&config);
    config.address = UINT64_C(0x3c00020000000000) | (uint64_t)(atoi(argv[3]) & 0xff);
    config.latitude = 514776500;
    config.longitude = -10000;
    config.mobile = 0;
    config.number = (uint16_t)drawn();
    int status = geostation_new_from_config(&s, &config);
    if (status != GEOSTATION_OK) {
        return fail("new", status);
    }
    uint64_t now = now_ms(), end = now + 1000 * (uint64_t)(argc > 4 ? atoi(argv[4]) : 10);
    /* lifetime: 10 times 1 s */
    const struct geostation_area_request area = {
        .port = 2002, .lifetime = 10 << 2 | 1, .max_hops = 3, .shape = GEOSTATION_CIRCLE,
        .latitude = 514776500, .longitude = -10000, .a = 500,
    };
    const char *warning = "road works";
    status = geostation_open_port(s, now, 2002);
    if (status != GEOSTATION_OK) {
        return fail("open_port", status);
    }
    uint64_t warn_at = now + 500;
    uint16_t jitter = drawn_jitter();
    uint64_t beacon_at = geostation_beacon_at(s, jitter);
    size_t n;
    while ((now = now_ms()) < end) {
        if (now < warn_at && now < beacon_at) {
            hear_until(s, link, &peer, warn_at < beacon_at ? warn_at : beacon_at, end);
            continue;
        }
        /* Set the position before each packet of its own: the packet has its time stamp. */
        status = geostation_move(s, now, 514776500, -10000, 1, 0, 0);
        if (status != GEOSTATION_OK) {
            return fail("move", status);
        }
        if (now >= warn_at) {
            status = geostation_send_gbc(s, now, &area, (const uint8_t *)warning, strlen(warning),
                                         frame, sizeof frame, &n);
            if (status != GEOSTATION_OK) {
                return fail("send_gbc", status);
            }
            put_on_air(link, &peer, frame, n);
            warn_at = end;
        }
        status = geostation_tick(s, now, jitter, frame, sizeof frame, &n);
        if (status != GEOSTATION_OK) {
            return fail("tick", status);
        }
        put_on_air(link, &peer, frame, n);
        if (n != 0) {
            jitter = drawn_jitter();
        }
        /* Only here, after the unit may have sent a packet: not after received frames. */
        beacon_at = geostation_beacon_at(s, jitter);
    }
    geostation_free(s);
    close(link);
    return 0;
}
