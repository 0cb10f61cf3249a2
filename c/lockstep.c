/* Takes two stations through EVENTS calls: lockstep EVENTS SCENARIO CAPTURE. It writes the same
 * calls as a scenario, and the frames that the stations sent. It prints the lines that the command
 * `sim` prints for that scenario. Its own random generator chooses the calls, always the same. */
#include "geostation.h"
#include <inttypes.h>
#include <stdio.h>
#include <stdlib.h>
#include <string.h>

#define ROOM GEOSTATION_FRAME_MAX

struct frame {
    size_t length;
    uint8_t octets[ROOM];
};

static const uint64_t ADDRESS[2] = { UINT64_C(0x1400020000000001), UINT64_C(0x3c00020000000002) };
static const int32_t LONGITUDE[2] = { 0, 900 };
static const char *const SHAPE[3] = { "circle", "rectangle", "ellipse" };

static struct geostation *station[2];
static struct frame *frames;
static size_t sent;
static FILE *scenario, *capture;

static uint32_t drawn(uint32_t below) {
    static uint64_t state = 1;
    state = state * UINT64_C(6364136223846793005) + UINT64_C(1442695040888963407);
    return (uint32_t)(state >> 33) % below;
}

static void print_hex(FILE *out, const uint8_t *octets, size_t n) {
    for (size_t i = 0; i < n; i++) {
        fprintf(out, "%02x", octets[i]);
    }
}

static const char *code(int status) {
    static const char *const codes[] = {
        "", "S1", "S2", "S3", "S4", "S5", "S6", "S7", "S8 B2", "S9", "S8 B3", "S8 B4",
    };
    return status > 0 && status <= 11 ? codes[status] : "no code";
}

static void write_number(uint64_t number, int octets) {
    while (octets-- > 0) {
        fputc((int)(number >> 8 * octets & 255), capture);
    }
}

/* Sends the next frame: writes it into the capture, and keeps it for deliveries. */
static void keep(uint64_t now, size_t length) {
    struct frame *f = &frames[sent++];
    f->length = length;
    write_number(now, 8);
    write_number(length, 2);
    fwrite(f->octets, 1, length, capture);
    printf("sent %zu", sent - 1);
}

/* Prints the result of a call that may write a frame. */
static void tell_sent(int status, uint64_t now, size_t length, const char *nothing) {
    if (status != GEOSTATION_OK) {
        printf("refused %s", code(status));
    } else if (length != 0) {
        keep(now, length);
    } else {
        printf("%s", nothing);
    }
}

static void tell(int status, const char *done) {
    tell_sent(status, 0, 0, done);
}

static void move(struct geostation *s, uint64_t now) {
    int32_t latitude = (int32_t)drawn(2000) - 1000, longitude = (int32_t)drawn(4000) - 2000;
    int16_t speed = (int16_t)((int32_t)drawn(32767) - 16383);
    uint16_t heading = (uint16_t)drawn(65536);
    uint8_t accurate = (uint8_t)drawn(2);
    fprintf(scenario, "do = \"move\"\nlat = %" PRId32 "\nlon = %" PRId32 "\npai = %s\nspeed = %d\n"
            "heading = %u\n", latitude, longitude, accurate ? "true" : "false", speed, heading);
    tell(geostation_move(s, now, latitude, longitude, accurate, speed, heading), "moved");
}

static void open_or_close(struct geostation *s, uint64_t now) {
    uint16_t port = (uint16_t)(2001 + drawn(3));
    if (drawn(3) != 0) {
        fprintf(scenario, "do = \"open\"\nport = %u\n", port);
        tell(geostation_open_port(s, now, port), "opened");
    } else {
        fprintf(scenario, "do = \"close\"\nport = %u\n", port);
        tell(geostation_close_port(s, now, port), "closed");
    }
}

static void restart(struct geostation *s, uint64_t now) {
    uint16_t number = (uint16_t)drawn(65536);
    fprintf(scenario, "do = \"restart\"\nnumber = %u\n", number);
    tell(geostation_restart(s, now, number), "restarted");
}

static void tick(struct geostation *s, uint64_t now) {
    uint16_t jitter = (uint16_t)drawn(800);
    size_t length;
    fprintf(scenario, "do = \"tick\"\njitter = %u\n", jitter);
    int status = geostation_tick(s, now, jitter, frames[sent].octets, ROOM, &length);
    tell_sent(status, now, length, "quiet");
}

static void send_shb(struct geostation *s, uint64_t now, const uint8_t *payload, size_t n) {
    const struct geostation_shb_request r = {
        .port = (uint16_t)(2001 + drawn(3)), .info = (uint16_t)drawn(65536),
        .traffic_class = (uint8_t)drawn(256),
    };
    /* those of geostation_send_shb: the frame is the same */
    const struct geostation_shb_options usual = { .lifetime = 0x1a };
    uint8_t *octets = frames[sent].octets;
    size_t length;
    fprintf(scenario, "do = \"shb\"\nport = %u\ninfo = %u\ntc = %u\n", r.port, r.info,
            r.traffic_class);
    int status = r.info % 2 == 0
        ? geostation_send_shb(s, now, &r, payload, n, octets, ROOM, &length)
        : geostation_send_shb_with(s, now, &r, &usual, payload, n, octets, ROOM, &length);
    tell_sent(status, now, length, "");
}

static void send_to_area(struct geostation *s, uint64_t now, const uint8_t *payload, size_t n) {
    const uint8_t shape = (uint8_t)drawn(3), anycast = (uint8_t)drawn(2);
    const struct geostation_area_request r = {
        .port = (uint16_t)(2001 + drawn(3)), .info = (uint16_t)drawn(65536),
        .traffic_class = (uint8_t)drawn(256), .lifetime = (uint8_t)drawn(256),
        .max_hops = (uint8_t)drawn(5), .shape = shape,
        .latitude = (int32_t)drawn(4000) - 2000, .longitude = (int32_t)drawn(40000) - 20000,
        .a = (uint16_t)(1 + drawn(300)), .b = (uint16_t)(shape == 0 ? 0 : 1 + drawn(300)),
        .angle = (uint16_t)(shape == 0 ? 0 : drawn(360)),
    };
    size_t length;
    fprintf(scenario, "do = \"%s\"\nport = %u\ninfo = %u\ntc = %u\nlt = %u\nhops = %u\n"
            "shape = \"%s\"\nalat = %" PRId32 "\nalon = %" PRId32 "\na = %u\nb = %u\nangle = %u\n",
            anycast ? "gac" : "gbc", r.port, r.info, r.traffic_class, r.lifetime, r.max_hops,
            SHAPE[shape], r.latitude, r.longitude, r.a, r.b, r.angle);
    int status = (anycast ? geostation_send_gac : geostation_send_gbc)(
        s, now, &r, payload, n, frames[sent].octets, ROOM, &length);
    tell_sent(status, now, length, "");
}

/* A request with a payload: one in fifty is too long. */
static void request(struct geostation *s, uint64_t now) {
    static uint8_t payload[GEOSTATION_PAYLOAD_MAX + 1];
    size_t n = drawn(50) == 0 ? sizeof payload - drawn(2) : drawn(40);
    for (size_t i = 0; i < n; i++) {
        payload[i] = (uint8_t)drawn(256);
    }
    if (drawn(3) == 0) {
        send_shb(s, now, payload, n);
    } else {
        send_to_area(s, now, payload, n);
    }
    fputs("payload = \"", scenario);
    print_hex(scenario, payload, n);
    fputs("\"\n", scenario);
}

static void tell_ignored(uint32_t why) {
    static const char *const words[] = {
        "not-for-me", "own-source", "sender-mismatch", "duplicate", "repeated",
    };
    printf("ignored %s", words[why - 1]);
}

/* Delivers one of the last frames to a station, at times to the one that sent it. */
static void deliver(struct geostation *s, uint64_t now) {
    size_t number = sent - 1 - drawn(sent < 6 ? (uint32_t)sent : 6);
    const struct frame *f = &frames[number];
    struct geostation_reception r;
    fprintf(scenario, "do = \"deliver\"\nframe = %zu\n", number);
    int status = geostation_receive(s, now, f->octets, f->length, &r, frames[sent].octets, ROOM);
    if (status != GEOSTATION_OK) {
        printf("refused %s", code(status));
    } else if (r.ignored != 0) {
        tell_ignored(r.ignored);
    } else {
        printf("accepted");
        if (r.delivered) {
            printf(" port %u info %u ", r.port, r.info);
            print_hex(stdout, f->octets + r.payload_start, r.payload_length);
            if (r.payload_length == 0) putchar('-');
        }
        if (r.relay_length != 0) {
            putchar(' ');
            keep(now, r.relay_length);
        }
    }
}

static void event(uint32_t number, uint64_t *now) {
    uint32_t who = drawn(2), what = drawn(100);
    uint64_t step = drawn(200) == 0 ? 25000 : drawn(120);
    *now += step;
    uint64_t at = drawn(100) == 0 ? *now - step - 1 : *now;
    fprintf(scenario, "[[event]]\nstation = %" PRIu32 "\nat = %" PRIu64 "\n", who, at);
    printf("%" PRIu32 " %" PRIu64 " %" PRIu32 " ", number, at, who);
    struct geostation *s = station[who];
    if (what < 8) {
        move(s, at);
    } else if (what < 18) {
        open_or_close(s, at);
    } else if (what < 19) {
        restart(s, at);
    } else if (what < 30) {
        tick(s, at);
    } else if (what < 55 || sent == 0) {
        request(s, at);
    } else {
        deliver(s, at);
    }
    putchar('\n');
}

int main(int argc, char **argv) {
    if (argc != 4) {
        fprintf(stderr, "usage: lockstep EVENTS SCENARIO CAPTURE\n");
        return 2;
    }
    uint32_t events = (uint32_t)atol(argv[1]);
    frames = calloc(events + 1, sizeof *frames);
    scenario = fopen(argv[2], "w");
    capture = fopen(argv[3], "wb");
    if (frames == NULL || scenario == NULL || capture == NULL) {
        perror("lockstep");
        return 1;
    }
    for (int i = 0; i < 2; i++) {
        /* `sim` has no limits */
        struct geostation_config config;
        geostation_config_init(&config);
        config.address = ADDRESS[i];
        config.longitude = LONGITUDE[i];
        config.forward_rate = config.source_rate = config.own_rate = 0;
        config.hop_cap = config.deliver_once = 0;
        if (geostation_new_from_config(&station[i], &config) != GEOSTATION_OK) {
            return 1;
        }
        fprintf(scenario, "[[station]]\naddress = \"%016" PRIx64 "\"\nlat = 0\nlon = %" PRId32 "\n",
                ADDRESS[i], LONGITUDE[i]);
    }
    uint64_t now = 1000;
    for (uint32_t i = 0; i < events; i++) {
        event(i, &now);
    }
    geostation_free(station[0]);
    geostation_free(station[1]);
    free(frames);
    return fclose(scenario) != 0 || fclose(capture) != 0;
}
