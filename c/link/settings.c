/* The settings: options that a configuration file may have too. Each has a row with its name, the
 * function that reads its value, and what that function needs to know. */
#define _GNU_SOURCE
#include "parts.h"
#include <getopt.h>
#include <string.h>

static void *field_of(struct options *o, const struct setting *s) {
    return (char *)o + s->row->field;
}

static bool take_flag(struct options *o, const struct setting *s, struct fault *f) {
    (void)f;
    *(bool *)field_of(o, s) = true;
    return true;
}

static bool take_text(struct options *o, const struct setting *s, struct fault *f) {
    (void)f;
    *(const char **)field_of(o, s) = s->value;
    return true;
}

static bool take_name(struct options *o, const struct setting *s, struct fault *f) {
    return take_text(o, s, f) && (*s->value != 0 || refuse_value(s, "the value is empty", f));
}

static bool take_interface(struct options *o, const struct setting *s, struct fault *f) {
    return take_text(o, s, f) && interface_of(s, f);
}

static bool take_socket(struct options *o, const struct setting *s, struct fault *f) {
    return take_text(o, s, f) && socket_path_of(s, f);
}

static bool take_metrics(struct options *o, const struct setting *s, struct fault *f) {
    return take_text(o, s, f) && (metrics_is_file(s->value) || socket_path_of(s, f));
}

static bool take_udp(struct options *o, const struct setting *s, struct fault *f) {
    return take_text(o, s, f) && host_port_of(s, 0, f);
}

static bool take_gpsd(struct options *o, const struct setting *s, struct fault *f) {
    o->gpsd = s->value != NULL ? s->value : "127.0.0.1:2947";
    return s->value == NULL || host_port_of(s, 1, f);
}

static bool take_peer(struct options *o, const struct setting *s, struct fault *f) {
    if (o->peer_count == PEERS) {
        return refuse_value(s, "more than 16 peers", f);
    }
    o->to[o->peer_count++] = s->value;
    return host_port_of(s, 1, f);
}

static bool read_number(const struct setting *s, uint64_t *number, struct fault *f) {
    return number_of(s, s->row->least, s->row->most, number, f);
}

static bool take_number(struct options *o, const struct setting *s, struct fault *f) {
    uint64_t number = 0;
    bool good = read_number(s, &number, f);
    *(uint32_t *)field_of(o, s) = (uint32_t)number * s->row->unit;
    return good;
}

static bool take_short(struct options *o, const struct setting *s, struct fault *f) {
    uint64_t number = 0;
    bool good = read_number(s, &number, f);
    *(uint16_t *)field_of(o, s) = (uint16_t)number;
    return good;
}

static bool take_forwarding(struct options *o, const struct setting *s, struct fault *f) {
    bool contends = strcmp(s->value, "contention") == 0;
    o->station.area_forwarding = contends ? GEOSTATION_CONTENTION : GEOSTATION_SIMPLE;
    return contends || strcmp(s->value, "simple") == 0
        || refuse_value(s, "not simple or contention", f);
}

static bool take_type(struct options *o, const struct setting *s, struct fault *f) {
    o->typed = true;
    return take_number(o, s, f);
}

static bool take_first_number(struct options *o, const struct setting *s, struct fault *f) {
    o->numbered = true;
    return take_number(o, s, f);
}

static bool take_security_number(struct options *o, const struct setting *s, struct fault *f) {
    o->tuned_security = true;
    return take_number(o, s, f);
}

static bool take_port(struct options *o, const struct setting *s, struct fault *f) {
    uint64_t number;
    if (!read_number(s, &number, f)) {
        return false;
    }
    if (ports_have(&o->ports, (uint16_t)number)) {
        return refuse_value(s, "the port is already listed", f);
    }
    return ports_add(&o->ports, (uint16_t)number) || refuse_value(s, "more than 64 ports", f);
}

static bool take_limited(struct options *o, const struct setting *s, struct fault *f) {
    if (o->limited_count == LISTENERS - 1) {
        return refuse_value(s, "more than 8 such sockets", f);
    }
    return rights_read(&o->limited[o->limited_count++], s, f);
}

static bool take_position(struct options *o, const struct setting *s, struct fault *f) {
    o->placed = true;
    return position_of(s, &o->station.latitude, &o->station.longitude, f);
}

static bool take_address(struct options *o, const struct setting *s, struct fault *f) {
    o->addressed = true;
    return address_of(s, &o->station.address, f);
}

#define FIELD(name) offsetof(struct options, name)
#define FLAG(name, field) { name, no_argument, take_flag, field, 0, 0, 0 }
#define TEXT(name, take, field) { name, required_argument, take, field, 0, 0, 0 }
#define NUMBER(name, take, field, least, most, unit) \
    { name, required_argument, take, field, least, most, unit }
#define LIMIT(name, field) NUMBER(name, take_number, field, 0, GEOSTATION_RATE_MAX, 1)

static const struct row rows[] = {
    TEXT("interface", take_interface, FIELD(interface)),
    FLAG("wait-interface", FIELD(wait_interface)),
    TEXT("udp", take_udp, FIELD(udp)),
    TEXT("to", take_peer, 0),
    NUMBER("forward-spread", take_number, FIELD(forward_spread), 0, 1000, 1000),
    LIMIT("forward-rate", FIELD(station.forward_rate)),
    LIMIT("forward-burst", FIELD(station.forward_burst)),
    LIMIT("source-rate", FIELD(station.source_rate)),
    LIMIT("source-burst", FIELD(station.source_burst)),
    LIMIT("own-rate", FIELD(station.own_rate)),
    LIMIT("own-burst", FIELD(station.own_burst)),
    NUMBER("hop-cap", take_number, FIELD(station.hop_cap), 0, 255, 1),
    NUMBER("deliver-once", take_number, FIELD(station.deliver_once), 0, 1, 1),
    TEXT("area-forwarding", take_forwarding, 0),
    NUMBER("contention-max", take_number, FIELD(station.contention_max), 1, 1000, 1),
    NUMBER("contention-min", take_number, FIELD(station.contention_min), 0, 1000, 1),
    NUMBER("contention-range", take_number, FIELD(station.contention_range), 1, 65535, 1),
    NUMBER("contention-copies", take_number, FIELD(station.contention_copies), 1, 3, 1),
    TEXT("position", take_position, 0),
    { "gpsd", optional_argument, take_gpsd, 0, 0, 0, 0 },
    NUMBER("gps-timeout", take_number, FIELD(gps_timeout), 1, 3600, 1000),
    NUMBER("pai-metres", take_number, FIELD(pai_metres), 1, 1000, 1),
    FLAG("clock-synchronised", FIELD(clock_synchronised)),
    FLAG("clock-follow", FIELD(clock_follow)),
    TEXT("address", take_address, 0),
    NUMBER("station-type", take_type, FIELD(station_type), 0, 31, 1),
    FLAG("stationary", FIELD(stationary)),
    FLAG("mobile", FIELD(mobile)),
    NUMBER("first-number", take_first_number, FIELD(first_number), 0, 65535, 1),
    NUMBER("capacity", take_short, FIELD(station.capacity), 1, 4096, 1),
    NUMBER("remember", take_short, FIELD(station.remember), 1, 64, 1),
    NUMBER("port", take_port, 0, 0, 65535, 1),
    TEXT("security", take_socket, FIELD(security)),
    TEXT("security-user", take_name, FIELD(security_user)),
    NUMBER("security-timeout", take_security_number, FIELD(security_timeout), 1, 10000, 1),
    NUMBER("security-workers", take_security_number, FIELD(security_workers), 1, VERIFIES_ASKED, 1),
    TEXT("listen", take_socket, FIELD(listen)),
    TEXT("listen-limited", take_limited, 0),
    NUMBER("client-timeout", take_number, FIELD(client_timeout), 0, 86400, 1000),
    TEXT("metrics", take_metrics, FIELD(metrics)),
    TEXT("audit", take_name, FIELD(audit)),
};

_Static_assert(sizeof rows / sizeof *rows == SETTINGS, "the number of settings");
const struct row *const settings = rows;

const struct row *setting_named(const char *name) {
    for (size_t k = 0; k < SETTINGS; k++) {
        if (strcmp(settings[k].name, name) == 0) {
            return &settings[k];
        }
    }
    return NULL;
}
