/* Reads the values of options, from the command line and from a configuration file. */
#define _GNU_SOURCE
#include "parts.h"
#include <errno.h>
#include <net/if.h>
#include <netdb.h>
#include <pwd.h>
#include <stdio.h>
#include <stdlib.h>
#include <string.h>

/* Sets a fault that names the setting, its place, and what is wrong with it. */
bool refuse_value(const struct setting *s, const char *why, struct fault *f) {
    const char *space = s->value != NULL ? " " : "";
    const char *value = s->value != NULL ? s->value : "";
    if (s->file != NULL) {
        return set_fault(f, BAD_ARGUMENTS, "%s:%d: %s%s%s: %s", s->file, s->line, s->name, space,
                         value, why);
    }
    return set_fault(f, BAD_ARGUMENTS, "--%s%s%s: %s", s->name, space, value, why);
}

bool number_of(const struct setting *s, uint64_t least, uint64_t most, uint64_t *out,
               struct fault *f) {
    char why[64];
    errno = 0;
    *out = strtoull(s->value, NULL, 10);
    size_t digits = strspn(s->value, "0123456789");
    if (digits != 0 && s->value[digits] == 0 && errno == 0 && *out >= least && *out <= most) {
        return true;
    }
    snprintf(why, sizeof why, "not a number from %llu to %llu", (unsigned long long)least,
             (unsigned long long)most);
    return refuse_value(s, why, f);
}

/* The lowest bit of a MAC's first octet says that it is a group's. */
bool address_of(const struct setting *s, uint64_t *out, struct fault *f) {
    if (strlen(s->value) != 16 || strspn(s->value, "0123456789abcdefABCDEF") != 16) {
        return refuse_value(s, "not 16 hexadecimal digits", f);
    }
    *out = strtoull(s->value, NULL, 16);
    return (*out >> 40 & 1) == 0
        || refuse_value(s, "its last 48 bits are a MAC address of a group", f);
}

/* Is it a name that the kernel allows? */
bool interface_of(const struct setting *s, struct fault *f) {
    size_t length = strlen(s->value);
    if (length == 0 || length >= IFNAMSIZ || strcspn(s->value, "/: \t\n\v\f\r") != length
        || strcmp(s->value, ".") == 0 || strcmp(s->value, "..") == 0) {
        return refuse_value(s, "not a name of an interface: 1 to 15 bytes without blanks, / and :",
                            f);
    }
    return true;
}

bool socket_path_of(const struct setting *s, struct fault *f) {
    size_t length = strlen(s->value);
    return (length != 0 && length < sizeof((struct sockaddr_un *)0)->sun_path)
        || refuse_value(s, "not a path of 1 to 107 bytes", f);
}

bool user_named(const char *name, uid_t *user) {
    const struct passwd *found = getpwnam(name);
    *user = found != NULL ? found->pw_uid : (uid_t)-1;
    return found != NULL;
}

/* Reads degrees with up to 7 decimals exactly, in 0.1 microdegree, and moves *text after them. */
static bool degrees(const char **text, int64_t most, int32_t *out) {
    bool negative = **text == '-';
    const char *at = *text + negative;
    size_t whole = strspn(at, "0123456789");
    size_t decimals = at[whole] == '.' ? strspn(at + whole + 1, "0123456789") : 0;
    if (whole == 0 || whole > 3 || decimals > 7 || (at[whole] == '.' && decimals == 0)) {
        return false;
    }
    int64_t value = 0;
    for (size_t k = 0; k < whole + 7; k++) {
        size_t digit = k < whole ? k : k + 1;
        value = value * 10 + (k < whole + decimals ? at[digit] - '0' : 0);
    }
    *text = at + whole + (decimals != 0 ? decimals + 1 : 0);
    *out = (int32_t)(negative ? -value : value);
    return value <= most * 10000000;
}

/* Reads LAT,LON in degrees. */
bool position_of(const struct setting *s, int32_t *latitude, int32_t *longitude, struct fault *f) {
    const char *at = s->value;
    bool good = degrees(&at, 90, latitude) && *at++ == ',' && degrees(&at, 180, longitude);
    return (good && *at == 0)
        || refuse_value(s, "not LAT,LON in degrees with up to 7 decimals", f);
}

/* Splits HOST:PORT or [HOST]:PORT; `host` has space for 256 octets. */
static bool split(const char *text, char *host, const char **port) {
    const char *colon = strrchr(text, ':');
    bool bracketed = text[0] == '[';
    if (colon == NULL || (bracketed && (colon == text + 1 || colon[-1] != ']'))) {
        return false;
    }
    const char *start = text + bracketed;
    size_t length = (size_t)(colon - start) - bracketed;
    if (length == 0 || length >= 256 || (!bracketed && memchr(start, ':', length) != NULL)) {
        return false;
    }
    memcpy(host, start, length);
    host[length] = 0;
    *port = colon + 1;
    return true;
}

/* Is it HOST:PORT, with a port from `least`? The host is looked up later, by resolve_addresses. */
bool host_port_of(const struct setting *s, uint64_t least, struct fault *f) {
    char host[256];
    const char *port;
    uint64_t number;
    if (!split(s->value, host, &port)) {
        return refuse_value(s, "not HOST:PORT; an IPv6 address is written [ADDRESS]:PORT", f);
    }
    struct setting of_port = { s->file, s->line, s->name, port, NULL };
    return number_of(&of_port, least, 65535, &number, f);
}

static int look_up(const char *text, int family, int type, struct address *out) {
    char host[256] = "";
    const char *port = "";
    struct addrinfo hints = { .ai_family = family, .ai_socktype = type,
                              .ai_flags = AI_NUMERICSERV }, *found;
    (void)split(text, host, &port);
    int why = getaddrinfo(host, port, &hints, &found);
    if (why == 0) {
        memcpy(&out->at, found->ai_addr, found->ai_addrlen);
        out->length = found->ai_addrlen;
        freeaddrinfo(found);
    }
    return why;
}

/* Fails if a look-up did. A check of the options ignores what may be different later. */
static void judge(const struct options *o, const char *option, const char *text, int why) {
    bool later = why == EAI_AGAIN || why == EAI_FAIL || why == EAI_MEMORY || why == EAI_SYSTEM;
    if (why != 0 && !(later && o->check)) {
        fail(later ? FAILED : BAD_ARGUMENTS, "--%s %s: %s", option, text, gai_strerror(why));
    }
}

/* The link and its multicast groups use IPv4; gpsd may use IPv4 or IPv6. */
void resolve_addresses(struct options *o) {
    if (o->udp != NULL) {
        judge(o, "udp", o->udp, look_up(o->udp, AF_INET, SOCK_DGRAM, &o->local));
    }
    for (size_t k = 0; k < o->peer_count; k++) {
        judge(o, "to", o->to[k], look_up(o->to[k], AF_INET, SOCK_DGRAM, &o->peers[k]));
    }
    if (o->gpsd != NULL) {
        judge(o, "gpsd", o->gpsd, look_up(o->gpsd, AF_UNSPEC, SOCK_STREAM, &o->gpsd_at));
    }
}
