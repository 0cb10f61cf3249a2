/* The datagrams between the program and the security entity: one JSON object each. */
#define _GNU_SOURCE
#include "parts.h"
#include <inttypes.h>
#include <stdio.h>
#include <string.h>

/* Offsets in a frame: the sender's link address, the lifetime and the remaining hop limit. */
enum { SENDER = 6, LIFETIME = 16, HOPS = 17 };

_Static_assert(DATAGRAM_MAX > 2 * MESSAGE_MAX + 256, "the longest datagram");

size_t datagram_verify(char out[DATAGRAM_MAX], uint64_t id, const uint8_t *frame, size_t length,
                       uint64_t at) {
    size_t n = (size_t)sprintf(out, "{\"id\":%" PRIu64 ",\"do\":\"verify\",\"message\":\"", id);
    n += hex_write(out + n, frame + BASIC_END, length - BASIC_END);
    n += (size_t)sprintf(out + n, "\",\"lt\":\"%02x\",\"hops\":%u,\"from\":\"", frame[LIFETIME],
                         frame[HOPS]);
    n += hex_write(out + n, frame + SENDER, 6);
    return n + (size_t)sprintf(out + n, "\",\"at\":%" PRIu64 "}", clock_moment_at(at));
}

size_t datagram_sign(char out[DATAGRAM_MAX], uint64_t id, const uint8_t *frame, size_t length) {
    static const char *const kinds[] = { "", "beacon", "shb", "gbc", "gac" };
    struct geostation_packet packet;
    ignore_status(geostation_read_frame(frame, length, &packet));
    size_t n = (size_t)sprintf(out, "{\"id\":%" PRIu64 ",\"do\":\"sign\",\"kind\":\"%s\",", id,
                               kinds[packet.kind]);
    if (packet.kind != GEOSTATION_BEACON) {
        n += (size_t)sprintf(out + n, "\"port\":%u,", packet.message.port);
    }
    size_t start, plain_length;
    ignore_status(geostation_plain_part(frame, length, &start, &plain_length));
    n += (size_t)sprintf(out + n, "\"plain\":\"");
    n += hex_write(out + n, frame + start, plain_length);
    return n + (size_t)sprintf(out + n, "\"}");
}

/* Reads a whole number of 64 bits, without a sign, a fraction or an exponent. */
static bool read_number(const struct json_member *m, uint64_t *out) {
    uint64_t value = 0;
    if (m->kind != JSON_NUMBER) {
        return false;
    }
    for (size_t k = 0; k < m->length; k++) {
        unsigned digit = (unsigned)(m->text[k] - '0');
        if (digit > 9 || value > (UINT64_MAX - digit) / 10) {
            return false;
        }
        value = value * 10 + digit;
    }
    *out = value;
    return true;
}

static bool read_octets(const struct json_member *m, struct answer *a) {
    return m->kind == JSON_TEXT
        && hex_read(m->text, m->length, a->octets, sizeof a->octets, &a->length);
}

/* What the members of an answer say besides its id. */
struct found {
    bool id, plain, message, error;
    bool wrong; /* one of them is not as it has to be */
};

static void take_member(struct answer *a, struct found *f, const struct json_member *m) {
    if (json_is_key(m, "id")) {
        f->id = read_number(m, &a->id);
    } else if (json_is_key(m, "plain")) {
        f->plain = true;
        f->wrong |= !read_octets(m, a);
    } else if (json_is_key(m, "message")) {
        f->message = true;
        f->wrong |= !read_octets(m, a);
    } else if (json_is_key(m, "error")) {
        f->error = true;
        f->wrong |= m->kind != JSON_TEXT;
    } else if (json_is_key(m, "psid")) {
        a->has_psid = true;
        f->wrong |= !read_number(m, &a->psid);
    } else if (json_is_key(m, "generated")) {
        a->has_generated = true;
        f->wrong |= !read_number(m, &a->generated);
    }
}

/* Other members are skipped. An answer says one thing only. */
bool datagram_read(struct answer *a, const char *text, size_t n) {
    struct json j;
    struct json_member m;
    struct found f = { .id = false };
    enum json_step step;
    a->id = 0;
    a->kind = WRONG_ANSWER;
    a->has_psid = a->has_generated = false;
    a->length = 0;
    if (!json_open(&j, text, n)) {
        return false;
    }
    while ((step = json_next(&j, &m)) == JSON_MEMBER) {
        take_member(a, &f, &m);
    }
    if (!f.wrong && f.plain + f.message + f.error == 1) {
        a->kind = f.plain ? PLAIN_PART : f.message ? MESSAGE : NOT_DONE;
    }
    return step == JSON_END && f.id;
}
