/* Reads a message as IEEE 1609.2 (canonical octet encoding rules) as far as its header info, to
 * find the plain part in it. The signature isn't looked at: that is the entity's work. */
#include "parts.h"

enum { VERSION = 3, UNSECURED = 0x80, SIGNED = 0x81, DATA_ONLY = 0x40, TIMED = 0x40 };
enum { PSID_MAX = 4, TIME_LENGTH = 8 };

struct cursor {
    const uint8_t *at, *end;
};

static size_t left_of(const struct cursor *c) { return (size_t)(c->end - c->at); }

static bool take_octet(struct cursor *c, uint8_t *out) {
    if (c->at == c->end) {
        return false;
    }
    *out = *c->at++;
    return true;
}

static bool expect(struct cursor *c, uint8_t wanted) {
    uint8_t found = 0;
    return take_octet(c, &found) && found == wanted;
}

static bool skip(struct cursor *c, size_t n) {
    bool there = left_of(c) >= n;
    c->at += there ? n : 0;
    return there;
}

/* One octet below 80, 81 and one octet, or 82 and two. */
static bool take_length(struct cursor *c, size_t *out) {
    uint8_t first = 0, high = 0, low = 0;
    if (!take_octet(c, &first) || first > 0x82 || first == 0x80) {
        return false;
    }
    bool good = (first != 0x82 || take_octet(c, &high)) && (first < 0x80 || take_octet(c, &low));
    *out = first < 0x80 ? first : (size_t)high << 8 | low;
    return good;
}

static bool skip_header_info(struct cursor *c) {
    uint8_t flags = 0, psid_length = 0;
    return take_octet(c, &flags) && take_octet(c, &psid_length) && psid_length >= 1
        && psid_length <= PSID_MAX && skip(c, psid_length)
        && skip(c, (flags & TIMED) != 0 ? TIME_LENGTH : 0);
}

static bool skip_front(struct cursor *c, bool *is_signed) {
    uint8_t kind = 0, hash = 0;
    if (!expect(c, VERSION) || !take_octet(c, &kind)) {
        return false;
    }
    *is_signed = kind == SIGNED;
    return kind == UNSECURED
        || (*is_signed && take_octet(c, &hash) && hash < 0x80 && expect(c, DATA_ONLY)
            && expect(c, VERSION) && expect(c, UNSECURED));
}

bool envelope_read(const uint8_t *message, size_t n, size_t *start, size_t *length) {
    struct cursor c = { message, message + n };
    bool is_signed = false;
    if (!skip_front(&c, &is_signed) || !take_length(&c, length)) {
        return false;
    }
    *start = n - left_of(&c);
    return skip(&c, *length) && (!is_signed || skip_header_info(&c));
}
