/* What the clients of a socket may do: --listen-limited PATH RIGHT .. */
#include "parts.h"
#include <stdlib.h>
#include <string.h>

static const char blanks[] = " \t";

/* ---- sets of ports */

static size_t place_of(const struct ports *p, uint16_t port) {
    size_t k = 0;
    while (k < p->count && p->all[k] != port) {
        k++;
    }
    return k;
}

bool ports_have(const struct ports *p, uint16_t port) { return place_of(p, port) < p->count; }

bool ports_add(struct ports *p, uint16_t port) {
    if (ports_have(p, port)) {
        return true;
    }
    if (p->count == PORTS) {
        return false;
    }
    p->all[p->count++] = port;
    return true;
}

void ports_remove(struct ports *p, uint16_t port) {
    size_t k = place_of(p, port);
    if (k < p->count) {
        p->all[k] = p->all[--p->count];
    }
}

/* ---- reading */

/* Copies a word, if it fits. */
static bool copy(char *out, size_t room, const char *word, size_t length) {
    if (length == 0 || length >= room) {
        return false;
    }
    memcpy(out, word, length);
    out[length] = 0;
    return true;
}

static bool read_port(struct ports *p, const char *word, size_t length) {
    char digits[6];
    if (!copy(digits, sizeof digits, word, length) || strspn(digits, "0123456789") != length) {
        return false;
    }
    unsigned long port = strtoul(digits, NULL, 10);
    return port <= UINT16_MAX && !ports_have(p, (uint16_t)port) && ports_add(p, (uint16_t)port);
}

static bool is_word(const char *word, size_t length, const char *wanted) {
    return strlen(wanted) == length && memcmp(word, wanted, length) == 0;
}

/* Returns what is wrong with a word, or NULL. */
static const char *read_word(struct rights *r, const char *word, size_t length) {
    static const char port[] = "port=", user[] = "user=";
    const size_t key = sizeof port - 1;
    if (is_word(word, length, "send")) {
        r->sends = true;
    } else if (is_word(word, length, "listen")) {
        r->listens = true;
    } else if (length > key && memcmp(word, port, key) == 0) {
        return read_port(&r->ports, word + key, length - key) ? NULL
            : "port= needs a number from 0 to 65535, once each, at most 64 times";
    } else if (length > key && memcmp(word, user, key) == 0) {
        return r->user[0] == 0 && copy(r->user, sizeof r->user, word + key, length - key) ? NULL
            : "user= needs one name of at most 63 bytes";
    } else {
        return "rights are send, listen, port=N and user=NAME";
    }
    return NULL;
}

/* The first word is the path. */
bool rights_read(struct rights *r, const struct setting *s, struct fault *f) {
    const char *at = s->value + strspn(s->value, blanks);
    size_t length = strcspn(at, blanks);
    const char *why = copy(r->path, sizeof r->path, at, length) ? NULL
        : "the path needs 1 to 107 bytes";
    while (why == NULL && *(at += length + strspn(at + length, blanks)) != 0) {
        length = strcspn(at, blanks);
        why = read_word(r, at, length);
    }
    if (why == NULL && !r->sends && !r->listens) {
        why = "after the path comes send, listen or both";
    }
    return why == NULL || refuse_value(s, why, f);
}

uid_t rights_user(const struct rights *r) {
    uid_t user = (uid_t)-1;
    if (r->user[0] != 0 && !user_named(r->user, &user)) {
        fail(BAD_ARGUMENTS, "--listen-limited %s user=%s: there is no such user", r->path, r->user);
    }
    return user;
}

/* ---- judging. `r`: NULL for all rights. */

static bool has_port_right(const struct rights *r, uint16_t port) {
    return r->ports.count == 0 || ports_have(&r->ports, port);
}

bool rights_to_send(const struct rights *r, uint16_t port) {
    return r == NULL || (r->sends && has_port_right(r, port));
}

bool rights_to_listen(const struct rights *r, uint16_t port) {
    return r == NULL || (r->listens && has_port_right(r, port));
}
