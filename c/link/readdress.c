/* A new address while the program runs, for a new pseudonym: `restart` with a key `address`.
 * Packets that are forwarded or signed at that time stay as they are. */
#define _GNU_SOURCE
#include "parts.h"
#include <stdlib.h>
#include <string.h>

/* 16 hexadecimal digits, and not that of a group. */
static bool read_address(const struct json_member *m, uint64_t *address) {
    char digits[17] = "";
    if (m->kind != JSON_TEXT || m->length != 16) {
        return false;
    }
    memcpy(digits, m->text, 16);
    *address = strtoull(digits, NULL, 16);
    return strspn(digits, "0123456789abcdefABCDEF") == 16 && (*address >> 40 & 1) == 0;
}

enum readdressing readdress_read(const uint8_t *line, size_t n, uint64_t *address) {
    struct json_member m;
    if (!line_member(line, n, "address", &m)) {
        return SAME_ADDRESS;
    }
    return read_address(&m, address) ? NEW_ADDRESS : WRONG_ADDRESS;
}

void readdress(struct station *s, uint64_t now, uint64_t address) {
    struct text t;
    s->address = s->config.address = address;
    handles_renew(s, clock_moment_at(now));
    if (s->place->known) {
        place_tell(s->place, s, now);
    }
    link_change_address(s->link, address);
    conflict_forget(&s->conflict);
    note("the station has a new address: %016llx", (unsigned long long)address);
    event_address(&t, now, address);
    clients_tell(s->clients, &t, now);
}
