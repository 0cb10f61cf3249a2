/* The two requests that the library does not know: {"do":"subscribe","port":N} and `unsubscribe`.
 * From its first subscription on a client gets only payloads for ports to which it subscribed. */
#include "parts.h"
#include <stdlib.h>
#include <string.h>

bool line_member(const uint8_t *line, size_t n, const char *key, struct json_member *found) {
    struct json j;
    struct json_member m;
    enum json_step step;
    bool there = false;
    if (!json_open(&j, (const char *)line, n)) {
        return false;
    }
    while ((step = json_next(&j, &m)) == JSON_MEMBER) {
        if (json_is_key(&m, key)) {
            *found = m;
            there = true;
        }
    }
    return step == JSON_END && there;
}

static bool line_port(const uint8_t *line, size_t n, uint16_t *port) {
    struct json_member m;
    char digits[6] = "";
    if (!line_member(line, n, "port", &m) || m.kind != JSON_NUMBER || m.length >= sizeof digits) {
        return false;
    }
    memcpy(digits, m.text, m.length);
    unsigned long number = strtoul(digits, NULL, 10);
    *port = (uint16_t)number;
    return strspn(digits, "0123456789") == m.length && number <= UINT16_MAX;
}

static bool does(const uint8_t *line, size_t n, const char *what) {
    struct json_member m;
    return line_member(line, n, "do", &m) && m.kind == JSON_TEXT && m.length == strlen(what)
        && memcmp(m.text, what, m.length) == 0;
}

/* The library does not know the command of this line, and answered so. */
void subscribe_answer(struct held *h, uint64_t number, const uint8_t *line, size_t n) {
    struct client *c = h->client;
    bool adds = does(line, n, "subscribe");
    uint16_t port;
    if (!adds && !does(line, n, "unsubscribe")) {
        return;
    }
    if (!line_port(line, n, &port)) {
        answer_put_error(h, number, "port", "a number from 0 to 65535");
        return;
    }
    c->subscribes = true;
    if (!adds) {
        ports_remove(&c->subscribed, port);
        answer_put_result(h, "\"unsubscribed\"");
    } else if (ports_add(&c->subscribed, port)) {
        answer_put_result(h, "\"subscribed\"");
    } else {
        answer_put_result(h, "\"refused\",\"code\":\"S8 B3\","
                             "\"reason\":\"64 other ports are subscribed\"");
    }
}
