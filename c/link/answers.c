/* Requests of applications. The library reads the line and writes the answer. At first a line has no
 * rights: queries are answered, and of other lines the library says what they ask for. Only a line
 * that may be executed now is executed. */
#include "parts.h"
#include <inttypes.h>
#include <stdio.h>
#include <string.h>

enum { SHB_HEADERS = 58, AREA_HEADERS = 74 }; /* octets of a frame besides its payload */

struct line {
    uint64_t now, moment, number;
    const uint8_t *octets;
    size_t length;
};

static const struct refusal not_allowed = { "not allowed",
                                            "the rights of this socket don't include it" };
static const struct refusal not_verified = {
    "not verified", "frames reach the station only by the link and the security entity"
};

/* Executes a line with these rights. A frame is in s->frame. */
static struct geostation_line_result execute(geostation_handle *h, struct station *s,
                                             const struct line *l, uint32_t rights,
                                             struct held *to) {
    struct geostation_line_result got;
    int status = geostation_handle_line(h, l->moment, l->number, l->octets, l->length, rights,
                                        to->answer, GEOSTATION_ANSWER_MAX, s->frame,
                                        sizeof s->frame, &got);
    answer_begin(to, &got, l->moment);
    if (status != GEOSTATION_OK) {
        got.outcome = GEOSTATION_OUTCOME_REFUSED;
        answer_refuse_memory(to);
    }
    return got;
}

static uint32_t kind_of(uint32_t command) {
    switch (command) {
    case GEOSTATION_COMMAND_TICK: return GEOSTATION_BEACON;
    case GEOSTATION_COMMAND_SHB: return GEOSTATION_SHB;
    case GEOSTATION_COMMAND_GBC: return GEOSTATION_GBC;
    case GEOSTATION_COMMAND_GAC: return GEOSTATION_GAC;
    default: return 0;
    }
}

/* The length of the frame that a line asks to send. 0 for `tick`: it may send none. */
static size_t frame_length(const struct geostation_line_result *asked) {
    switch (asked->command) {
    case GEOSTATION_COMMAND_TICK: return 0;
    case GEOSTATION_COMMAND_SHB: return SHB_HEADERS + asked->payload_length;
    default: return AREA_HEADERS + asked->payload_length;
    }
}

/* Has a client with limited rights the right to this? It may close only ports that it opened. */
static bool has_right(const struct client *c, const struct geostation_line_result *asked) {
    switch (asked->command) {
    case GEOSTATION_COMMAND_SHB:
    case GEOSTATION_COMMAND_GBC:
    case GEOSTATION_COMMAND_GAC: return rights_to_send(c->rights, asked->port);
    case GEOSTATION_COMMAND_OPEN: return rights_to_listen(c->rights, asked->port);
    case GEOSTATION_COMMAND_CLOSE: return ports_have(&c->opened, asked->port);
    default: return false;
    }
}

/* Why what a line asks for can't be done now, or NULL. */
static const struct refusal *judge(struct station *s, const struct client *c,
                                   const struct geostation_line_result *asked) {
    if (c->rights != NULL && !has_right(c, asked)) {
        return &not_allowed;
    }
    if (asked->command == GEOSTATION_COMMAND_RECEIVE) {
        return s->security != NULL ? &not_verified : own_place_refusal(s);
    }
    return kind_of(asked->command) != 0 ? own_refusal(s, frame_length(asked)) : NULL;
}

/* Gives the station the address that a `restart` has. False: it is wrong. */
static bool take_address(struct station *s, const struct line *l, struct held *h) {
    uint64_t address;
    enum readdressing found = readdress_read(l->octets, l->length, &address);
    if (found == WRONG_ADDRESS) {
        answer_put_error(h, l->number, "address", "its value is wrong");
    } else if (found == NEW_ADDRESS) {
        readdress(s, l->now, address);
    }
    return found != WRONG_ADDRESS;
}

static void send_own(struct station *s, size_t length, uint32_t kind, struct held *h) {
    const struct refusal *why = own_send(s, length, kind, h);
    if (why != NULL) {
        answer_refuse(h, why);
    }
}

/* What follows from a line that was executed. */
static void follow(struct station *s, const struct line *l,
                   const struct geostation_line_result *done, struct held *h) {
    switch (done->command) {
    case GEOSTATION_COMMAND_MOVE:
        place_take(s->place, &done->vector, l->now);
        place_tell(s->place, s, l->now);
        break;
    case GEOSTATION_COMMAND_OPEN: (void)ports_add(&h->client->opened, done->port); break;
    case GEOSTATION_COMMAND_CLOSE: clients_forget_port(s->clients, done->port); break;
    case GEOSTATION_COMMAND_RESTART:
        ignore_status(geostation_restart(s->beacons, s->last, 0));
        clients_forget_ports(s->clients);
        break;
    case GEOSTATION_COMMAND_RECEIVE:
        if (done->frame_length != 0) {
            forwards_put(s->forwards, s->frame, done->frame_length, l->now);
        }
        break;
    default:
        if (done->frame_length != 0) {
            send_own(s, done->frame_length, kind_of(done->command), h);
        }
    }
}

/* The handle of beacons knows when one is due. */
static void do_line(struct station *s, const struct line *l, uint32_t command, struct held *h) {
    bool ticks = command == GEOSTATION_COMMAND_TICK;
    s->last = l->moment;
    place_refresh(s->place, s, l->now);
    struct geostation_line_result done = execute(ticks ? s->beacons : s->handle, s, l,
                                                 GEOSTATION_RIGHTS_ALL, h);
    if (done.outcome == GEOSTATION_OUTCOME_DONE) {
        follow(s, l, &done, h);
    }
    if (ticks || command == GEOSTATION_COMMAND_RESTART) {
        station_plan_beacon(s);
    }
}

/* A line that needs no rights was executed. */
static void complete(struct station *s, const struct line *l,
                     const struct geostation_line_result *done, struct held *h) {
    if (done->outcome == GEOSTATION_OUTCOME_UNKNOWN_COMMAND) {
        subscribe_answer(h, l->number, l->octets, l->length);
    } else if (done->command == GEOSTATION_COMMAND_COUNTS) {
        answer_put_counts(h, s);
    } else if (done->command == GEOSTATION_COMMAND_NEXT_BEACON) {
        (void)execute(s->beacons, s, l, 0, h);
    }
}

void station_answer(struct station *s, uint64_t now, uint64_t number, const uint8_t *octets,
                    size_t n, struct held *h) {
    const struct line l = { now, clock_moment_at(now), number, octets, n };
    struct geostation_line_result asked = execute(s->handle, s, &l, 0, h);
    if (asked.outcome != GEOSTATION_OUTCOME_NOT_ALLOWED) {
        complete(s, &l, &asked, h);
        return;
    }
    const struct refusal *why = judge(s, h->client, &asked);
    if (why != NULL) {
        answer_refuse(h, why);
    } else if (asked.command != GEOSTATION_COMMAND_RESTART || take_address(s, &l, h)) {
        do_line(s, &l, asked.command, h);
    }
}

void station_print_counts(struct station *s, uint64_t now) {
    static struct held h;
    h = (struct held){ .at = clock_moment_at(now), .start = 1, .answer = "{" };
    answer_put_counts(&h, s);
    h.answer[h.length] = '\n';
    (void)put_error((const char *)h.answer, h.length + 1);
}
