/* The requests to a security entity, without a station, sockets or a real clock. The clock here
 * goes on by itself, in steps of 250 microseconds, so an hour passes in a second, and no test
 * depends on the machine. The entity here works on its requests in their order. */
#include "parts.h"
#include <inttypes.h>
#include <stdio.h>
#include <stdlib.h>
#include <string.h>

#define CHECK(e) do { if (!(e)) { \
    fprintf(stderr, "%s:%d: %s\n", __FILE__, __LINE__, #e); exit(1); } } while (0)

enum { STEP = 250, MOST = 4096, TAG_AT = BASIC_END + 1, LENGTH = 60, START = 1000000 };
enum { SECONDS = 10, SETTLES = 4000 /* ms */ };
enum { GOOD = 1, JUNK = 0xff }; /* the first octet of a message */

static uint64_t micros;
static struct security x;
static struct station station;
static struct clients clients;

/* ---- the entity */

struct job {
    uint64_t id;
    bool signs, good;
};
static struct {
    uint64_t took;              /* microseconds for each answer */
    size_t workers, lost_each;  /* lost_each: one of so many requests is never answered; 0: none */
    bool stopped;
    uint64_t free_at[16];       /* when each worker has done its job */
    struct job jobs[MOST], at_work[16];
    size_t count, most, got, answered, refused, signed_ones, busy_workers;
    bool works[16];
    uint64_t idle;
} entity;
static struct answer arrived[MOST];
static size_t arrived_count;
static bool reachable = true;

static void put_job(uint64_t id, bool signs, const uint8_t *frame) {
    entity.got++;
    if (entity.lost_each != 0 && entity.got % entity.lost_each == 0) {
        return;
    }
    CHECK(entity.count < MOST);
    entity.jobs[entity.count++] = (struct job){ id, signs, frame[BASIC_END] == GOOD };
    entity.most = entity.count > entity.most ? entity.count : entity.most;
}

static void answer_job(const struct job *j) {
    struct answer *a = &arrived[arrived_count++];
    CHECK(arrived_count < MOST);
    *a = (struct answer){ .id = j->id, .length = 1 };
    a->kind = j->signs ? MESSAGE : j->good ? PLAIN_PART : NOT_DONE;
    entity.answered++;
    entity.refused += a->kind == NOT_DONE;
    entity.signed_ones += j->signs;
}

static void work(size_t k) {
    if (entity.works[k] && micros >= entity.free_at[k]) {
        answer_job(&entity.at_work[k]);
        entity.works[k] = false;
    }
    if (!entity.works[k] && entity.count != 0) {
        entity.at_work[k] = entity.jobs[0];
        memmove(entity.jobs, entity.jobs + 1, --entity.count * sizeof *entity.jobs);
        entity.works[k] = true;
        entity.free_at[k] = micros + entity.took;
    }
    entity.idle += entity.works[k] ? 0 : STEP;
}

static void run_entity(void) {
    for (size_t k = 0; k < entity.workers && !entity.stopped; k++) {
        work(k);
    }
}

/* ---- what the requests are built on */

uint64_t clock_now(void) { return START + micros / 1000; }
uint64_t clock_micros(void) { return micros; }

static size_t connections;
void entity_start(struct entity *e, const struct options *o) { e->path = o->security; }
bool entity_try(struct entity *e, uint64_t now) {
    e->try_at = now + 1000;
    e->fd = reachable ? 7 : -1;
    connections += reachable;
    return reachable;
}
void entity_send(const struct entity *e, const char *text, size_t n) {
    (void)e, (void)text;
    CHECK(n == 1);
}
enum arrival entity_receive(const struct entity *e, char *text, size_t room, size_t *n) {
    (void)e, (void)text, (void)room, (void)n;
    return !reachable ? ENTITY_GONE : arrived_count != 0 ? DATAGRAM : NOTHING_ARRIVED;
}
void entity_close(struct entity *e, uint64_t now) {
    e->fd = -1;
    e->try_at = now + 1000;
    entity.count = arrived_count = 0;
}
bool datagram_read(struct answer *a, const char *text, size_t n) {
    (void)text, (void)n;
    *a = arrived[0];
    memmove(arrived, arrived + 1, --arrived_count * sizeof *arrived);
    return true;
}
static uint64_t last_asked; /* the tag of the received frame that was asked last */
static uint64_t tag_of(const uint8_t *frame) {
    uint64_t tag;
    memcpy(&tag, frame + TAG_AT, sizeof tag);
    return tag;
}
size_t datagram_verify(char out[DATAGRAM_MAX], uint64_t id, const uint8_t *frame, size_t length,
                       uint64_t at) {
    (void)out, (void)at;
    last_asked = length == LENGTH ? tag_of(frame) : 0;
    put_job(id, false, frame);
    return 1;
}
size_t datagram_sign(char out[DATAGRAM_MAX], uint64_t id, const uint8_t *frame, size_t length) {
    (void)out, (void)length;
    put_job(id, true, frame);
    return 1;
}

int geostation_seal(const uint8_t *frame, size_t length, const uint8_t *message, size_t n,
                    uint8_t *out, size_t room, size_t *out_length) {
    (void)frame, (void)length, (void)message, (void)n, (void)out, (void)room;
    *out_length = 1;
    return GEOSTATION_OK;
}
int geostation_message(const uint8_t *frame, size_t n, size_t *start, size_t *length) {
    (void)frame;
    *start = BASIC_END;
    *length = n - BASIC_END;
    return GEOSTATION_OK;
}
void link_address(uint64_t address, uint8_t mac[6]) { (void)address, (void)memset(mac, 0, 6); }
bool envelope_read(const uint8_t *message, size_t n, size_t *start, size_t *length) {
    (void)message, (void)n, (void)start, (void)length;
    return false;
}

static uint64_t delivered[1 << 16];
static size_t delivered_count, sent, unsent, events, notes_said;
static uint64_t oldest; /* microseconds: the greatest age at delivery */
static uint64_t since_received, since_requested; /* of the last outcome */
static bool told_up;
void station_take_verified(struct station *s, const uint8_t *frame, size_t length,
                           const struct answer *a, uint64_t since) {
    (void)s, (void)length, (void)a;
    since_received = since;
    uint64_t tag = tag_of(frame), age = micros - tag;
    oldest = age > oldest ? age : oldest;
    delivered[delivered_count++ % (1 << 16)] = tag;
}
void station_send_signed(struct station *s, const uint8_t *plain, size_t plain_length,
                         const uint8_t *frame, size_t length, struct held *h, uint64_t since) {
    (void)s, (void)plain, (void)plain_length, (void)frame, (void)h;
    since_requested = since;
    sent += length != 0;
    unsent += length == 0;
}
void event_security(struct text *t, uint64_t now, bool up) {
    (void)t, (void)now;
    told_up = up;
    events++;
}
void clients_tell(struct clients *c, const struct text *t, uint64_t now) {
    (void)c, (void)t, (void)now;
}
void note(const char *format, ...) { notes_said += format != NULL; }
void fail(int status, const char *format, ...) {
    (void)format;
    exit(status);
}

/* ---- what the tests do */

static void start(uint64_t took, uint32_t workers, uint32_t timeout) {
    const struct options o = { .security_timeout = timeout, .security_workers = workers };
    requests_free(&x);
    memset(&x, 0, sizeof x);
    memset(&entity, 0, sizeof entity);
    entity.took = took;
    entity.workers = workers;
    arrived_count = delivered_count = sent = unsent = events = notes_said = 0;
    oldest = connections = 0;
    reachable = true;
    station.clients = &clients;
    security_start(&x, &station, &o);
}

/* A frame with a message of its own, from a sender. */
static void hear_from(uint8_t first, uint64_t sender, uint64_t tag) {
    static struct received r;
    memset(&r, 0, sizeof r);
    r.length = LENGTH;
    r.at = clock_now();
    memset(r.octets, 0xff, 6);
    memcpy(r.octets + 6, &sender, 6);
    r.octets[BASIC_END] = first;
    memcpy(r.octets + TAG_AT, &tag, sizeof tag);
    security_hear(&x, &r);
}

static void hear(void) { hear_from(GOOD, 1, micros); }

static bool own(void) {
    static const uint8_t frame[LENGTH];
    return security_is_up(&x) && requests_sign(&x, frame, sizeof frame, NULL);
}

static void step(void) {
    micros += STEP;
    run_entity();
    security_turn(&x, arrived_count != 0 || !reachable);
}

static void run(uint64_t milliseconds) {
    for (uint64_t end = micros + milliseconds * 1000; micros < end;) {
        step();
    }
}

/* All outcomes of received frames. */
static uint64_t decided(void) {
    const struct security_counts *c = &x.counts;
    return c->verified + c->rejected + c->unanswered + c->overrun;
}

/* ---- loads */

static uint64_t draw_state = 1;
static uint64_t draws(void) {
    draw_state = draw_state * UINT64_C(6364136223846793005) + 1442695040888963407;
    return draw_state >> 33;
}
uint32_t draw_below(uint32_t bound) { return (uint32_t)(draws() % bound); }

/* An own packet each half second, or less often if the entity is that slow, and frames at a rate.
 * Returns how many came. */
static size_t load(uint64_t rate, uint64_t junk_rate, bool other_senders, uint64_t seconds) {
    const uint64_t each = 500000 > 3 * entity.took ? 500000 : 3 * entity.took;
    uint64_t begin = micros, before = decided(), count = 0, junk = 0, owns = 0;
    for (uint64_t past = 0; past < seconds * 1000000; past = micros - begin) {
        for (; count * 1000000 < past * rate; count++) {
            hear();
        }
        for (; junk * 1000000 < past * junk_rate; junk++) {
            hear_from(JUNK, other_senders ? 1000 + draws() : 2, draws());
        }
        for (; owns * each < past; owns++) {
            CHECK(own());
        }
        step();
    }
    run(SETTLES);
    CHECK(sent == owns && unsent == 0);
    CHECK(decided() == before + count + junk);
    CHECK(x.asked.count == 0 && x.spare.count == REQUESTS);
    return count;
}

/* Whatever the speed of the entity and the load: it is busy, no more waits at it than its window,
 * each own packet is signed, and what comes is verified as far as the entity can. */
static size_t test_loads(void) {
    static const uint64_t tooks[] = {
        1000, 2000, 11000, 20000, 26000, 45000, 90000, 200000, 900000,
    };
    static const uint64_t rates[] = { 1, 10, 49, 100, 1000 };
    size_t cells = 0;
    for (size_t t = 0; t < sizeof tooks / sizeof *tooks; t++) {
        for (size_t r = 0; r < sizeof rates / sizeof *rates; r++, cells++) {
            start(tooks[t], 1, 1000);
            hear();
            run(3000);
            size_t count = 1 + load(rates[r], 0, false, SECONDS);
            double able = 1e6 * SECONDS / (double)tooks[t] - (double)sent;
            double wanted = (double)count < able ? (double)count : able;
            CHECK((double)x.counts.verified >= 0.9 * wanted - 1);
            CHECK(x.counts.unanswered == 0 && x.counts.rejected == 0);
            CHECK(entity.most <= 2 * VERIFIES_ASKED);
            CHECK(oldest <= (VERIFIES_FOR + 60) * 1000 + 3 * tooks[t]);
            CHECK(tooks[t] < 25000 || entity.most <= 3);
        }
    }
    return cells;
}

/* Several workers, of which the daemon knows by its option. */
static void test_workers(void) {
    for (uint32_t workers = 1; workers <= 12; workers++) {
        start(200000, workers, 1000);
        (void)load(200, 0, false, SECONDS);
        CHECK((double)x.counts.verified >= 0.9 * (5.0 * workers * SECONDS - (double)sent));
    }
    start(10000, 4, 100); /* fast ones need no option */
    x.pace.workers = 1;
    (void)load(1000, 0, false, SECONDS);
    CHECK((double)x.counts.verified >= 0.9 * (400 * SECONDS - (double)sent));
}

/* A flood of messages that the entity refuses costs a neighbour nothing. If it comes under the
 * address of that neighbour, a frame right behind each of the neighbour's, some are verified still.
 */
static void test_junk(void) {
    for (int other = 0; other < 2; other++) {
        start(20000, 1, 100);
        size_t count = load(10, 1000, other, SECONDS);
        CHECK((double)x.counts.verified >= 0.9 * (double)count);
        CHECK(entity.idle < (SETTLES + 1000) * UINT64_C(1000)); /* after the load */
    }
    start(20000, 1, 100);
    for (uint64_t k = 0; k < 60000; k++) {
        if (k % 100 == 0) {
            hear();
        }
        hear_from(JUNK, 1, draws());
        run(1);
    }
    CHECK(x.counts.verified >= 4); /* 600 of 60600 frames, and 750 questions for any: 7 */
}

/* A neighbour whose messages are good can't flood the others. */
static void test_good_flood(void) {
    start(20000, 1, 100);
    uint64_t begin = micros, count = 0, flood = 0;
    for (uint64_t past = 0; past < SECONDS * UINT64_C(1000000); past = micros - begin) {
        for (; count * 100000 < past; count++) {
            hear();
        }
        for (; flood * 50 < past; flood++) {
            hear_from(GOOD, 5, 1 + flood);
        }
        step();
    }
    run(SETTLES);
    size_t there = 0;
    for (size_t k = 0; k < delivered_count; k++) {
        there += delivered[k] > begin + 1000000;
    }
    CHECK(there >= 9 * (count - 10) / 10 && decided() == count + flood);
}

/* Requests that the entity lost keep no place. */
static void test_lost_requests(void) {
    start(20000, 1, 100);
    entity.lost_each = 50;
    uint64_t begin = micros, count = 0;
    while (micros - begin < 60 * UINT64_C(1000000)) {
        for (; count * 10000 < micros - begin; count++) {
            hear();
        }
        step();
    }
    run(30000);
    CHECK(x.counts.verified >= 2000 && decided() == count); /* of 3000 */
    CHECK(events == 0 && told_up == false && security_is_up(&x));
}

/* The station learns since when a frame, or a packet of its own, has waited for the entity. */
static void test_since(void) {
    start(300000, 1, 1000);
    uint64_t at = clock_now();
    hear();
    run(500);
    CHECK(delivered_count == 1 && since_received == at && clock_now() > at + 300);
    at = clock_now();
    CHECK(own());
    run(500);
    CHECK(sent == 1 && since_requested == at && clock_now() > at + 300);
}

/* ---- the order */

/* In their order while the entity keeps up. Once it is behind, the newest first. */
static void test_order(void) {
    start(1000, 1, 100);
    for (uint64_t k = 1; k <= 20; k++) {
        hear_from(GOOD, 1, k);
    }
    run(100);
    CHECK(delivered_count == 20);
    for (uint64_t k = 0; k < 20; k++) {
        CHECK(delivered[k] == k + 1);
    }
    start(30000, 1, 100);
    for (uint64_t k = 1; k <= 20; k++) {
        hear_from(GOOD, 1, k);
    }
    run(1000);
    CHECK(delivered[0] == 1 && delivered[1] == 2 && delivered[2] == 3 && delivered[3] == 20);
    CHECK(delivered[5] == (delivered[4] == 19 ? 18 : 19)); /* the fifth one is any */
    CHECK(x.counts.verified + x.counts.overrun == 20 && x.counts.verified >= 13);
}

/* 64 frames wait. Of more, the oldest of the worst standing is dropped. None waits for long. */
static void test_places(void) {
    start(1000, 1, 10000);
    for (uint64_t k = 0; k < 20; k++) { /* senders 10 are accepted, 20 refused */
        hear_from(k % 2 ? GOOD : JUNK, k % 2 ? 10 : 20, 100 + k);
        run(5);
    }
    entity.stopped = true;
    size_t window = x.pace.window;
    uint64_t before = x.counts.overrun;
    for (uint64_t k = 0; k < window; k++) {
        hear_from(GOOD, 30, 1000 + k);
    }
    for (uint64_t k = 0; k < 22; k++) {
        hear_from(JUNK, 20, 2000 + k);
        hear_from(GOOD, 10, 3000 + k);
        hear_from(GOOD, 40, 4000 + k);
    }
    CHECK(x.asked.count == window && x.verifies.count == VERIFIES);
    CHECK(x.counts.overrun == before + 2);
    CHECK(tag_of(x.verifies.all[0]->frame) == 3000); /* of 2000 and 2001 nothing is left */
    for (uint64_t k = 0; k < 62; k++) {
        hear_from(GOOD, 50 + k, 5000 + k);
    }
    CHECK(x.counts.overrun == before + 64 && x.verifies.count == VERIFIES);
    size_t accepted = 0;
    for (size_t k = 0; k < x.verifies.count; k++) {
        accepted += tag_of(x.verifies.all[k]->frame) / 1000 == 3;
    }
    CHECK(accepted == 22);
    run(VERIFIES_FOR + 1);
    CHECK(x.verifies.count == 0 && x.counts.overrun == before + 128);
}

/* Own packets don't wait for received frames, and 16 wait for each other. */
static void test_own_packets(void) {
    start(30000, 1, 1000);
    for (int k = 0; k < 64; k++) {
        hear_from(GOOD, 1, (uint64_t)k);
    }
    run(500);
    CHECK(x.pace.window == 1);
    hear_from(GOOD, 1, 1000);
    CHECK(own() && entity.count + entity.works[0] <= 2);
    run(61);
    CHECK(sent == 1);
    for (int k = 0; k < SIGNS + 1; k++) {
        CHECK(own());
    }
    CHECK(!own() && x.counts.unsigned_packets == 1);
    run(30 * (SIGNS + 3));
    CHECK(sent == SIGNS + 2);
}

/* ---- late answers */

/* A late answer is used for the copies that wait and for those that come within a second. */
static void test_late_answers(void) {
    start(120000, 1, 100);
    for (uint64_t k = 0; k < 10; k++) {
        hear_from(GOOD, 1, k);
        run(20);
        hear_from(GOOD, 2, k);
        run(280);
        hear_from(GOOD, 3, k);
        run(700);
        x.pace.took = 0; /* each one as if it were the first */
    }
    CHECK(x.counts.unanswered == 10 && x.counts.verified == 20 && x.counts.strays == 10);
    CHECK(entity.answered == 10 + 10); /* one for each message, and one whether it lives */
    start(120000, 1, 100);
    hear_from(GOOD, 1, 5);
    run(300);
    CHECK(x.counts.unanswered == 1 && delivered_count == 0);
    hear_from(GOOD, 2, 5);
    CHECK(delivered_count == 1 && delivered[0] == 5);
}

/* A slow entity gets more time once it is known to be slow: nothing is unanswered any more. */
static void test_slow_entity(void) {
    start(400000, 1, 100);
    (void)own();
    run(3000);
    CHECK(unsent == 1 && security_is_up(&x) && events == 2);
    for (int k = 0; k < 20; k++) {
        CHECK(own());
        hear();
        run(1000);
    }
    CHECK(sent == 20 && unsent == 1 && x.counts.verified == 20 && events == 2);
    start(2000000, 1, 100); /* it is slower than the time after which it gets a new connection */
    (void)own();
    run(60000);
    for (int k = 0; k < 12; k++) {
        CHECK(own());
        run(5000);
    }
    CHECK(sent >= 10 && sent + unsent == 13);
}

/* ---- silence */

/* Within two timeouts there is an event; what waits ends; and the first answer ends the silence. */
static void test_silence(void) {
    start(1000, 1, 100);
    CHECK(own());
    run(50);
    entity.stopped = true;
    hear();
    CHECK(own() && own() && own());
    run(99);
    CHECK(security_is_up(&x) && unsent == 0);
    run(102);
    CHECK(!security_is_up(&x) && events == 1 && !told_up && notes_said == 1);
    CHECK(unsent == 3 && x.counts.unanswered == 1 && !own());
    hear();
    CHECK(x.counts.unanswered == 2 && x.asked.count <= 5);
    entity.stopped = false;
    run(10);
    CHECK(security_is_up(&x) && events == 2 && told_up && notes_said == 2);
    CHECK(own());
    run(10);
    CHECK(sent == 2 && x.asked.count == 0);
}

/* A silent entity gets new connections, fewer and fewer, with one question on each. */
static void test_long_silence(void) {
    start(1000, 1, 100);
    CHECK(own());
    run(50);
    entity.stopped = true;
    hear();
    run(3600 * 1000);
    CHECK(events == 1 && !security_is_up(&x) && entity.count <= 1);
    CHECK(connections > 30 && connections < 70);
    entity.stopped = false;
    run(65 * 1000);
    CHECK(security_is_up(&x) && events == 2 && told_up && pace_timeout(&x.pace) <= 400);
}

/* It dies while it is silent, and comes back: it has to answer first. */
static void test_death(void) {
    start(1000, 1, 100);
    entity.stopped = true;
    hear();
    run(300);
    reachable = false;
    run(5000);
    CHECK(events == 1 && !security_is_up(&x));
    reachable = true;
    run(1100);
    CHECK(x.entity.fd >= 0 && !security_is_up(&x));
    entity.stopped = false;
    run(3000);
    CHECK(security_is_up(&x) && events == 2);
    reachable = false;
    run(10);
    CHECK(!security_is_up(&x) && events == 3 && x.spare.count == REQUESTS);
    reachable = true;
    run(1100);
    CHECK(security_is_up(&x) && events == 4);
}

int main(void) {
    size_t cells = test_loads();
    test_workers();
    test_junk();
    test_good_flood();
    test_lost_requests();
    test_since();
    test_order();
    test_places();
    test_own_packets();
    test_late_answers();
    test_slow_entity();
    test_silence();
    test_long_silence();
    test_death();
    requests_free(&x);
    printf("%zu loads of %d s each, by a clock of their own\n", cells, SECONDS);
    return 0;
}
