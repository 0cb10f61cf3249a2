/* Signed packets: what the program asks the security entity, and what it does with the answers.
 * docs/SECURITY-ENTITY.md describes the messages between the two. */
#ifndef GEOSTATION_LINK_SECURITY_H
#define GEOSTATION_LINK_SECURITY_H

#include "geostation.h"
#include <stdbool.h>
#include <stddef.h>
#include <stdint.h>
#include <sys/types.h>
#include <sys/un.h>

struct options;
struct received;
struct station;
struct held;

enum {
    BASIC_END = 18,      /* offset of what follows the Basic Header in a frame */
    MESSAGE_MAX = GEOSTATION_SECURED_FRAME_MAX - BASIC_END,
    SIGNS = 16,          /* own packets that wait for the entity */
    VERIFIES = 64,       /* received frames that wait for it */
    VERIFIES_FOR = 400,  /* ms; the entity would find an older one too old */
    ASKED = 16,          /* requests that are with it */
    VERIFIES_ASKED = 12, /* of these, at most so many received frames */
    PROBES = 2,          /* questions whether the entity lives */
    ARRIVALS = 1,        /* a received frame, until another one makes way for it */
    REQUESTS = SIGNS + VERIFIES + ASKED + PROBES + ARRIVALS,
    KEPT = 256,          /* answers that may be used again */
    KEPT_FOR = 1000,     /* ms */
    SENDERS = 256,       /* senders whose messages the entity judged lately */
};

/* entity.c: the connection to the security entity. */
struct entity {
    const char *path;
    struct sockaddr_un at;
    bool has_user; /* another user than root and the program's own may run the entity */
    uid_t user;
    int fd;          /* or -1 */
    uint64_t try_at; /* without a connection: when to try again */
    int reported;    /* why there is no connection, as it was reported; 0: nothing was */
};
void entity_start(struct entity *e, const struct options *o);
bool entity_try(struct entity *e, uint64_t now); /* is there a connection now? */
void entity_send(const struct entity *e, const char *text, size_t n);
enum arrival { NOTHING_ARRIVED, DATAGRAM, CUT_DATAGRAM, ENTITY_GONE };
enum arrival entity_receive(const struct entity *e, char *text, size_t room, size_t *n);
void entity_close(struct entity *e, uint64_t now);

/* datagram.c: the text of requests and answers. */
enum { DATAGRAM_MAX = 3 * GEOSTATION_SECURED_FRAME_MAX };
struct answer {
    uint64_t id;
    enum { WRONG_ANSWER, PLAIN_PART, MESSAGE, NOT_DONE } kind;
    bool has_psid, has_generated;
    uint64_t psid, generated;
    size_t length;
    uint8_t octets[MESSAGE_MAX]; /* the plain part, or the message */
};
size_t datagram_verify(char out[DATAGRAM_MAX], uint64_t id, const uint8_t *frame, size_t length,
                       uint64_t at);
size_t datagram_sign(char out[DATAGRAM_MAX], uint64_t id, const uint8_t *frame, size_t length);
bool datagram_read(struct answer *a, const char *text, size_t n); /* has it an id? */

/* envelope.c: the plain part that a message of IEEE 1609.2 has in it. */
bool envelope_read(const uint8_t *message, size_t n, size_t *start, size_t *length);

/* kept.c: answers of the last second, by their messages. */
struct kept {
    uint64_t until; /* 0: not used yet */
    uint32_t hash;
    size_t length;
    uint8_t message[MESSAGE_MAX];
    struct answer answer;
};
uint32_t kept_hash(const uint8_t *message, size_t n);
void kept_put(struct kept *all, size_t *next, uint32_t hash, const uint8_t *message, size_t n,
              const struct answer *a, uint64_t now);
const struct answer *kept_find(const struct kept *all, uint32_t hash, const uint8_t *message,
                               size_t n, uint64_t now);

/* senders.c: which senders' messages the entity accepted, and whose it refused. */
enum standing { SENDER_REFUSED, SENDER_UNKNOWN, SENDER_ACCEPTED }; /* the best one last */
struct sender {
    uint8_t address[6];
    int8_t score;  /* below 0: refused, over 0: accepted */
    uint64_t at;   /* when the entity last judged a message of it; 0: not used yet */
    uint64_t turn; /* the number of the last question about it */
};
void senders_note(struct sender *all, const uint8_t address[6], bool good, uint64_t now);
void senders_ask(struct sender *all, const uint8_t address[6], uint64_t turn, uint64_t now);
/* The turn of an accepted sender; 0 of all others. */
enum standing senders_find(const struct sender *all, const uint8_t address[6], uint64_t now,
                           uint64_t *turn);

/* pace.c: how many requests the entity has at a time, and how long is waited for its answers. */
struct pace {
    uint32_t workers; /* requests that it works on at a time, by --security-workers */
    uint32_t window;  /* own packets that may be with it, and received frames besides them */
    uint32_t timeout; /* ms, by --security-timeout */
    uint64_t took;    /* how long an answer takes, in microseconds, smoothed; 0: none came yet */
};
void pace_start(struct pace *p); /* with another entity */
uint64_t pace_timeout(const struct pace *p); /* ms */
void pace_answer(struct pace *p, uint64_t took, uint32_t window, bool more_wait);

/* requests.c: the requests that wait, and those that are with the entity. A request
 * - waits, in the list `signs` or `verifies`, until the entity may have it. It is dropped if others
 *   take its place, or if it waits for too long.
 * - is asked, in the list `asked`, from then on. Its outcome is decided by its answer, or at
 *   `until`.
 * - is late, in the list `asked` too, if it was decided without an answer. The entity may still
 *   work on it, so it keeps its place there until its answer comes, until the entity answers a
 *   request that it got after `until`, or until the connection ends. A late answer counts for
 *   copies of the message. */
enum request_kind { SIGN, VERIFY, PROBE };
struct request {
    enum request_kind kind;
    bool late;
    uint64_t id, until;   /* once it is asked; until: when it is late */
    uint64_t asked_at;    /* ms */
    uint64_t asked_micros;
    uint32_t window;      /* that of the pace when it was asked */
    uint64_t at;          /* when the kernel received the frame, or the packet was requested */
    uint32_t hash;        /* of its message */
    uint32_t sender;      /* a hash too */
    enum standing standing; /* of its sender, when frames were compared last */
    struct held *held;    /* the answer to an application, or NULL for a beacon */
    size_t length;
    uint8_t frame[GEOSTATION_SECURED_FRAME_MAX];
};
struct request_list {
    size_t count;
    struct request *all[REQUESTS];
};
struct security_counts {
    uint64_t verified, rejected, unanswered, overrun, dropped_early, unsecured;
    uint64_t signed_packets, unsigned_packets, strays;
};
struct security {
    struct entity entity;
    struct station *station;
    struct pace pace;
    bool silent;       /* the entity is there, but it does not answer */
    bool probed;       /* since the last answer it was asked whether it lives */
    bool reported_up;  /* by the last event */
    uint64_t heard_at; /* the last answer, or the first request after a time without any */
    uint64_t renew_at, renew_after; /* when a silent entity gets another connection; ms */
    uint64_t last_id, turns; /* turns: verify requests that were asked */
    size_t next_kept;
    struct request_list spare, signs, verifies, asked;
    struct request *requests;
    struct kept *kept;
    struct sender *senders;
    struct security_counts counts;
};
void requests_start(struct security *x);
bool requests_may_sign(struct security *x);
bool requests_sign(struct security *x, const uint8_t *frame, size_t length, struct held *h);
void requests_verify(struct security *x, const struct received *got);
void requests_ask(struct security *x); /* as many as the entity may have at a time */
void requests_probe(struct security *x);
void requests_take_answer(struct security *x, struct answer *a);
void requests_expire(struct security *x, uint64_t now);
uint64_t requests_due(const struct security *x); /* UINT64_MAX: nothing to wait for */
bool requests_are_asked(const struct security *x, const struct request *r); /* a copy of it */
void requests_end_waiting(struct security *x); /* without answers */
void requests_end_all(struct security *x);     /* those that are with the entity too */
void requests_free(struct security *x);

/* waiting.c: which of the received frames that wait is asked next, and which makes way. */
void waiting_judge(const struct security *x, struct request *r, uint64_t now); /* a new one */
size_t waiting_next(const struct security *x, uint64_t now); /* the count: none may be asked now */
size_t waiting_worst(const struct security *x);              /* at least one waits */

/* security.c: what the program has of them. */
void security_start(struct security *x, struct station *s, const struct options *o);
bool security_is_up(const struct security *x);
void security_hear(struct security *x, const struct received *r);
void security_turn(struct security *x, bool ready);
uint64_t security_due(const struct security *x);
int security_fd(const struct security *x); /* -1 if there is no entity, or if x is NULL */
void security_end(struct security *x);

#endif
