/* The parts of geostation-link: one file each, and what each offers to the others. */
#ifndef GEOSTATION_LINK_PARTS_H
#define GEOSTATION_LINK_PARTS_H

#include "geostation.h"
#include "security.h"
#include <netinet/in.h>
#include <poll.h>
#include <stdbool.h>
#include <stddef.h>
#include <sys/socket.h>
#include <sys/types.h>
#include <sys/un.h>

enum {
    BAD_ARGUMENTS = 2,
    FAILED = 3, /* the system refused something */
    ROAD_SIDE_UNIT = 15, /* a station type of EN 302 636-4-1 */
    SETTINGS = 41,
    PEERS = 16,
    PORTS = 64,
    CLIENTS = 17,             /* the first one is standard input and output */
    LISTENERS = 9,            /* the first one is that of --listen */
    CLIENT_POLLS = LISTENERS + 2 * CLIENTS,
    FRAME_ROOM = 2560,        /* longer than any frame, so a frame that was cut is not valid */
    EVENTS_ROOM = 128 * 1024, /* no event is queued after more bytes, and no request is read */
    CONFIG_ROOM = 8192,       /* longest configuration file, in bytes */
    FORWARDS = 256,           /* forwarded frames that may wait at a time */
    OWN_PACKETS = 1024,       /* beacons and SHBs that the station knows as its own */
    OPEN_FILES = 64,          /* descriptors that the program needs */
    HELD_EACH = 16,           /* answers of one client that may wait for a signature */
    /* One for each client, and one for each packet of a client that is gone: others can't take
     * these. */
    HELD_RESERVE = CLIENTS + SIGNS + ASKED,
    HELD = HELD_RESERVE + 48, /* answers of all clients that may wait */
};

/* fail.c: messages on standard error. None of them waits: what it doesn't accept now is lost. */
struct fault {
    int status;
    char text[512];
};
_Noreturn __attribute__((format(printf, 2, 3))) void fail(int status, const char *format, ...);
__attribute__((format(printf, 1, 2))) void note(const char *format, ...);
bool put_error(const char *line, size_t n); /* at most PIPE_BUF octets, as they are */
__attribute__((format(printf, 3, 4))) bool set_fault(struct fault *f, int status,
                                                     const char *format, ...); /* is false */

/* For a call of the library whose outcome is in what it wrote: nothing, if it failed. */
static inline void ignore_status(int status) { (void)status; }

/* draws.c: random numbers. They spread frames in time and are not secrets. */
uint16_t draw(void);
uint32_t draw_below(uint32_t bound); /* 0 to bound - 1; 0 if bound is 0 */

/* rights.c: what the clients of a socket may do. NULL means all rights. */
struct setting;
struct ports {
    size_t count;
    uint16_t all[PORTS];
};
struct rights {
    char path[108], user[64]; /* user: empty if any may connect that may use the socket */
    bool sends, listens;
    struct ports ports;       /* none: any port */
};
bool ports_have(const struct ports *p, uint16_t port);
bool ports_add(struct ports *p, uint16_t port); /* false: no more can be added */
void ports_remove(struct ports *p, uint16_t port);
bool rights_read(struct rights *r, const struct setting *s, struct fault *f);
uid_t rights_user(const struct rights *r); /* fails if there is no such user; -1: it names none */
bool rights_to_send(const struct rights *r, uint16_t port);
bool rights_to_listen(const struct rights *r, uint16_t port);

/* settings.c: options that a configuration file may have too. */
struct address {
    struct sockaddr_storage at;
    socklen_t length;
};
struct options {
    struct geostation_config station;
    const char *interface, *listen, *metrics, *udp, *gpsd, *to[PEERS], *security, *security_user;
    const char *audit;
    bool placed, addressed, typed, stationary, mobile, wait_interface, check, tuned_security;
    bool clock_synchronised, clock_follow, numbered;
    struct address local, peers[PEERS], gpsd_at; /* filled by resolve_addresses */
    size_t peer_count, limited_count;
    struct ports ports;
    struct rights limited[LISTENERS - 1]; /* sockets with limited rights */
    uint32_t station_type;
    uint32_t first_number;   /* if numbered */
    uint32_t pai_metres;
    uint32_t forward_spread; /* microseconds */
    uint32_t client_timeout, gps_timeout, security_timeout; /* milliseconds */
    uint32_t security_workers;
    char config[CONFIG_ROOM]; /* the text of the file, to which the pointers lead */
};
struct setting { /* an option, and where it is written */
    const char *file; /* NULL: on the command line */
    int line;
    const char *name, *value; /* value: NULL if it is missing */
    const struct row *row;    /* NULL: the option has no row */
};
struct row {
    const char *name;
    int argument; /* whether it has a value, as getopt_long has it */
    bool (*take)(struct options *o, const struct setting *s, struct fault *f);
    size_t field;               /* its offset in struct options */
    uint32_t least, most, unit; /* of a number, which is stored times the unit */
};
extern const struct row *const settings; /* the first of SETTINGS */
const struct row *setting_named(const char *name); /* or NULL */

/* arguments.c and config.c: the command line and the configuration file. */
bool read_arguments(struct options *o, int argc, char **argv, struct fault *f);
bool read_config(struct options *o, const char *path, struct fault *f);

/* values.c: reads values. Each function sets the fault and returns false for a wrong one. */
bool number_of(const struct setting *s, uint64_t least, uint64_t most, uint64_t *out,
               struct fault *f);
bool address_of(const struct setting *s, uint64_t *out, struct fault *f);
bool position_of(const struct setting *s, int32_t *latitude, int32_t *longitude, struct fault *f);
bool interface_of(const struct setting *s, struct fault *f);
bool socket_path_of(const struct setting *s, struct fault *f);
bool host_port_of(const struct setting *s, uint64_t least, struct fault *f);
bool refuse_value(const struct setting *s, const char *why, struct fault *f);
bool user_named(const char *name, uid_t *user); /* false: there is no such user */
void resolve_addresses(struct options *o);

/* clock.c: the time for waiting (`now`), and the station's time (`moment`), both in ms. */
struct instant {
    uint64_t now;
    int64_t realtime; /* CLOCK_REALTIME at the same time, in ms */
};
struct clock_state {
    bool usable;       /* it is not before 2004 */
    bool synchronised; /* by the kernel's account */
    int64_t offset;    /* of the time of day, ahead of the station's time, in ms */
};
void clock_start(void);
uint64_t clock_now(void);    /* never goes back */
uint64_t clock_moment(void); /* TAI since 2004-01-01 */
uint64_t clock_moment_at(uint64_t now);
uint64_t clock_now_at(uint64_t moment); /* UINT64_MAX stays */
uint64_t clock_now_micros(void);        /* `now` in microseconds */
struct clock_state clock_look(void);
void clock_step(int64_t ms); /* the station's time is so much later from now on */
uint64_t clock_micros(void); /* since the start of the machine */
struct instant clock_instant(void);
uint64_t clock_of_utc(int64_t seconds, long nanoseconds); /* a moment; before 2004: 0 */

/* link.c, over packet.c or udp.c: frames from and to the link. */
struct link {
    int fd, watch;      /* watch: readable if some interface changed, or -1 */
    unsigned index;     /* of the interface; 0 on UDP and while the interface is gone */
    char name[16];      /* as the interface is called now */
    const char *wanted; /* the name that --interface has, or NULL on UDP */
    uint64_t address;   /* of the station */
    uint8_t mac[6];
    bool up;
    size_t longest;     /* octets of a frame; 0: not known */
    const struct address *peers;
    size_t peer_count;
    uint64_t empty_at; /* the last time at which no frame waited */
    uint64_t frames, padded, tagged, dropped, expired, kernel_dropped;
};
struct received {
    size_t length;
    uint64_t at; /* when the kernel received it */
    uint8_t octets[FRAME_ROOM];
};
enum sending { SENT, LINK_DOWN, QUEUE_FULL, FRAME_TOO_LONG, LIFETIME_OVER };
enum news { NO_NEWS = 0, NEWS_UP = 1, NEWS_MAC = 2 };
void link_open(struct link *l, struct options *o);
void link_address(uint64_t address, uint8_t mac[6]); /* that of a station with this GN address */
enum sending link_send(struct link *l, const uint8_t *frame, size_t length);
/* Sends a frame that has waited since that time, unless the lifetime in it has passed. */
enum sending link_send_in_time(struct link *l, const uint8_t *frame, size_t length, uint64_t since);
/* What link_send would return for a frame, as far as that is known. A refusal is counted. Length 0:
 * no frame is at hand. */
enum sending link_refuses(struct link *l, size_t length);
enum waiting { NONE_WAITS, SKIPPED, RECEIVED };
enum waiting link_receive(struct link *l, const struct instant *now, struct received **r);
void link_change_address(struct link *l, uint64_t address);
unsigned link_look(struct link *l); /* looks at the interface, and returns what changed */
uint64_t link_kernel_dropped(struct link *l);
void link_enlarge_buffer(int fd);
void packet_wait(struct link *l);
bool packet_open(struct link *l); /* false: there is no such interface */
void packet_close(struct link *l);
void packet_change_address(struct link *l, uint64_t address);
unsigned packet_look(struct link *l);
bool packet_is_foreign(const struct link *l, const uint8_t *octets, size_t n, const void *from);
uint64_t packet_drops(const struct link *l);
void udp_open(struct link *l, const struct options *o);

/* forwards.c: frames that the station forwards, each sent after a random wait. */
struct forwards {
    struct link *link;
    uint32_t spread; /* the wait is below this, in microseconds; 0: none */
    size_t count;    /* of frames that wait */
    uint64_t dropped; /* frames for which there was no free place */
    uint16_t order[FORWARDS], lengths[FORWARDS]; /* the first `count` places of order are used */
    uint64_t due[FORWARDS], since[FORWARDS]; /* since: when the frame was received, in ms */
    uint8_t frames[FORWARDS][GEOSTATION_SECURED_FRAME_MAX];
};
void forwards_start(struct forwards *w, struct link *l, uint32_t spread);
void forwards_put(struct forwards *w, const uint8_t *frame, size_t length, uint64_t since);
void forwards_send(struct forwards *w, uint64_t until); /* those that are due by then */
uint64_t forwards_due(const struct forwards *w);        /* microseconds; UINT64_MAX: none waits */

/* place.c: the position that the station has. */
struct station;
enum fix_state { FIX_NONE, FIX_CURRENT, FIX_OLD, FIX_LOST };
struct place {
    bool known, fixed; /* fixed: it comes from --position */
    enum fix_state fix;
    uint64_t fix_at;     /* when the last fix was, or the start */
    uint32_t fix_timeout;
    uint32_t pai_metres; /* a fix with a greater error is not accurate */
    uint64_t doubted_until; /* after a jump no fix is accurate for a while */
    bool time_reported; /* that the time of fixes is not credible */
    uint64_t told_at;
    uint32_t timestamp; /* a moment, modulo 2^32 */
    int32_t latitude, longitude;
    int16_t speed;
    uint16_t heading;
    uint8_t accurate;
};
bool place_is_usable(const struct place *p);
void place_tell(struct place *p, struct station *s, uint64_t now);
void place_refresh(struct place *p, struct station *s, uint64_t now);
void place_take(struct place *p, const struct geostation_vector *v, uint64_t now);
bool place_age(struct place *p, uint64_t now); /* did the state of the fix change? */
uint64_t place_ages_at(const struct place *p); /* when it changes if no fix comes */

/* json.c: reads the members of one JSON object, and nothing beyond its text. */
struct json {
    const char *at, *end;
};
struct json_member {
    const char *key, *text; /* as written, without quotation marks */
    size_t key_length, length;
    enum { JSON_TEXT, JSON_NUMBER, JSON_OTHER } kind;
};
enum json_step { JSON_MEMBER, JSON_END, JSON_WRONG };
bool json_open(struct json *j, const char *text, size_t length);
enum json_step json_next(struct json *j, struct json_member *m);
bool json_is_key(const struct json_member *m, const char *name);

/* hex.c: octets as hexadecimal digits. */
size_t hex_write(char *out, const uint8_t *octets, size_t n); /* returns the number of digits */
bool hex_read(const char *text, size_t length, uint8_t *out, size_t room, size_t *n);

/* fix.c: a report of gpsd. A number that it lacks is NAN. */
struct fix {
    double mode, latitude, longitude, speed, track, eph, epx, epy;
    bool timed;
    uint64_t moment; /* if timed */
};
bool fix_read(struct fix *f, const char *line, size_t length); /* is it a TPV report? */
bool fix_take(const struct fix *f, struct place *p, uint64_t now); /* did the position change? */

/* gpsd.c: the connection to gpsd. */
struct gpsd {
    int fd;
    bool wanted, connecting, too_long, reported;
    const struct address *at;
    uint64_t try_at; /* without a connection: when to try again; UINT64_MAX: never */
    size_t length;
    char line[8192];
};
void gpsd_start(struct gpsd *g, const struct options *o);
void gpsd_try(struct gpsd *g, uint64_t now);
bool gpsd_read(struct gpsd *g, struct place *p, uint64_t now); /* did the position change? */

/* events.c: lines that are not answers. Their `at` is the moment of `now`. */
struct text {
    size_t length;
    char octets[4096];
};
void event_ready(struct text *t, uint64_t now, uint64_t address);
void event_link(struct text *t, uint64_t now, bool up);
void event_mac(struct text *t, uint64_t now, const uint8_t mac[6]);
void event_fix(struct text *t, uint64_t now, enum fix_state state);
void event_lost(struct text *t, uint64_t now, uint64_t count);
void event_closed(struct text *t, uint64_t now);
void event_security(struct text *t, uint64_t now, bool up);
void event_conflict(struct text *t, uint64_t now, const uint8_t mac[6]);
void event_address(struct text *t, uint64_t now, uint64_t address);
void event_clock(struct text *t, uint64_t now, bool synchronised, int64_t step, int64_t offset);
void event_delivered(struct text *t, uint64_t moment, const struct geostation_reception *r,
                     const uint8_t *payload, const struct answer *verified); /* NULL: unsecured */

/* conflict.c: another station that uses this station's address. */
struct conflict {
    uint64_t count;                /* packets that this station did not send */
    uint64_t tell_at;              /* no event is sent earlier */
    uint32_t started;              /* the moment of the start, modulo 2^32 */
    size_t next;
    uint64_t packets[OWN_PACKETS]; /* hashes of its last beacons and SHBs */
    uint8_t numbers[65536 / 8];    /* a bit for each number of a packet that it sent */
};
void conflict_start(struct conflict *c);
void conflict_forget(struct conflict *c);
void conflict_remember(struct conflict *c, const uint8_t *frame, size_t length);
void conflict_look(struct station *s, const struct geostation_reception *got, const uint8_t *mac,
                   const uint8_t *plain, size_t n);

/* station.c: the proved station. */
struct clients;
struct station {
    geostation_handle *handle;
    geostation_handle *beacons; /* plans the beacons: it learns only of packets that were sent */
    struct geostation_counts counts; /* sent: what the link took; others: of earlier handles */
    struct geostation_config config;
    uint64_t address;
    uint64_t last;      /* the moment of the last call */
    uint16_t jitter;    /* of the next beacon */
    uint64_t beacon_at; /* the moment at which that is due */
    bool has_sent;      /* an own packet was sent, or may have been */
    uint64_t own_at;    /* when the last one was */
    uint32_t release_spread; /* held frames are released a time below this later, in microseconds */
    uint64_t release_due;    /* when the first of them is due; UINT64_MAX: none is held */
    uint64_t release_at;     /* when they are released, in microseconds */
    struct link *link;
    struct forwards *forwards;
    struct place *place;
    struct steps *steps;
    struct clients *clients;
    struct security *security; /* NULL: packets are unsecured */
    struct audit *audit;
    struct conflict conflict;
    uint8_t frame[GEOSTATION_SECURED_FRAME_MAX]; /* what a call writes */
};
void station_open(struct station *s, const struct options *o);
void station_follow_step(struct station *s, uint64_t now); /* of the clock */
bool station_may_send(const struct station *s);
void station_hear(struct station *s, const struct received *r);
void station_take_verified(struct station *s, const uint8_t *frame, size_t length,
                           const struct answer *a, uint64_t since);
void station_beacon(struct station *s, uint64_t now);
void station_plan_beacon(struct station *s);
void station_change_ports(struct station *s, const struct ports *old, const struct ports *new);

/* releases.c: held frames that are due. */
void releases_plan(struct station *s);
bool releases_are_due(const struct station *s); /* as planned */
void releases_turn(struct station *s);

/* handles.c: its handles of the library. */
void handles_make(struct station *s, uint64_t moment, uint16_t number); /* of the first packet */
void handles_renew(struct station *s, uint64_t moment); /* which is earlier than their last one */
void handles_free(struct station *s);
void station_counts(const struct station *s, struct geostation_counts *out);
uint64_t handles_waiting(const struct geostation_counts *c); /* held frames */
bool station_contends(const struct station *s);

/* steps.c: steps of the clock. */
struct steps {
    bool demands, follows; /* --clock-synchronised, --clock-follow */
    bool usable;           /* the clock isn't before 2004, or wasn't at the first own packet */
    bool synchronised;
    bool silent;           /* nothing is sent before a step back is followed */
    int64_t offset;        /* of the time of day, ahead of the station's time, in ms */
    int64_t reported;      /* that offset, when it was reported */
    uint64_t look_at;
};
struct refusal;
void steps_start(struct steps *w, const struct options *o);
void steps_turn(struct steps *w, struct station *s, uint64_t now);
const struct refusal *steps_refusal(const struct steps *w); /* why nothing is sent, or NULL */

/* readdress.c: a new address while the program runs. */
enum readdressing { SAME_ADDRESS, NEW_ADDRESS, WRONG_ADDRESS };
enum readdressing readdress_read(const uint8_t *line, size_t n, uint64_t *address);
void readdress(struct station *s, uint64_t now, uint64_t address);

/* audit.c: a line for each packet of an application that was sent. */
struct asker { /* the client that asked for it */
    const char *socket; /* "-": standard input */
    uid_t user;
    pid_t process;
};
struct audit {
    const char *path; /* NULL: none is written; "-": standard error */
    int fd;
    uint64_t lost;
};
void audit_start(struct audit *a, const char *path);
void audit_reopen(struct audit *a);
void audit_sent(struct audit *a, const struct asker *by, const uint8_t *frame, size_t length);

/* answers.c: requests of applications. */
void station_answer(struct station *s, uint64_t now, uint64_t number, const uint8_t *octets,
                    size_t n, struct held *h);
void station_print_counts(struct station *s, uint64_t now);

/* own.c: the station's own packets. */
struct refusal { /* of a request */
    const char *code, *reason;
};
/* Why a packet can't be sent now, as far as that is known, or NULL. Length 0: it isn't known. */
const struct refusal *own_refusal(struct station *s, size_t length);
const struct refusal *own_place_refusal(const struct station *s);
/* Sends s->frame, or has it signed: then the answer `h` waits. `h`: NULL for a beacon. Returns why
 * it wasn't sent, or NULL. */
const struct refusal *own_send(struct station *s, size_t length, uint32_t kind, struct held *h);
/* Sends a packet once it is signed, and completes the answer to its request. `length`: 0 if it was
 * not signed. `plain`: the packet as the library wrote it. `since`: when it was requested. */
void station_send_signed(struct station *s, const uint8_t *plain, size_t plain_length,
                         const uint8_t *frame, size_t length, struct held *h, uint64_t since);

/* answer.c: the text of an answer. What the library wrote after the `id` is replaced. */
void answer_begin(struct held *h, const struct geostation_line_result *got, uint64_t moment);
void answer_put_result(struct held *h, const char *result); /* with quotation marks, and more keys */
void answer_refuse(struct held *h, const struct refusal *why);
void answer_refuse_memory(struct held *h);
void answer_put_error(struct held *h, uint64_t number, const char *key, const char *reason);
void answer_put_counts(struct held *h, const struct station *s);
void answer_complete(struct held *h, const uint8_t *frame, size_t length,
                     const struct refusal *why); /* why: NULL if the frame was sent */

/* held.c: answers to applications. One that waits for a signature holds back those after it. */
struct held {
    struct client *client; /* NULL: it is gone */
    bool used, waits;
    uint32_t kind; /* of the packet whose signature it waits for */
    struct asker by;
    uint64_t at;          /* the moment of the request */
    size_t length, start; /* start: of what comes after the `id` */
    uint8_t answer[GEOSTATION_ANSWER_MAX + 1]; /* and a line feed */
};
struct held_pool {
    size_t count;
    struct held *all;
};
void held_start(struct held_pool *p, bool waits); /* waits: an answer may wait for a signature */
bool held_has_place(const struct held_pool *p, const struct client *c);
struct held *held_take(struct held_pool *p, struct client *c);
void held_flush(struct client *c);
void held_forget(struct client *c);

/* client.c: one application. */
struct client {
    int in, out;                   /* in is -1 once it ended */
    struct asker by;
    const struct rights *rights;   /* NULL: all */
    struct ports opened;           /* by it, if its rights are limited */
    bool subscribes;               /* it gets only payloads for ports to which it subscribed */
    struct ports subscribed;
    bool deaf;                     /* no one reads its output any more */
    uint64_t lines, lost;          /* lines that came; events for which there was no free space */
    uint64_t active_at;            /* when it last sent or read something */
    size_t line_length, next, got; /* of `line`; begin and end of the unread part of `chunk` */
    size_t begin, end;             /* of the unsent part of `queue` */
    size_t held_count;
    struct held *held[HELD_EACH];  /* answers that aren't in the queue yet, in order */
    uint8_t chunk[4096];
    uint8_t line[GEOSTATION_LINE_MAX + 1];
    uint8_t queue[EVENTS_ROOM + GEOSTATION_ANSWER_MAX + 1];
};
size_t client_waiting(const struct client *c);
void client_put_answer(struct client *c, const uint8_t *answer, size_t n);
struct client *client_new(int in, int out, uint64_t now); /* NULL: out of memory */
bool client_wants(const struct client *c, uint16_t port);
void client_tell(struct clients *all, struct client *c, const struct text *t, uint64_t now);
bool client_is_done(const struct client *c); /* its input ended, and all answers are written */
bool client_may_read(const struct client *c);
void client_read(struct clients *all, struct client *c);
void client_take_lines(struct clients *all, struct client *c);
bool client_is_writing(const struct client *c);
int client_write(struct client *c); /* 0, or the errno of a client that reads no more */

/* subscribe.c: requests that the library does not know. */
/* Finds the last member of a line with this key, if it has no escapes. */
bool line_member(const uint8_t *line, size_t n, const char *key, struct json_member *found);
/* Executes such a request of h->client, and answers it in place of the library. */
void subscribe_answer(struct held *h, uint64_t number, const uint8_t *line, size_t n);

/* clients.c: all applications. */
struct listener {
    int fd; /* or -1 */
    const char *path;
    const struct rights *rights; /* NULL: all */
    uid_t user;                  /* if rights name one */
};
struct clients {
    struct client *all[CLIENTS];
    struct listener listeners[LISTENERS];
    size_t listener_count;
    int spare; /* a descriptor that is closed to turn a client away */
    uint32_t timeout; /* an idle client is closed after this if others wait, in ms; 0: never */
    uint64_t events_lost, closed_idle, turned_away, refused_users;
    int output_fault; /* the errno of standard output, or 0 */
    struct station *station;
    struct held_pool held;
};
/* listeners.c */
void listeners_start(struct clients *c, const struct options *o);
bool listener_lets_in(struct clients *c, const struct listener *l, int fd, struct asker *by);
void listeners_end(const struct clients *c);

void clients_start(struct clients *c, const struct options *o);
void clients_tell(struct clients *c, const struct text *t, uint64_t now);
void clients_deliver(struct clients *c, const struct text *t, uint16_t port); /* who want it */
void clients_forget_port(struct clients *c, uint16_t port); /* it was closed */
void clients_forget_ports(struct clients *c);               /* all were closed */
void clients_poll(const struct clients *c, struct pollfd *on, uint64_t now); /* CLIENT_POLLS */
void clients_turn(struct clients *c, const struct pollfd *on);
uint64_t clients_due(const struct clients *c, uint64_t now);
size_t clients_count(const struct clients *c);
bool clients_is_ended(const struct clients *c);
bool clients_listens(const struct clients *c); /* at a socket */
void clients_drain(struct clients *c);
void clients_end(struct clients *c);

/* counts.c: what was counted, as text. */
size_t counts_print(const struct station *s, char *out, size_t room); /* from the result on */
size_t counts_print_metrics(const struct station *s, uint64_t now, char *out, size_t room);

/* metrics.c: the counts for Prometheus, at a socket or in a file. */
struct metrics {
    const char *path;
    int listening;     /* or -1 */
    uint64_t write_at; /* when the file is written next; UINT64_MAX: never */
    bool failed;       /* the last write failed, and was reported */
};
bool metrics_is_file(const char *path); /* is it the name of a file, and not of a socket? */
void metrics_start(struct metrics *m, const char *path);
void metrics_serve(const struct metrics *m, const struct station *s, uint64_t now);
void metrics_write(struct metrics *m, const struct station *s, uint64_t now);
void metrics_end(const struct metrics *m);

/* socket.c: UNIX sockets at a path. The option is the one that names the path. */
struct sockaddr_un unix_address(const char *option, const char *path);
/* It replaces a socket at which no one listens any more. Its group may use it, or everyone. */
int listen_at(const char *option, const char *path, int waiting, bool everyone);

/* notify.c: reports to a service manager, if there is one. */
void notify_start(void);
void notify(const char *state);
void notify_alive(uint64_t now);
uint64_t notify_due(void); /* when notify_alive sends next; UINT64_MAX: never */

/* loop.c: waits for all of them and handles what arrives, until the program ends. */
struct program {
    int argc;
    char **argv;
    struct options options;
    struct link link;
    struct forwards forwards;
    struct place place;
    struct steps steps;
    struct audit audit;
    struct gpsd gpsd;
    struct clients clients;
    struct station station;
    struct security security;
    struct metrics metrics;
};
void loop(struct program *p);
void reload(struct program *p);

#endif
