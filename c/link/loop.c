/* The main loop. It waits for the link, clients, fixes, signals and the next event that is due. */
#define _GNU_SOURCE
#include "parts.h"
#include <errno.h>
#include <signal.h>
#include <string.h>
#include <sys/signalfd.h>
#include <time.h>
#include <unistd.h>

enum {
    SIGNALS, LINK, WATCH, GPS, ENTITY, METRICS, FIRST_CLIENT,
    ALL = FIRST_CLIENT + CLIENT_POLLS
};
/* A turn handles the frames of whole batches (link.c). */
enum { FRAMES_A_TURN = 64, LONGEST_WAIT = 60000 /* ms */, LAST_WAIT = 500 /* ms */ };

static int open_signals(void) {
    sigset_t set;
    sigemptyset(&set);
    sigaddset(&set, SIGINT);
    sigaddset(&set, SIGTERM);
    sigaddset(&set, SIGHUP);
    sigaddset(&set, SIGUSR1);
    sigprocmask(SIG_BLOCK, &set, NULL);
    signal(SIGPIPE, SIG_IGN);
    signal(SIGHUP, SIG_DFL); /* from here on it is read */
    return signalfd(-1, &set, SFD_CLOEXEC | SFD_NONBLOCK);
}

/* Has the program to end? */
static bool read_signal(int signals, struct program *p) {
    struct signalfd_siginfo got;
    if (read(signals, &got, sizeof got) != sizeof got) {
        return false;
    }
    if (got.ssi_signo == SIGUSR1) {
        station_print_counts(&p->station, clock_now());
    } else if (got.ssi_signo == SIGHUP) {
        reload(p);
    } else {
        return true;
    }
    return false;
}

static void read_frames(struct station *s) {
    struct received *r;
    struct instant now = clock_instant();
    for (int k = 0; k < FRAMES_A_TURN; k++) {
        enum waiting found = link_receive(s->link, &now, &r);
        if (found == NONE_WAITS) {
            return;
        }
        if (found == RECEIVED) {
            station_hear(s, r);
        }
    }
}

static void look_at_link(struct program *p) {
    struct text t;
    uint64_t now = clock_now();
    unsigned news = link_look(&p->link);
    if ((news & NEWS_UP) != 0) {
        event_link(&t, now, p->link.up);
        clients_tell(&p->clients, &t, now);
        note("%s: the link is %s", p->link.name, p->link.up ? "up" : "down");
    }
    if ((news & NEWS_MAC) != 0) {
        event_mac(&t, now, p->link.mac);
        clients_tell(&p->clients, &t, now);
        note("%s: the interface has another MAC; the station keeps its address", p->link.name);
    }
}

static void tell_fix(struct program *p, uint64_t now) {
    static const char *const sentences[] = {
        "no fix", "the fix is current", "the last fix is old: the position isn't accurate",
        "the last fix is too old, or there was none: nothing is sent",
    };
    struct text t;
    event_fix(&t, now, p->place.fix);
    clients_tell(&p->clients, &t, now);
    note("position: %s", sentences[p->place.fix]);
}

static void follow_gpsd(struct program *p, bool ready) {
    uint64_t now = clock_now();
    enum fix_state was = p->place.fix;
    bool changed = false;
    if (p->gpsd.fd < 0 && now >= p->gpsd.try_at) {
        gpsd_try(&p->gpsd, now);
    } else if (ready) {
        changed = gpsd_read(&p->gpsd, &p->place, now);
    }
    if (place_age(&p->place, now) || changed) {
        if (p->place.known) {
            place_tell(&p->place, &p->station, now);
        }
    }
    if (p->place.fix != was) {
        tell_fix(p, now);
    }
}

static uint64_t least(uint64_t a, uint64_t b) { return a < b ? a : b; }

/* The time of the next thing to do, in ms. */
static uint64_t due_of(const struct program *p, uint64_t now) {
    uint64_t beacon = station_may_send(&p->station) ? p->station.beacon_at : UINT64_MAX;
    uint64_t due = least(clock_now_at(beacon), p->steps.look_at);
    due = least(due, p->gpsd.fd < 0 ? p->gpsd.try_at : UINT64_MAX);
    due = least(due, place_ages_at(&p->place));
    due = least(due, p->station.security != NULL ? security_due(&p->security) : UINT64_MAX);
    due = least(due, clients_due(&p->clients, now));
    due = least(due, p->metrics.write_at);
    return least(due, notify_due());
}

static uint64_t from_to(uint64_t at, uint64_t due) { return due > at ? due - at : 0; }

static struct timespec time_of(uint64_t micros) {
    return (struct timespec){ .tv_sec = (time_t)(micros / 1000000),
                              .tv_nsec = (long)(micros % 1000000) * 1000 };
}

/* How long to wait: until something is due, or a frame is to be forwarded. */
static struct timespec wait_of(const struct program *p) {
    uint64_t now = clock_now(), due = due_of(p, now), forward = forwards_due(&p->forwards);
    uint64_t micros = due <= now ? 0 : least(due - now, LONGEST_WAIT) * 1000;
    if (forward != UINT64_MAX) {
        micros = least(micros, from_to(clock_micros(), forward));
    }
    if (p->station.release_at != UINT64_MAX) {
        micros = least(micros, from_to(clock_now_micros(), p->station.release_at));
    }
    return time_of(micros);
}

/* Waits, and fills in what is ready. */
static void wait_for(struct program *p, int signals, struct pollfd *on) {
    struct timespec wait = wait_of(p);
    on[SIGNALS] = (struct pollfd){ signals, POLLIN, 0 };
    on[LINK] = (struct pollfd){ p->link.fd, POLLIN, 0 };
    on[WATCH] = (struct pollfd){ p->link.watch, POLLIN, 0 };
    on[GPS] = (struct pollfd){ p->gpsd.fd, p->gpsd.connecting ? POLLOUT : POLLIN, 0 };
    on[ENTITY] = (struct pollfd){ security_fd(p->station.security), POLLIN, 0 };
    on[METRICS] = (struct pollfd){ p->metrics.listening, POLLIN, 0 };
    clients_poll(&p->clients, on + FIRST_CLIENT, clock_now());
    if (ppoll(on, ALL, &wait, NULL) < 0) {
        if (errno != EINTR) {
            fail(FAILED, "poll: %m");
        }
        for (int k = 0; k < ALL; k++) {
            on[k].revents = 0;
        }
    }
}

/* The station's own frames are sent before those that it forwards. Held frames are released only
 * once the frames that came up to their time have been read. */
static void turn(struct program *p, const struct pollfd *on) {
    bool releases = releases_are_due(&p->station);
    if (on[WATCH].revents != 0) {
        look_at_link(p);
    }
    if (on[LINK].revents != 0 || releases) {
        read_frames(&p->station);
    }
    steps_turn(&p->steps, &p->station, clock_now());
    follow_gpsd(p, on[GPS].revents != 0);
    if (p->station.security != NULL) {
        security_turn(&p->security, on[ENTITY].revents != 0);
    }
    station_beacon(&p->station, clock_now());
    clients_turn(&p->clients, on + FIRST_CLIENT);
    if (releases) {
        releases_turn(&p->station);
    }
    releases_plan(&p->station);
    forwards_send(&p->forwards, clock_micros());
    if (on[METRICS].revents != 0) {
        metrics_serve(&p->metrics, &p->station, clock_now());
    }
    metrics_write(&p->metrics, &p->station, clock_now());
    notify_alive(clock_now());
}

/* Waits for a frame or the security entity, up to this time in microseconds. */
static void wait_for_copies(struct program *p, uint64_t until) {
    struct timespec wait = time_of(from_to(clock_now_micros(), until));
    struct pollfd on[2] = { { p->link.fd, POLLIN, 0 },
                            { security_fd(p->station.security), POLLIN, 0 } };
    if (ppoll(on, 2, &wait, NULL) < 0) {
        on[1].revents = 0;
    }
    read_frames(&p->station);
    if (p->station.security != NULL) {
        security_turn(&p->security, on[1].revents != 0);
    }
}

/* At the end: held frames that are due soon are sent at their times, unless they are cancelled. */
static void release_last(struct program *p) {
    struct station *s = &p->station;
    uint64_t end = clock_now() + LAST_WAIT;
    releases_plan(s);
    while (s->release_due <= end && clock_now() <= end) {
        s->release_at = least(s->release_at, end * 1000);
        wait_for_copies(p, s->release_at);
        if (releases_are_due(s)) {
            releases_turn(s);
        }
        releases_plan(s);
    }
}

void loop(struct program *p) {
    struct pollfd on[ALL];
    int signals = open_signals();
    notify("READY=1\nSTATUS=Running");
    while (!clients_is_ended(&p->clients)) {
        wait_for(p, signals, on);
        if (on[SIGNALS].revents != 0 && read_signal(signals, p)) {
            break;
        }
        turn(p, on);
    }
    notify("STOPPING=1");
    release_last(p);
    clients_drain(&p->clients);
    forwards_send(&p->forwards, UINT64_MAX);
    close(signals);
}
