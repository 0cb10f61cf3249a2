/* Two times in ms. `clock_now` is for waiting: the time of day is read once, and from then on the
 * time since the machine's start is added. The station's time is what it says in packets: TAI since
 * 2004-01-01. It differs from the other by the steps of the clock that were followed. A station
 * rejects each call that is earlier than its last one. */
#define _GNU_SOURCE
#include "parts.h"
#include <errno.h>
#include <string.h>
#include <sys/timex.h>
#include <time.h>

/* 2004-01-01T00:00:00Z in UTC seconds since 1970; TAI was 32 s ahead of UTC then, now 37 s. */
#define EPOCH INT64_C(1072915200)
enum { AHEAD_THEN = 32, AHEAD_SINCE = 5, TRIES = 5, CLOSE = 5 /* ms */ };

static int64_t ahead_ms;     /* of TAI before UTC, since the epoch */
static int64_t from_boot_ms; /* the time at which the machine started */
static int64_t steps_ms;     /* that were followed, in all */
static int64_t offset_ms;    /* the last offset that was read */

static int64_t micros_of(clockid_t id) {
    struct timespec t;
    clock_gettime(id, &t);
    return (int64_t)t.tv_sec * 1000000 + t.tv_nsec / 1000;
}

static int64_t ms_of(clockid_t id) { return micros_of(id) / 1000; }

static int64_t moment_of(int64_t realtime) { return realtime - EPOCH * 1000 + ahead_ms; }

struct reading {
    int64_t realtime, boot, apart; /* ms */
};

/* Reads the time of day and the time since the machine's start. On a busy machine the two may be
 * read far apart. So this is the best of some tries. */
static struct reading read_both(void) {
    struct reading best = { .apart = INT64_MAX };
    for (int k = 0; k < TRIES && best.apart > CLOSE; k++) {
        int64_t before = ms_of(CLOCK_BOOTTIME);
        int64_t realtime = ms_of(CLOCK_REALTIME);
        int64_t after = ms_of(CLOCK_BOOTTIME);
        if (after - before < best.apart) {
            best = (struct reading){ realtime, after, after - before };
        }
    }
    return best;
}

/* Asks the kernel whether the clock is synchronised, and how far TAI is ahead of UTC. Returns what
 * adjtimex does. */
static int ask_kernel(void) {
    struct timex kernel = { .modes = 0 };
    int state = adjtimex(&kernel);
    ahead_ms = (kernel.tai > 0 ? kernel.tai - AHEAD_THEN : AHEAD_SINCE) * INT64_C(1000);
    return state;
}

void clock_start(void) {
    int state = ask_kernel();
    if (state == TIME_ERROR) {
        note("the clock isn't synchronised: time stamps may be wrong");
    } else if (state < 0) {
        note("whether the clock is synchronised isn't known: %s", strerror(errno));
    }
    struct reading now = read_both();
    int64_t moment = moment_of(now.realtime);
    if (moment < 0) {
        note("the clock is before 2004: nothing is sent until it is set");
        moment = 0;
    }
    from_boot_ms = moment - now.boot;
}

uint64_t clock_now(void) {
    return (uint64_t)(from_boot_ms + ms_of(CLOCK_BOOTTIME));
}

uint64_t clock_moment_at(uint64_t now) { return now + (uint64_t)steps_ms; }

uint64_t clock_moment(void) { return clock_moment_at(clock_now()); }

uint64_t clock_now_at(uint64_t moment) {
    return moment == UINT64_MAX ? moment : moment - (uint64_t)steps_ms;
}

/* How far the time of day is ahead of the station's time. If the two were read too far apart,
 * nothing is learnt. Returns whether the time of day is one of the station's. */
static bool read_offset(void) {
    struct reading now = read_both();
    int64_t moment = moment_of(now.realtime);
    if (moment >= 0 && now.apart <= CLOSE) {
        offset_ms = moment - (from_boot_ms + now.boot + steps_ms);
    }
    return moment >= 0;
}

struct clock_state clock_look(void) {
    int state = ask_kernel();
    bool usable = read_offset();
    return (struct clock_state){ usable, usable && state >= 0 && state != TIME_ERROR, offset_ms };
}

void clock_step(int64_t ms) {
    steps_ms += ms;
    offset_ms -= ms;
}

uint64_t clock_micros(void) { return (uint64_t)micros_of(CLOCK_MONOTONIC); }

uint64_t clock_now_micros(void) {
    return (uint64_t)(from_boot_ms * 1000 + micros_of(CLOCK_BOOTTIME));
}

struct instant clock_instant(void) {
    struct reading now = read_both();
    return (struct instant){ (uint64_t)(from_boot_ms + now.boot), now.realtime };
}

uint64_t clock_of_utc(int64_t seconds, long nanoseconds) {
    int64_t moment = moment_of(seconds * 1000 + nanoseconds / 1000000);
    return moment < 0 ? 0 : (uint64_t)moment;
}
