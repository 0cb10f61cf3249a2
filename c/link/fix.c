/* A report of gpsd (TPV): one line of JSON, read by json.c. */
#define _GNU_SOURCE
#include "parts.h"
#include <math.h>
#include <stdlib.h>
#include <string.h>

enum { JUMP_OVER = 100 /* metres */, FASTEST = 16383 /* 0.01 m/s */ };
enum { OLD_AFTER = 5000, AHEAD_AT_MOST = 5000, DOUBTED_FOR = 5000 /* ms */ };
enum { NO_FIX, FIX_2D = 2, FIX_3D = 3 };

/* Reads the digits at `at` as a number; -1 if one of them is not a digit. */
static int digits_of(const char *at, size_t count) {
    int value = 0;
    for (size_t k = 0; k < count; k++) {
        if (at[k] < '0' || at[k] > '9') {
            return -1;
        }
        value = value * 10 + at[k] - '0';
    }
    return value;
}

/* Converts a date of the Gregorian calendar to days since 1970-01-01. */
static int64_t days_of(int year, int month, int day) {
    int y = month > 2 ? year : year - 1;
    int shifted = month > 2 ? month - 3 : month + 9; /* months since March */
    int64_t days = (int64_t)y * 365 + y / 4 - y / 100 + y / 400;
    return days + (153 * shifted + 2) / 5 + day - 1 - 719468;
}

/* Reads a time of the form YYYY-MM-DDTHH:MM:SS[.fff]Z. */
static bool time_of(const char *text, size_t length, uint64_t *moment) {
    if (length < 20 || text[4] != '-' || text[7] != '-' || text[10] != 'T' || text[13] != ':'
        || text[16] != ':' || text[length - 1] != 'Z') {
        return false;
    }
    int year = digits_of(text, 4), month = digits_of(text + 5, 2), day = digits_of(text + 8, 2);
    int hour = digits_of(text + 11, 2), minute = digits_of(text + 14, 2);
    int second = digits_of(text + 17, 2);
    if (year < 1970 || month < 1 || month > 12 || day < 1 || day > 31 || hour < 0 || hour > 23
        || minute < 0 || minute > 59 || second < 0 || second > 60) {
        return false;
    }
    long nanoseconds = 0, scale = 100000000;
    if (length != 20 && (text[19] != '.' || length == 21 || digits_of(text + 20, 1) < 0)) {
        return false;
    }
    for (size_t k = 20; k + 1 < length; k++, scale /= 10) {
        if (digits_of(text + k, 1) < 0) {
            return false;
        }
        nanoseconds += digits_of(text + k, 1) * scale;
    }
    int64_t seconds = days_of(year, month, day) * 86400 + hour * 3600 + minute * 60 + second;
    *moment = clock_of_utc(seconds, nanoseconds);
    return true;
}

/* strtod ends with the number: in JSON, no character that may follow is part of a number. */
static void take_number(struct fix *f, const struct json_member *m) {
    const struct {
        const char *name;
        double *value;
    } all[] = {
        { "mode", &f->mode },   { "lat", &f->latitude }, { "lon", &f->longitude },
        { "speed", &f->speed }, { "track", &f->track },  { "eph", &f->eph },
        { "epx", &f->epx },     { "epy", &f->epy },
    };
    for (size_t k = 0; k < sizeof all / sizeof *all; k++) {
        if (json_is_key(m, all[k].name)) {
            *all[k].value = strtod(m->text, NULL);
        }
    }
}

/* The line has a 0 after its end. If a key comes twice, the last one counts. */
bool fix_read(struct fix *f, const char *line, size_t length) {
    struct json j;
    struct json_member m;
    enum json_step step;
    bool report = false;
    *f = (struct fix){ .mode = 0, .latitude = NAN, .longitude = NAN, .speed = NAN, .track = NAN,
                       .eph = NAN, .epx = NAN, .epy = NAN };
    if (!json_open(&j, line, length)) {
        return false;
    }
    while ((step = json_next(&j, &m)) == JSON_MEMBER) {
        if (m.kind == JSON_NUMBER) {
            take_number(f, &m);
        } else if (m.kind == JSON_TEXT && json_is_key(&m, "class")) {
            report = m.length == 3 && memcmp(m.text, "TPV", 3) == 0;
        } else if (m.kind == JSON_TEXT && json_is_key(&m, "time")) {
            f->timed = time_of(m.text, m.length, &f->moment);
        }
    }
    return step == JSON_END && report;
}

/* Receivers without a fix report latitude 0 and longitude 0. */
static bool is_position(const struct fix *f) {
    return f->mode >= FIX_2D && fabs(f->latitude) <= 90 && fabs(f->longitude) <= 180
        && (f->latitude != 0 || f->longitude != 0);
}

/* A missing error estimate counts as accurate, a missing time does not. */
static bool is_accurate(const struct fix *f, const struct place *p) {
    double error = isfinite(f->eph) ? f->eph : hypot(f->epx, f->epy);
    return f->mode >= FIX_3D && f->timed && !(error > p->pai_metres);
}

/* Metres from the last position, on a sphere. */
static double distance(const struct fix *f, const struct place *p) {
    const double radian = 3.14159265358979323846 / 180, diameter = 2 * 6371000.0;
    double from = p->latitude / 1e7 * radian, to = f->latitude * radian;
    double north = sin((to - from) / 2);
    double east = sin((f->longitude - p->longitude / 1e7) * radian / 2);
    return diameter * asin(fmin(1, sqrt(north * north + cos(from) * cos(to) * east * east)));
}

/* Is it farther from the last position than a station moves in that time, at the fastest that a
 * packet can say? Then this fix and those of the next seconds aren't accurate. */
static void look_for_jump(const struct fix *f, struct place *p, uint64_t at, uint64_t now) {
    double seconds = fabs((double)(int64_t)(at - p->fix_at)) / 1000;
    double metres = p->known ? distance(f, p) : 0;
    if (metres <= JUMP_OVER + seconds * FASTEST / 100) {
        return;
    }
    if (now >= p->doubted_until) {
        note("gpsd: a fix is %.0f m from the last one: it isn't accurate for %d s", metres,
             DOUBTED_FOR / 1000);
    }
    p->doubted_until = now + DOUBTED_FOR;
}

static void take_motion(struct place *p, const struct fix *f) {
    p->speed = (int16_t)(isfinite(f->speed) ? fmin(round(fabs(f->speed) * 100), FASTEST) : 0);
    if (f->track >= 0 && f->track <= 360) {
        p->heading = (uint16_t)(lround(f->track * 10) % 3600);
    }
}

/* Is the time of the report credible? A time far in the future is not: other stations would treat
 * all later packets of this station as older ones. */
static bool is_credible(const struct fix *f, const struct place *p, uint64_t moment) {
    return !f->timed
        || (f->moment <= moment + AHEAD_AT_MOST && moment < f->moment + p->fix_timeout);
}

/* Reports it once, until a report is credible again. */
static void report_time(const struct fix *f, struct place *p, uint64_t moment) {
    bool ahead = f->moment > moment;
    uint64_t off = ahead ? f->moment - moment : moment - f->moment;
    if (!p->time_reported) {
        note("gpsd: the time of a report is %llu s %s the clock: it is ignored",
             (unsigned long long)(off / 1000), ahead ? "ahead of" : "behind");
    }
    p->time_reported = true;
}

/* If a report has no position or no credible time, the old position is no longer accurate. */
bool fix_take(const struct fix *f, struct place *p, uint64_t now) {
    uint64_t moment = clock_moment_at(now);
    bool credible = is_credible(f, p, moment);
    if (!credible) {
        report_time(f, p, moment);
    }
    if (!is_position(f) || !credible) {
        bool changed = p->known && p->accurate;
        p->accurate = 0;
        return changed;
    }
    uint64_t age = f->timed && f->moment < moment ? moment - f->moment : 0;
    look_for_jump(f, p, now - age, now);
    p->time_reported = false;
    p->known = true;
    p->fix_at = now - age;
    p->fix = now - p->fix_at < OLD_AFTER ? FIX_CURRENT : FIX_OLD;
    p->timestamp = (uint32_t)(f->timed ? f->moment : moment);
    p->accurate = p->fix == FIX_CURRENT && is_accurate(f, p) && now >= p->doubted_until;
    p->latitude = (int32_t)lround(f->latitude * 1e7);
    p->longitude = (int32_t)lround(f->longitude * 1e7);
    take_motion(p, f);
    return true;
}
