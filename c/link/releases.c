/* Held frames (contention): the station says when the first of them is due. They are released at
 * that time plus a random one, so that stations with the same wait don't send at the same time. All
 * frames that are due by then are sent, without a second random time. */
#include "parts.h"

enum { RETRY = 1000 /* microseconds */ };

/* The random time is drawn again only if another frame is due first. */
void releases_plan(struct station *s) {
    uint64_t due = clock_now_at(geostation_next_due(s->handle));
    if (due != s->release_due) {
        s->release_due = due;
        s->release_at = due == UINT64_MAX ? due : due * 1000 + draw_below(s->release_spread);
    }
}

bool releases_are_due(const struct station *s) { return clock_now_micros() >= s->release_at; }

/* While the position is lost, nothing is sent. */
static void send_released(struct station *s, size_t length) {
    if (place_is_usable(s->place)) {
        (void)link_send(s->link, s->frame, length);
    } else {
        s->link->dropped++;
    }
}

/* A frame that is received after this is processed at this time at the earliest. */
static void release_all(struct station *s) {
    size_t length;
    uint64_t moment = clock_moment();
    s->last = moment > s->last ? moment : s->last;
    do {
        length = 0;
        ignore_status(geostation_release(s->handle, s->last, s->frame, sizeof s->frame, &length));
        if (length != 0) {
            send_released(s, length);
        }
    } while (length != 0);
}

/* To be called when the frames that are there have been received: they may cancel what is due. */
void releases_turn(struct station *s) {
    releases_plan(s);
    uint64_t due = s->release_due;
    if (!releases_are_due(s)) {
        return;
    }
    release_all(s);
    releases_plan(s);
    if (s->release_due == due) {
        s->release_at = clock_now_micros() + RETRY; /* the library refused the time */
    }
}
