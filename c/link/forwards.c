/* Frames that the station forwards. All stations that received a broadcast frame would forward it
 * at the same time and collide, so each waits for a random time. A frame to one station is
 * forwarded by one only, so it is sent at once. The station's own frames never wait. A frame whose
 * lifetime has passed since it was received is not sent. */
#define _GNU_SOURCE
#include "parts.h"
#include <string.h>

void forwards_start(struct forwards *w, struct link *l, uint32_t spread) {
    w->link = l;
    w->spread = spread;
    w->count = 0;
    for (size_t k = 0; k < FORWARDS; k++) {
        w->order[k] = (uint16_t)k;
    }
}

static bool is_broadcast(const uint8_t *frame) { return (frame[0] & 1) != 0; }

void forwards_put(struct forwards *w, const uint8_t *frame, size_t length, uint64_t since) {
    if (w->spread == 0 || !is_broadcast(frame)) {
        (void)link_send_in_time(w->link, frame, length, since);
        return;
    }
    if (w->count == FORWARDS) {
        w->dropped++;
        return;
    }
    uint16_t at = w->order[w->count++];
    w->due[at] = clock_micros() + draw_below(w->spread);
    w->since[at] = since;
    w->lengths[at] = (uint16_t)length;
    memcpy(w->frames[at], frame, length);
}

/* Returns the used place that is due first. At least one is used. */
static size_t first(const struct forwards *w) {
    size_t found = 0;
    for (size_t k = 1; k < w->count; k++) {
        if (w->due[w->order[k]] < w->due[w->order[found]]) {
            found = k;
        }
    }
    return found;
}

uint64_t forwards_due(const struct forwards *w) {
    return w->count == 0 ? UINT64_MAX : w->due[w->order[first(w)]];
}

void forwards_send(struct forwards *w, uint64_t until) {
    while (w->count != 0) {
        size_t k = first(w);
        uint16_t at = w->order[k];
        if (w->due[at] > until) {
            return;
        }
        (void)link_send_in_time(w->link, w->frames[at], w->lengths[at], w->since[at]);
        w->order[k] = w->order[--w->count];
        w->order[w->count] = at;
    }
}
