/* How many requests the entity has at a time, and how long is waited for its answers. What waits at
 * the entity can't be dropped, and own packets come after it. So the entity has as few requests as
 * keep it busy: a window, which grows while answers come soon and shrinks while they come late. */
#include "parts.h"

/* Microseconds from a request to its answer. Between the two the window stays as it is. */
enum { SOON = 25000, LATE = 2 * SOON };
/* An answer may take so many times as long as it usually does, up to LONGEST. */
enum { PATIENCE = 4, LONGEST = 10000 /* ms */ };
enum { SMOOTH = 8 };

void pace_start(struct pace *p) {
    p->took = 0;
    p->window = p->workers < VERIFIES_ASKED ? p->workers + 1 : VERIFIES_ASKED;
}

/* A slow entity gets more time. */
uint64_t pace_timeout(const struct pace *p) {
    uint64_t usual = p->took * PATIENCE / 1000;
    usual = usual < LONGEST ? usual : LONGEST;
    return p->timeout > usual ? p->timeout : usual;
}

/* One answer that took very long, as after a pause of the entity, does not count for more than some
 * timeouts. */
static void smooth(struct pace *p, uint64_t took) {
    uint64_t most = pace_timeout(p) * PATIENCE * 1000;
    took = took == 0 ? 1 : took < most ? took : most;
    p->took = p->took == 0 ? took : (p->took * (SMOOTH - 1) + took) / SMOOTH;
}

/* An answer came `took` microseconds after its request, which was asked with this window. An answer
 * to a request of another window says nothing about the present one. */
void pace_answer(struct pace *p, uint64_t took, uint32_t window, bool more_wait) {
    smooth(p, took);
    if (window != p->window) {
        return;
    }
    if (took <= SOON && more_wait && p->window < VERIFIES_ASKED) {
        p->window++;
    } else if (took > LATE && p->window > p->workers) {
        p->window--;
    }
}
