/* Which of the received frames that wait is asked next, and which one makes way. The list has them
 * in the order in which they arrived. */
#include "parts.h"
#include <string.h>

enum { SENDER = 6 /* offset of its link address */ };
enum { BEHIND = 50 /* ms */, ANY_EACH = 4, GROUPS = 128 };

/* How well a frame stands: by the standing of its sender. Among accepted senders the one that was
 * asked about longest ago goes first, so none of them can flood the others. */
struct rank {
    enum standing standing;
    uint64_t turn;
};

static struct rank rank_of(const struct security *x, struct request *r, uint64_t now) {
    struct rank found;
    found.standing = senders_find(x->senders, r->frame + SENDER, now, &found.turn);
    r->standing = found.standing;
    return found;
}

void waiting_judge(const struct security *x, struct request *r, uint64_t now) {
    r->sender = kept_hash(r->frame + SENDER, 6);
    (void)rank_of(x, r, now);
}

static bool is_better(struct rank a, struct rank b) {
    return a.standing != b.standing ? a.standing > b.standing : a.turn < b.turn;
}

/* The oldest and the newest frame that may be asked, among those with the best rank. */
struct best {
    size_t oldest, newest;
    struct rank rank;
};

static struct best find_best(const struct security *x, bool behind, uint64_t now) {
    struct best b = { x->verifies.count, x->verifies.count, { SENDER_REFUSED, 0 } };
    for (size_t k = 0; k < x->verifies.count; k++) {
        struct request *r = x->verifies.all[k];
        if (requests_are_asked(x, r)) {
            continue;
        }
        struct rank rank = behind ? rank_of(x, r, now) : (struct rank){ SENDER_UNKNOWN, 0 };
        if (b.oldest == x->verifies.count || is_better(rank, b.rank)) {
            b = (struct best){ k, k, rank };
        } else if (!is_better(b.rank, rank)) {
            b.newest = k;
        }
    }
    return b;
}

/* A frame waited for long, or all places are taken, so that frames are dropped. */
static bool is_behind(const struct security *x, size_t k, uint64_t now) {
    return x->verifies.count >= VERIFIES
        || (k < x->verifies.count && now > x->verifies.all[k]->at + BEHIND);
}

/* Whoever forges the address of a neighbour makes its frames go last, and can time his own. So each
 * fourth question is for any frame, at random. */
static size_t find_any(const struct security *x) {
    size_t k = draw_below((uint32_t)x->verifies.count);
    return requests_are_asked(x, x->verifies.all[k]) ? x->verifies.count : k;
}

/* Frames are asked in their order as long as the entity keeps up. Once it is behind, their rank
 * decides, and then the newest goes first: in their order all would be old when they are asked. */
size_t waiting_next(const struct security *x, uint64_t now) {
    bool behind = is_behind(x, 0, now);
    size_t k = behind && x->turns % ANY_EACH == 0 ? find_any(x) : x->verifies.count;
    if (k < x->verifies.count) {
        return k;
    }
    struct best b = find_best(x, behind, now);
    return is_behind(x, b.oldest, now) ? b.newest : b.oldest;
}

/* How many frames of the worst standing wait, in groups of senders. Returns that standing. */
static enum standing count_worst(const struct security *x, uint8_t counts[GROUPS]) {
    enum standing worst = SENDER_ACCEPTED;
    for (size_t k = 0; k < x->verifies.count; k++) {
        const struct request *r = x->verifies.all[k];
        if (r->standing < worst) {
            memset(counts, 0, GROUPS);
            worst = r->standing;
        }
        if (r->standing == worst) {
            counts[r->sender % GROUPS]++;
        }
    }
    return worst;
}

/* Among the frames with the worst standing, the oldest one of the sender with most of them. */
size_t waiting_worst(const struct security *x) {
    uint8_t counts[GROUPS] = { 0 };
    enum standing worst = count_worst(x, counts);
    size_t found = 0, most = 0;
    for (size_t k = 0; k < x->verifies.count; k++) {
        const struct request *r = x->verifies.all[k];
        if (counts[r->sender % GROUPS] > most && r->standing == worst) {
            most = counts[r->sender % GROUPS];
            found = k;
        }
    }
    return found;
}
