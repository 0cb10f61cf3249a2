/* The connection to gpsd. Nothing here waits: a connection that fails or ends is tried again, and
 * what gpsd sends is read as it comes. */
#define _GNU_SOURCE
#include "parts.h"
#include <errno.h>
#include <string.h>
#include <unistd.h>

enum { TRY_EACH = 2000 /* ms */ };

void gpsd_start(struct gpsd *g, const struct options *o) {
    g->fd = -1;
    g->wanted = o->gpsd != NULL;
    g->at = &o->gpsd_at;
    g->try_at = g->wanted ? 0 : UINT64_MAX;
}

static void hang_up(struct gpsd *g, uint64_t now, const char *why) {
    if (g->fd >= 0) {
        close(g->fd);
    }
    g->fd = -1;
    g->connecting = false;
    g->try_at = now + TRY_EACH;
    if (!g->reported) {
        note("gpsd: %s: trying again each %d s", why, TRY_EACH / 1000);
    }
    g->reported = true;
}

/* Begins to connect. */
void gpsd_try(struct gpsd *g, uint64_t now) {
    g->length = 0;
    g->too_long = false;
    g->connecting = true;
    g->fd = socket(g->at->at.ss_family, SOCK_STREAM | SOCK_NONBLOCK | SOCK_CLOEXEC, 0);
    if (g->fd < 0 || (connect(g->fd, (const struct sockaddr *)&g->at->at, g->at->length) != 0
                      && errno != EINPROGRESS)) {
        hang_up(g, now, strerror(errno));
    }
}

/* Connected, or refused: requests reports. */
static void ask(struct gpsd *g, uint64_t now) {
    static const char watch[] = "?WATCH={\"enable\":true,\"json\":true};\n";
    int why = 0;
    socklen_t size = sizeof why;
    g->connecting = false;
    if (getsockopt(g->fd, SOL_SOCKET, SO_ERROR, &why, &size) != 0 || why != 0) {
        hang_up(g, now, strerror(why != 0 ? why : errno));
    } else if (send(g->fd, watch, sizeof watch - 1, MSG_NOSIGNAL) != (ssize_t)(sizeof watch - 1)) {
        hang_up(g, now, "it accepts no request");
    } else if (g->reported) {
        note("gpsd: connected");
        g->reported = false;
    }
}

static bool end_line(struct gpsd *g, struct place *p, uint64_t now) {
    struct fix f;
    bool whole = !g->too_long;
    size_t length = g->length;
    g->line[length] = 0;
    g->length = 0;
    g->too_long = false;
    return whole && fix_read(&f, g->line, length) && fix_take(&f, p, now);
}

/* At most one block in each turn of the loop, so that no stream holds up the station. */
bool gpsd_read(struct gpsd *g, struct place *p, uint64_t now) {
    char got[4096];
    bool changed = false;
    if (g->connecting) {
        ask(g, now);
        return false;
    }
    ssize_t n = recv(g->fd, got, sizeof got, MSG_DONTWAIT);
    for (ssize_t k = 0; k < n; k++) {
        if (got[k] == '\n') {
            changed |= end_line(g, p, now);
        } else if (g->length < sizeof g->line - 1) {
            g->line[g->length++] = got[k];
        } else {
            g->too_long = true;
        }
    }
    if (n == 0) {
        hang_up(g, now, "the connection ended");
    } else if (n < 0 && errno != EAGAIN && errno != EINTR) {
        hang_up(g, now, strerror(errno));
    }
    return changed;
}
