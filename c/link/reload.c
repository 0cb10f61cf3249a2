/* Reads the options again while the program runs. */
#include "parts.h"

static void take_position(struct program *p, const struct options *new) {
    const struct options *old = &p->options;
    if (!new->placed || !old->placed
        || (new->station.latitude == old->station.latitude
            && new->station.longitude == old->station.longitude)) {
        return;
    }
    uint64_t now = clock_now();
    p->place.latitude = new->station.latitude;
    p->place.longitude = new->station.longitude;
    p->place.timestamp = (uint32_t)clock_moment_at(now);
    place_tell(&p->place, &p->station, now);
}

/* If the file is wrong, nothing changes. Only ports and the position are taken from it. The file of
 * --audit is opened again, so that it may be rotated. */
void reload(struct program *p) {
    static struct options new;
    struct fault f;
    notify("RELOADING=1");
    audit_reopen(&p->audit);
    if (!read_arguments(&new, p->argc, p->argv, &f)) {
        note("%s: the options stay as they were", f.text);
    } else {
        station_change_ports(&p->station, &p->options.ports, &new.ports);
        take_position(p, &new);
        p->options.ports = new.ports;
        p->options.station.latitude = new.station.latitude;
        p->options.station.longitude = new.station.longitude;
        note("ports and position were read again");
    }
    notify("READY=1");
}
