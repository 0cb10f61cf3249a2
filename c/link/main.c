/* geostation-link: one ITS station on a Linux interface, or on UDP. docs/LINK.md describes it. */
#define _GNU_SOURCE
#include "parts.h"
#include <fcntl.h>
#include <signal.h>
#include <string.h>
#include <sys/resource.h>
#include <unistd.h>

static struct program program;

/* A position from --position is accurate, and known from the start. */
static void start_place(struct place *p, const struct options *o) {
    p->known = p->fixed = o->placed;
    p->accurate = 1;
    p->latitude = o->station.latitude;
    p->longitude = o->station.longitude;
    p->timestamp = (uint32_t)clock_moment();
    p->fix_at = clock_now();
    p->fix_timeout = o->gps_timeout;
    p->pai_metres = o->pai_metres;
}

/* Keeps sockets from getting the number of a closed standard input, output or error. */
static void hold_standard_files(void) {
    int fd;
    do {
        fd = open("/dev/null", O_RDWR | O_CLOEXEC);
    } while (fd >= 0 && fd <= STDERR_FILENO);
    if (fd >= 0) {
        close(fd);
    }
}

static void look_at_limits(void) {
    struct rlimit files;
    if (getrlimit(RLIMIT_NOFILE, &files) == 0 && files.rlim_cur < OPEN_FILES) {
        fail(FAILED, "the limit of open files is %llu, and %d are needed: ulimit -n %d",
             (unsigned long long)files.rlim_cur, OPEN_FILES, OPEN_FILES);
    }
}

static void tell_default_of_mobility(const struct options *o) {
    if (!o->station.mobile && !o->stationary) {
        note("station type %d is a road-side unit: packets say that it does not move "
             "(--stationary, or --mobile if it moves)", ROAD_SIDE_UNIT);
    }
}

static void start(struct program *p) {
    signal(SIGHUP, SIG_IGN); /* until the options can be read again */
    look_at_limits();
    clock_start();
    notify_start();
    resolve_addresses(&p->options);
    link_open(&p->link, &p->options);
    forwards_start(&p->forwards, &p->link, p->options.forward_spread);
    start_place(&p->place, &p->options);
    p->station.link = &p->link;
    p->station.forwards = &p->forwards;
    p->station.place = &p->place;
    p->station.clients = &p->clients;
    p->station.steps = &p->steps;
    steps_start(&p->steps, &p->options);
    tell_default_of_mobility(&p->options);
    station_open(&p->station, &p->options);
    if (p->options.security != NULL) {
        p->station.security = &p->security;
        security_start(&p->security, &p->station, &p->options);
    }
    gpsd_start(&p->gpsd, &p->options);
    audit_start(&p->audit, p->options.audit);
    p->station.audit = &p->audit;
    p->clients.station = &p->station;
    clients_start(&p->clients, &p->options);
    metrics_start(&p->metrics, p->options.metrics);
}

/* What the start looks up: hosts and users. */
static void check(struct options *o) {
    uid_t user;
    resolve_addresses(o);
    if (o->security_user != NULL && !user_named(o->security_user, &user)) {
        fail(BAD_ARGUMENTS, "--security-user %s: there is no such user", o->security_user);
    }
    for (size_t k = 0; k < o->limited_count; k++) {
        (void)rights_user(&o->limited[k]);
    }
}

int main(int argc, char **argv) {
    struct program *p = &program;
    struct fault f;
    if (geostation_abi() != GEOSTATION_ABI) {
        fail(FAILED, "libgeostation has ABI %u, and this program was compiled for ABI %u",
             (unsigned)geostation_abi(), (unsigned)GEOSTATION_ABI);
    }
    hold_standard_files();
    p->argc = argc;
    p->argv = argv;
    if (!read_arguments(&p->options, argc, argv, &f)) {
        fail(f.status, "%s", f.text);
    }
    if (p->options.check) {
        check(&p->options);
        return 0;
    }
    start(p);
    loop(p);
    station_print_counts(&p->station, clock_now());
    clients_end(&p->clients);
    metrics_end(&p->metrics);
    security_end(&p->security);
    handles_free(&p->station);
    if (p->clients.output_fault != 0 && !clients_listens(&p->clients)) {
        fail(FAILED, "standard output: %s", strerror(p->clients.output_fault));
    }
    return 0;
}
