/* The command line: settings, and the options that have no place in a configuration file. */
#define _GNU_SOURCE
#include "parts.h"
#include <getopt.h>
#include <stdio.h>
#include <stdlib.h>
#include <string.h>

static const char usage[] =
    "geostation-link: one ITS station on a network interface, or on UDP\n"
    "\n"
    "  geostation-link (--interface IFACE | --udp LOCAL:PORT --to HOST:PORT ..)\n"
    "      (--position LAT,LON | --gpsd [HOST:PORT]) [option ..]\n"
    "\n"
    "The link:\n"
    "  --interface IFACE     Send and receive on this interface; requires CAP_NET_RAW\n"
    "  --wait-interface      Wait for the interface if it does not exist yet\n"
    "  --udp LOCAL:PORT      Use UDP: one datagram per frame; a multicast group is joined\n"
    "  --to HOST:PORT        Send the datagrams there; may be repeated, up to 16 times\n"
    "  --forward-spread MS   Wait for a random time below MS milliseconds before a broadcast\n"
    "                        frame is forwarded, 0 to 1000; 0 turns it off [default: 2]\n"
    "\n"
    "Limits, each 0 to 1000000; 0 turns a limit off:\n"
    "  --forward-rate N      Forward at most N frames per second [default: 100]\n"
    "  --forward-burst N     Forward at most N frames at once [default: 50]\n"
    "  --source-rate N       Forward at most N frames per second of each source [default: 20]\n"
    "  --source-burst N      Forward at most N frames at once of each source [default: 20]\n"
    "  --own-rate N          Send at most N own packets per second, beacons not counted\n"
    "                        [default: 50]\n"
    "  --own-burst N         Send at most N own packets at once [default: 50]\n"
    "  --hop-cap N           Don't forward packets with more hops left, 0 to 255 [default: 10]\n"
    "  --deliver-once N      Don't deliver or forward a packet for an area again within its\n"
    "                        lifetime, 0 or 1 [default: 1]\n"
    "\n"
    "How a geobroadcast is forwarded inside its area:\n"
    "  --area-forwarding METHOD\n"
    "                        simple: at once; contention: after a wait, unless others have sent\n"
    "                        the same frame meanwhile [default: simple]\n"
    "  --contention-max MS   Greatest wait, 1 to 1000 ms [default: 100]\n"
    "  --contention-min MS   Least wait, 0 to 1000 ms, at most the greatest [default: 1]\n"
    "  --contention-range M  Wait least if the sender is that far away, 1 to 65535 m\n"
    "                        [default: 1000]\n"
    "  --contention-copies N\n"
    "                        Copies of other stations that cancel a frame, 1 to 3 [default: 2]\n"
    "\n"
    "The station:\n"
    "  --position LAT,LON    Position in degrees, with up to 7 decimals\n"
    "  --gpsd [HOST:PORT]    Take the position from gpsd [default: 127.0.0.1:2947]\n"
    "  --gps-timeout S       Stop sending if the last fix is older, 1 to 3600 s [default: 60]\n"
    "  --pai-metres N        Set PAI if the error of the fix is at most N metres, 1 to 1000\n"
    "                        [default: 10]\n"
    "  --clock-synchronised  Send only while the clock is synchronised\n"
    "  --clock-follow        Follow steps of the clock after the first own packet too\n"
    "  --address HEX16       GeoNetworking address; required with --udp\n"
    "  --station-type N      Make the address from this type, 0 to 31, and the interface's MAC\n"
    "                        [default: 15]\n"
    "  --stationary          Mark packets as those of a station that does not move; default of\n"
    "                        station type 15, a road-side unit\n"
    "  --mobile              Mark packets as those of a station that moves; default of all others\n"
    "  --first-number N      Sequence number of the first packet, 0 to 65535 [default: random]\n"
    "  --capacity N          Size of the location table, 1 to 4096 [default: 4096]\n"
    "  --remember N          Length of the duplicate packet lists, 1 to 64 [default: 64]\n"
    "  --port N              Open a port (BTP-B) at the start; may be repeated, up to 64 times\n"
    "\n"
    "Signed packets:\n"
    "  --security PATH       Sign and verify packets by the security entity at this UNIX socket\n"
    "  --security-user NAME  The user that may run the entity, besides root and the user of this\n"
    "                        program\n"
    "  --security-timeout MS Wait for each answer of the entity, 1 to 10000 ms, and longer if its\n"
    "                        answers take long [default: 100]\n"
    "  --security-workers N  Requests that the entity works on at a time, 1 to 12 [default: 1]\n"
    "\n"
    "Applications and operators:\n"
    "  --listen PATH         Serve applications at a UNIX socket too, up to 16 at a time\n"
    "  --listen-limited RIGHTS\n"
    "                        Serve applications with limited rights: a PATH, and then send,\n"
    "                        listen, port=N (may be repeated) and user=NAME; up to 8 times\n"
    "  --client-timeout S    Close a client that is idle for S seconds if others wait;\n"
    "                        0 turns it off [default: 60]\n"
    "  --metrics PATH        Offer counts for Prometheus: in a file if PATH ends in .prom,\n"
    "                        otherwise at a UNIX socket\n"
    "  --audit PATH          Write a line for each packet of an application that was sent, to\n"
    "                        this file; - is standard error\n"
    "  --config FILE         Take options from a file, one per line: NAME = VALUE\n"
    "  --check-config        Check the options, and end\n"
    "  --version             Print the version\n"
    "  --help                Print this help\n"
    "\n"
    "Applications send and get lines of JSON. Standard input and output serve as one.\n"
    "SIGHUP reads the file of --config again, for ports and the position. SIGUSR1 prints counts.\n"
    "Exit status: 0 ended, 2 bad arguments, 3 a system call failed.\n";

enum { CONFIG = SETTINGS, CHECK_CONFIG, VERSION, HELP, OPTIONS };
enum { FIRST_OPTION = 256 /* getopt_long returns characters for what it rejects */ };

/* Fills the table for getopt_long. The settings come first, at their own indices. */
static void list_options(struct option table[OPTIONS + 1]) {
    for (size_t k = 0; k < SETTINGS; k++) {
        table[k] = (struct option){ settings[k].name, settings[k].argument, NULL, 0 };
    }
    table[CONFIG] = (struct option){ "config", required_argument, NULL, 0 };
    table[CHECK_CONFIG] = (struct option){ "check-config", no_argument, NULL, 0 };
    table[VERSION] = (struct option){ "version", no_argument, NULL, 0 };
    table[HELP] = (struct option){ "help", no_argument, NULL, 0 };
    table[OPTIONS] = (struct option){ NULL, 0, NULL, 0 };
    for (int k = 0; k < OPTIONS; k++) {
        table[k].val = FIRST_OPTION + k;
    }
}

static _Noreturn void print_and_end(bool help) {
    if (help) {
        fputs(usage, stdout);
    } else {
        printf("geostation-link %s\n", geostation_version());
    }
    exit(fflush(stdout) == 0 ? 0 : FAILED);
}

static bool take_option(struct options *o, int option, struct setting *s, struct fault *f) {
    switch (option) {
    case CONFIG: return read_config(o, s->value, f);
    case CHECK_CONFIG: o->check = true; return true;
    case VERSION: case HELP: print_and_end(option == HELP);
    default: s->row = &settings[option]; return s->row->take(o, s, f);
    }
}

/* The library refuses limits with which a source would be forgotten before its bucket is full. */
static bool remembers_sources(const struct geostation_config *c) {
    if (c->source_rate == 0 || c->source_burst == 0) {
        return true;
    }
    return c->forward_rate != 0 && c->forward_burst != 0 && c->forward_burst < 256
        && (uint64_t)c->source_burst * c->forward_rate
            <= (uint64_t)(256 - c->forward_burst) * c->source_rate;
}

/* Do two of the sockets, or the files of metrics and of --audit, have one path? */
static bool shares_path(const struct options *o) {
    const char *paths[LISTENERS + 3] = { o->listen, o->metrics, o->security, o->audit };
    size_t count = 4;
    for (size_t k = 0; k < o->limited_count; k++) {
        paths[count++] = o->limited[k].path;
    }
    for (size_t k = 0; k < count; k++) {
        for (size_t i = 0; i < k; i++) {
            if (paths[k] != NULL && paths[i] != NULL && strcmp(paths[k], paths[i]) == 0) {
                return true;
            }
        }
    }
    return false;
}

/* Which options are required, and which exclude each other. */
static bool judge(const struct options *o, struct fault *f) {
    if ((o->interface != NULL) == (o->udp != NULL)) {
        return set_fault(f, BAD_ARGUMENTS, "either --interface or --udp LOCAL:PORT is needed");
    }
    if ((o->udp != NULL) != (o->peer_count != 0)) {
        return set_fault(f, BAD_ARGUMENTS, "--udp and --to must be given together");
    }
    if (o->placed == (o->gpsd != NULL)) {
        return set_fault(f, BAD_ARGUMENTS, "either --position LAT,LON or --gpsd is needed");
    }
    if (o->addressed && o->typed) {
        return set_fault(f, BAD_ARGUMENTS, "--address and --station-type cannot be given together");
    }
    if (o->stationary && o->mobile) {
        return set_fault(f, BAD_ARGUMENTS, "--stationary and --mobile cannot be given together");
    }
    if (o->udp != NULL && !o->addressed) {
        return set_fault(f, BAD_ARGUMENTS, "--udp needs --address HEX16, as UDP has no MAC");
    }
    if (o->security == NULL && (o->security_user != NULL || o->tuned_security)) {
        return set_fault(f, BAD_ARGUMENTS, "--security-user, --security-timeout and "
                         "--security-workers need --security");
    }
    if (shares_path(o)) {
        return set_fault(f, BAD_ARGUMENTS, "--listen, --listen-limited, --metrics, --security and "
                         "--audit need a path each");
    }
    if (!remembers_sources(&o->station)) {
        return set_fault(f, BAD_ARGUMENTS, "a limit of each source needs a limit of all that is "
                         "low enough: see --forward-rate and --forward-burst, or set "
                         "--source-rate 0");
    }
    if (o->station.contention_min > o->station.contention_max) {
        return set_fault(f, BAD_ARGUMENTS, "--contention-min %u: over --contention-max",
                         o->station.contention_min);
    }
    return true;
}

/* By the station type in the address. */
static bool is_road_side_unit(const struct options *o) {
    uint64_t type = o->addressed ? o->station.address >> 58 & 31 : o->station_type;
    return type == ROAD_SIDE_UNIT;
}

/* An optional value may be the next word. */
static const char *value_of(const struct option *o, int argc, char **argv) {
    bool left_out = o->has_arg == optional_argument && optarg == NULL;
    return left_out && optind < argc && argv[optind][0] != '-' ? argv[optind++] : optarg;
}

static bool take_words(struct options *o, int argc, char **argv, struct fault *f) {
    struct option table[OPTIONS + 1];
    list_options(table);
    optind = 0; /* this may be called again */
    for (int found; (found = getopt_long(argc, argv, "", table, NULL)) != -1;) {
        if (found < FIRST_OPTION) {
            return set_fault(f, BAD_ARGUMENTS, "--help lists the options");
        }
        int k = found - FIRST_OPTION;
        const char *value = value_of(&table[k], argc, argv);
        struct setting s = { NULL, 0, table[k].name, value, NULL };
        if (!take_option(o, k, &s, f)) {
            return false;
        }
    }
    return optind >= argc
        || set_fault(f, BAD_ARGUMENTS, "unexpected argument '%s'; --help lists the options",
                     argv[optind]);
}

bool read_arguments(struct options *o, int argc, char **argv, struct fault *f) {
    *o = (struct options){
        .station_type = ROAD_SIDE_UNIT, .forward_spread = 2000, .client_timeout = 60000,
        .gps_timeout = 60000, .pai_metres = 10, .security_timeout = 100, .security_workers = 1,
    };
    geostation_config_init(&o->station);
    o->station.capacity = 4096;
    o->station.remember = 64;
    bool good = take_words(o, argc, argv, f) && judge(o, f);
    o->station.mobile = !o->stationary && (o->mobile || !is_road_side_unit(o));
    return good;
}
