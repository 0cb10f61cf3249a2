/* A clock that a test sets, for one program: LD_PRELOAD=clock.so CLOCK_FILE=FILE. FILE has the
 * milliseconds by which the time of day is off, and whether it is synchronised: 0 or 1. If a third
 * number follows, all clocks stand at it, in ms since 1970. */
#define _GNU_SOURCE
#include <fcntl.h>
#include <stdio.h>
#include <stdlib.h>
#include <sys/syscall.h>
#include <sys/timex.h>
#include <time.h>
#include <unistd.h>

static const long long BOOTED = 1600000000000; /* ms since 1970, if clocks stand */

struct set {
    long long off, at;
    int synchronised;
};

static struct set read_file(void) {
    struct set s = { 0, 0, 1 };
    char text[64] = "";
    const char *path = getenv("CLOCK_FILE");
    int fd = path != NULL ? open(path, O_RDONLY | O_CLOEXEC) : -1;
    if (fd >= 0) {
        if (read(fd, text, sizeof text - 1) > 0) {
            (void)sscanf(text, "%lld %d %lld", &s.off, &s.synchronised, &s.at);
        }
        close(fd);
    }
    return s;
}

static void add(struct timespec *t, long long ms) {
    long long ns = t->tv_nsec + ms % 1000 * 1000000;
    t->tv_sec += ms / 1000 + (ns < 0 ? -1 : ns / 1000000000);
    t->tv_nsec = (long)(ns < 0 ? ns + 1000000000 : ns % 1000000000);
}

int clock_gettime(clockid_t id, struct timespec *out) {
    struct set s = read_file();
    int result = (int)syscall(SYS_clock_gettime, id, out);
    if (s.at != 0) {
        *out = (struct timespec){ 0 };
        add(out, id == CLOCK_REALTIME ? s.at : s.at - BOOTED);
    }
    if (id == CLOCK_REALTIME) {
        add(out, s.off);
    }
    return result;
}

int adjtimex(struct timex *t) {
    *t = (struct timex){ .tai = 37 };
    return read_file().synchronised ? TIME_OK : TIME_ERROR;
}
