/* The other side of bench/link: frames on one interface, and the least that a program can do there.
 *
 *     wire sink IFACE                 takes frames by poll and recv, and does nothing
 *     wire echo IFACE                 sends each frame that came back: poll, recv, send
 *     wire flood IFACE HEX COUNT      a beacon, of 64 sources in turn, as fast as it goes
 *     wire ping IFACE HEX COUNT       a GBC with rising numbers, and its median way back in ns
 *
 * sink and echo print the frames that came at the end of their standard input. */
#define _GNU_SOURCE
#include <arpa/inet.h>
#include <linux/if_packet.h>
#include <net/if.h>
#include <poll.h>
#include <stdint.h>
#include <stdio.h>
#include <stdlib.h>
#include <string.h>
#include <sys/socket.h>
#include <time.h>
#include <unistd.h>

enum { MAC_END = 11, ADDRESS_END = 33, NUMBER = 26, ROOM = 2048, SOURCES = 64 };

static int open_link(const char *name) {
    int fd = socket(AF_PACKET, SOCK_RAW, 0), room = 4 << 20;
    struct sockaddr_ll at = { .sll_family = AF_PACKET, .sll_protocol = htons(0x8947),
                              .sll_ifindex = (int)if_nametoindex(name) };
    if (fd < 0 || at.sll_ifindex == 0 || bind(fd, (struct sockaddr *)&at, sizeof at) != 0) {
        perror(name);
        exit(3);
    }
    (void)setsockopt(fd, SOL_SOCKET, SO_RCVBUFFORCE, &room, sizeof room);
    return fd;
}

static int64_t now_ns(void) {
    struct timespec t;
    clock_gettime(CLOCK_MONOTONIC, &t);
    return (int64_t)t.tv_sec * 1000000000 + t.tv_nsec;
}

static size_t octets_of(const char *hex, uint8_t *octets) {
    size_t n = 0;
    for (unsigned value; sscanf(hex + 2 * n, "%2x", &value) == 1; n++) {
        octets[n] = (uint8_t)value;
    }
    return n;
}

static unsigned long take_frames(int fd, int back) {
    static uint8_t got[ROOM];
    unsigned long frames = 0;
    for (int k = 0; k < 64; k++) {
        ssize_t n = recv(fd, got, sizeof got, MSG_DONTWAIT);
        if (n < 0) {
            break;
        }
        frames++;
        if (back) {
            (void)!send(fd, got, (size_t)n, 0);
        }
    }
    return frames;
}

static int serve(int fd, int back) {
    struct pollfd on[] = { { fd, POLLIN, 0 }, { STDIN_FILENO, POLLIN, 0 } };
    unsigned long frames = 0;
    puts("ready");
    fflush(stdout);
    while (poll(on, 2, -1) > 0 && on[1].revents == 0) {
        frames += take_frames(fd, back);
    }
    printf("%lu\n", frames);
    return 0;
}

static int flood(int fd, const char *hex, long count) {
    uint8_t frame[ROOM];
    size_t n = octets_of(hex, frame);
    for (long k = 0; k < count; k++) {
        frame[MAC_END] = frame[ADDRESS_END] = (uint8_t)(k % SOURCES);
        (void)!send(fd, frame, n, 0);
    }
    return 0;
}

static int by_size(const void *a, const void *b) {
    int64_t x = *(const int64_t *)a, y = *(const int64_t *)b;
    return (x > y) - (x < y);
}

/* How long a frame took to come back, or -1 where it didn't. */
static int64_t once(int fd, uint8_t *frame, size_t n, long number) {
    uint8_t got[ROOM];
    struct pollfd ready = { fd, POLLIN, 0 };
    frame[NUMBER] = (uint8_t)(number >> 8);
    frame[NUMBER + 1] = (uint8_t)number;
    int64_t start = now_ns();
    (void)!send(fd, frame, n, 0);
    while (poll(&ready, 1, 200) > 0) {
        ssize_t m = recv(fd, got, sizeof got, MSG_DONTWAIT);
        if (m == (ssize_t)n && memcmp(got + NUMBER, frame + NUMBER, 12) == 0) {
            return now_ns() - start;
        }
    }
    return -1;
}

static int ping(int fd, const char *hex, long count) {
    uint8_t frame[ROOM];
    size_t n = octets_of(hex, frame), heard = 0;
    int64_t *took = calloc((size_t)count + 1, sizeof *took);
    for (long k = 0; took != NULL && k < count; k++) {
        took[heard] = once(fd, frame, n, k);
        heard += took[heard] >= 0;
        usleep(300);
    }
    if (took == NULL || heard == 0) {
        return 1;
    }
    qsort(took, heard, sizeof *took, by_size);
    printf("%lld %zu\n", (long long)took[heard / 2], heard);
    free(took);
    return 0;
}

int main(int argc, char **argv) {
    int fd = argc < 3 ? -1 : open_link(argv[2]);
    if (argc == 3) {
        return serve(fd, strcmp(argv[1], "echo") == 0);
    }
    if (argc != 5) {
        return 2;
    }
    return strcmp(argv[1], "flood") == 0 ? flood(fd, argv[3], atol(argv[4]))
                                         : ping(fd, argv[3], atol(argv[4]));
}
