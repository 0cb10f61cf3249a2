/* Sends frames that no one asked for, at a rate, for a time:
 *
 *     flood IFACE RATE SECONDS CHANGES HEX ..
 *
 * The frames HEX are sent in turn, each changed by the letters of CHANGES:
 *     s  another source, in the link's header and in the packet of a BEACON or SHB
 *     S  the same for a GBC or GAC
 *     n  another sequence number, of a GBC or GAC
 *     f  one to three octets are random
 *     c  the frame is cut short
 *     r  all after the EtherType is random, and the length is 14 to 1500
 *     m  all after the Basic Header is random: another message, of a secured frame
 *     g  the last 32 octets are random: another signature
 *     -  none
 * RATE is in frames per second; 0: as fast as it goes. Prints how many were sent. */
#define _GNU_SOURCE
#include <arpa/inet.h>
#include <linux/if_packet.h>
#include <net/if.h>
#include <stdint.h>
#include <stdio.h>
#include <stdlib.h>
#include <string.h>
#include <sys/socket.h>
#include <time.h>

enum { ROOM = 10000, FRAMES = 16, HEADER = 14, MAC = 6, SHORT_SOURCE = 26, LONG_SOURCE = 30,
       NUMBER = 26, BASIC_END = 18, SIGNATURE = 32 };

struct frame {
    uint8_t octets[ROOM];
    size_t length;
};

static struct frame made[FRAMES], sent;
static size_t made_count;
static uint64_t state = 88172645463325252u;

static uint32_t draw(void) {
    state ^= state << 13;
    state ^= state >> 7;
    state ^= state << 17;
    return (uint32_t)(state >> 16);
}

static int64_t now_ns(void) {
    struct timespec t;
    clock_gettime(CLOCK_MONOTONIC, &t);
    return (int64_t)t.tv_sec * 1000000000 + t.tv_nsec;
}

static int open_link(const char *name) {
    struct sockaddr_ll at = { .sll_family = AF_PACKET, .sll_ifindex = (int)if_nametoindex(name) };
    int fd = socket(AF_PACKET, SOCK_RAW, 0);
    if (fd < 0 || at.sll_ifindex == 0 || bind(fd, (struct sockaddr *)&at, sizeof at) != 0) {
        perror(name);
        exit(3);
    }
    return fd;
}

static void read_frame(const char *hex, struct frame *f) {
    unsigned value;
    for (f->length = 0; f->length < ROOM && sscanf(hex + 2 * f->length, "%2x", &value) == 1;
         f->length++) {
        f->octets[f->length] = (uint8_t)value;
    }
}

/* The last four octets of an address, at the place of a source in a frame. */
static void put_source(struct frame *f, size_t at, uint32_t number) {
    if (f->length >= at + 8) {
        uint32_t of = htonl(number);
        memcpy(f->octets + MAC + 2, &of, 4);
        memcpy(f->octets + at + 4, &of, 4);
    }
}

static void change(struct frame *f, char how, uint32_t count) {
    if (how == 's') {
        put_source(f, SHORT_SOURCE, 0x01000000 + count);
    } else if (how == 'S') {
        put_source(f, LONG_SOURCE, 0x01000000 + count);
    } else if (how == 'n') {
        f->octets[NUMBER] = (uint8_t)(count >> 8);
        f->octets[NUMBER + 1] = (uint8_t)count;
    } else if (how == 'f') {
        for (uint32_t k = draw() % 3 + 1; k != 0; k--) {
            f->octets[HEADER + draw() % (f->length - HEADER)] = (uint8_t)draw();
        }
    } else if (how == 'c') {
        f->length = HEADER + draw() % (f->length - HEADER);
    } else if (how == 'm' || how == 'g') {
        size_t from = how == 'm' ? BASIC_END : f->length - SIGNATURE;
        for (size_t k = from; k < f->length; k++) {
            f->octets[k] = (uint8_t)draw();
        }
    } else if (how == 'r') {
        f->length = HEADER + draw() % (1500 - HEADER);
        for (size_t k = HEADER; k < f->length; k++) {
            f->octets[k] = (uint8_t)draw();
        }
    }
}

static void send_one(int fd, const char *changes, uint32_t count) {
    sent = made[count % made_count];
    for (const char *how = changes; *how != 0; how++) {
        change(&sent, *how, count);
    }
    (void)!send(fd, sent.octets, sent.length, 0);
}

int main(int argc, char **argv) {
    if (argc < 6 || argc > 5 + FRAMES) {
        return 2;
    }
    int fd = open_link(argv[1]);
    int64_t rate = atol(argv[2]), start = now_ns(), end = start + atol(argv[3]) * 1000000000;
    for (int k = 5; k < argc; k++) {
        read_frame(argv[k], &made[made_count++]);
    }
    uint32_t count = 0;
    for (int64_t now = start; now < end; now = now_ns()) {
        int64_t due = rate == 0 ? count + 64 : (now - start) / 1000 * rate / 1000000;
        for (; count < due; count++) {
            send_one(fd, argv[4], count);
        }
        if (rate != 0) {
            nanosleep(&(struct timespec){ 0, 500000 }, NULL);
        }
    }
    printf("%u\n", count);
    return 0;
}
