/* The link, over a packet socket or UDP. Nothing here waits: a frame that the link doesn't accept
 * now is lost, as on the air, and counted. */
#define _GNU_SOURCE
#include "parts.h"
#include <errno.h>
#include <linux/if_packet.h>
#include <linux/sock_diag.h>
#include <linux/sockios.h>
#include <string.h>
#include <sys/ioctl.h>
#include <time.h>
#include <unistd.h>

enum { BATCH = 16 /* frames that one system call receives */, LIFETIME_AT = 16 /* octets */ };

static struct {
    size_t count, next; /* number of frames in the batch; index of the next one */
    struct received frames[BATCH];
    struct sockaddr_ll from[BATCH];
    char control[BATCH][CMSG_SPACE(sizeof(struct timespec))];
    struct iovec to[BATCH];
    struct mmsghdr about[BATCH];
} batch;

/* Enlarges the receive buffer for bursts. With CAP_NET_ADMIN it may be over net.core.rmem_max. The
 * kernel adds its own overhead, so it doubles the requested size. */
void link_enlarge_buffer(int fd) {
    const int wanted = 4 << 20;
    int got = 0;
    socklen_t size = sizeof got;
    if (setsockopt(fd, SOL_SOCKET, SO_RCVBUFFORCE, &wanted, sizeof wanted) != 0) {
        (void)setsockopt(fd, SOL_SOCKET, SO_RCVBUF, &wanted, sizeof wanted);
    }
    if (getsockopt(fd, SOL_SOCKET, SO_RCVBUF, &got, &size) == 0 && got / 2 < wanted) {
        note("the receive buffer has %d of %d bytes: set net.core.rmem_max, or grant CAP_NET_ADMIN",
             got / 2, wanted);
    }
}

void link_address(uint64_t address, uint8_t mac[6]) {
    for (int k = 0; k < 6; k++) {
        mac[k] = (uint8_t)(address >> (40 - 8 * k));
    }
}

/* Without --address, the address consists of the station type and the interface's MAC. */
static void make_address(struct options *o, const uint8_t mac[6]) {
    o->station.address = (uint64_t)o->station_type << 58;
    for (int k = 0; k < 6; k++) {
        o->station.address |= (uint64_t)mac[k] << (40 - 8 * k);
    }
    o->addressed = true;
}

void link_open(struct link *l, struct options *o) {
    l->watch = l->fd = -1;
    l->up = true;
    l->wanted = o->interface;
    l->empty_at = clock_now();
    if (o->interface == NULL) {
        udp_open(l, o);
        link_enlarge_buffer(l->fd);
        return;
    }
    l->address = o->addressed ? o->station.address : 0;
    if (o->wait_interface) {
        packet_wait(l);
    }
    if (!packet_open(l)) {
        fail(FAILED, "%s: there is no such interface", o->interface);
    }
    if (!o->addressed) {
        make_address(o, l->mac);
    }
    l->address = o->station.address;
}

static enum sending result_of(int error) {
    switch (error) {
    case ENOBUFS: case EAGAIN: case ENOMEM: return QUEUE_FULL;
    case EMSGSIZE: return FRAME_TOO_LONG;
    default: return LINK_DOWN;
    }
}

static enum sending send_to_peers(struct link *l, const uint8_t *frame, size_t length) {
    enum sending result = LINK_DOWN;
    bool taken = false;
    for (size_t k = 0; k < l->peer_count; k++) {
        const struct address *to = &l->peers[k];
        if (sendto(l->fd, frame, length, MSG_DONTWAIT, (const struct sockaddr *)&to->at,
                   to->length) < 0) {
            result = result_of(errno);
            l->dropped++;
        } else {
            taken = true;
        }
    }
    return taken ? SENT : result;
}

/* Whether the send buffer of the socket takes one more frame. A queue after it may still drop the
 * frame: that is known only when the frame is sent. */
static bool has_space(const struct link *l) {
    int queued = 0, room = 0;
    socklen_t n = sizeof room;
    return ioctl(l->fd, SIOCOUTQ, &queued) != 0
        || getsockopt(l->fd, SOL_SOCKET, SO_SNDBUF, &room, &n) != 0 || queued < room;
}

enum sending link_refuses(struct link *l, size_t length) {
    enum sending result = !l->up ? LINK_DOWN
        : l->longest != 0 && length > l->longest ? FRAME_TOO_LONG
        : has_space(l) ? SENT : QUEUE_FULL;
    l->dropped += result != SENT && length != 0;
    return result;
}

/* SENT: the socket accepted the frame; on UDP, for at least one peer. */
enum sending link_send(struct link *l, const uint8_t *frame, size_t length) {
    if (l->wanted == NULL) {
        return send_to_peers(l, frame, length);
    }
    enum sending result = SENT;
    if (!l->up) {
        result = LINK_DOWN;
    } else if (send(l->fd, frame, length, MSG_DONTWAIT) < 0) {
        result = result_of(errno);
    }
    l->dropped += result != SENT;
    return result;
}

/* The lifetime in the Basic Header of a frame, in ms: a multiplier, and which unit it counts. */
static uint64_t lifetime_of(const uint8_t *frame) {
    static const uint64_t units[] = { 50, 1000, 10000, 100000 };
    return (frame[LIFETIME_AT] >> 2) * units[frame[LIFETIME_AT] & 3];
}

enum sending link_send_in_time(struct link *l, const uint8_t *frame, size_t length,
                               uint64_t since) {
    if (clock_now() > since + lifetime_of(frame)) {
        l->expired++;
        return LIFETIME_OVER;
    }
    return link_send(l, frame, length);
}

/* The time at which the kernel received a frame. A jump of the clock does not matter: the time is
 * limited to the interval from the last time at which no frame waited until now. */
static uint64_t time_of(struct msghdr *about, const struct link *l, const struct instant *now) {
    int64_t age = 0;
    for (struct cmsghdr *c = CMSG_FIRSTHDR(about); c != NULL; c = CMSG_NXTHDR(about, c)) {
        if (c->cmsg_level == SOL_SOCKET && c->cmsg_type == SCM_TIMESTAMPNS) {
            struct timespec t;
            memcpy(&t, CMSG_DATA(c), sizeof t);
            age = now->realtime - ((int64_t)t.tv_sec * 1000 + t.tv_nsec / 1000000);
        }
    }
    uint64_t longest = now->now > l->empty_at ? now->now - l->empty_at : 0;
    uint64_t waited = age <= 0 ? 0 : (uint64_t)age < longest ? (uint64_t)age : longest;
    return now->now - waited;
}

/* Receives the waiting frames, up to a batch. */
static void fill(const struct link *l) {
    for (size_t k = 0; k < BATCH; k++) {
        batch.to[k] = (struct iovec){ batch.frames[k].octets, FRAME_ROOM };
        batch.about[k].msg_hdr = (struct msghdr){
            .msg_name = &batch.from[k], .msg_namelen = sizeof batch.from[k],
            .msg_iov = &batch.to[k], .msg_iovlen = 1,
            .msg_control = batch.control[k], .msg_controllen = sizeof batch.control[k],
        };
    }
    int n = l->fd >= 0 ? recvmmsg(l->fd, batch.about, BATCH, MSG_DONTWAIT, NULL) : -1;
    batch.count = n > 0 ? (size_t)n : 0;
    batch.next = 0;
}

/* Is there another frame in the batch? If the last batch was not full, no frame waits. */
static bool has_frame(const struct link *l) {
    if (batch.next == batch.count) {
        bool was_full = batch.count == BATCH || batch.count == 0;
        batch.count = batch.next = 0;
        if (was_full) {
            fill(l);
        }
    }
    return batch.next < batch.count;
}

/* Returns the next frame. It skips frames that this host sent, and frames with a VLAN tag. Only the
 * latter are counted. */
enum waiting link_receive(struct link *l, const struct instant *now, struct received **r) {
    if (!has_frame(l)) {
        l->empty_at = now->now;
        return NONE_WAITS;
    }
    size_t k = batch.next++;
    const struct sockaddr_ll *from = &batch.from[k];
    struct received *got = &batch.frames[k];
    got->length = batch.about[k].msg_len;
    if (l->wanted != NULL && from->sll_pkttype == PACKET_OUTGOING) {
        return SKIPPED;
    }
    l->frames++;
    if (l->wanted != NULL && packet_is_foreign(l, got->octets, got->length, from)) {
        l->tagged++;
        return SKIPPED;
    }
    got->at = time_of(&batch.about[k].msg_hdr, l, now);
    *r = got;
    return RECEIVED;
}

void link_change_address(struct link *l, uint64_t address) {
    if (l->wanted != NULL) {
        packet_change_address(l, address);
    }
    l->address = address;
}

unsigned link_look(struct link *l) {
    uint8_t news[8192];
    while (recv(l->watch, news, sizeof news, MSG_DONTWAIT) > 0) {
        /* the content does not matter: any message means that something changed */
    }
    return packet_look(l);
}

/* Returns the number of frames that the kernel dropped because the receive buffer was full. */
uint64_t link_kernel_dropped(struct link *l) {
    uint32_t memory[SK_MEMINFO_VARS] = { 0 };
    socklen_t size = sizeof memory;
    if (l->wanted != NULL) {
        l->kernel_dropped += packet_drops(l);
    } else if (getsockopt(l->fd, SOL_SOCKET, SO_MEMINFO, memory, &size) == 0) {
        l->kernel_dropped = memory[SK_MEMINFO_DROPS];
    }
    return l->kernel_dropped;
}
