/* A network interface, with a packet socket for GeoNetworking's EtherType only (EN 302 636-4-1). It
 * requires CAP_NET_RAW and nothing else. If the interface disappears and comes back, it is opened
 * again. */
#define _GNU_SOURCE
#include "parts.h"
#include <arpa/inet.h>
#include <errno.h>
#include <linux/if_packet.h>
#include <linux/netlink.h>
#include <linux/rtnetlink.h>
#include <net/if.h>
#include <net/if_arp.h>
#include <string.h>
#include <sys/ioctl.h>
#include <unistd.h>

enum { ETHERTYPE = 0x8947, HEADER = 14 /* octets */, LOOK_EACH = 250 /* ms */ };

/* Returns false if the interface disappeared meanwhile. */
static bool ask(const struct link *l, unsigned long what, struct ifreq *about) {
    memset(about, 0, sizeof *about);
    memcpy(about->ifr_name, l->name, sizeof about->ifr_name);
    return ioctl(l->fd, what, about) == 0;
}

/* Opens a socket that is readable if an interface of this machine changed; needs no privilege. */
static int open_watch(void) {
    struct sockaddr_nl groups = { .nl_family = AF_NETLINK, .nl_groups = RTMGRP_LINK };
    int fd = socket(AF_NETLINK, SOCK_RAW | SOCK_CLOEXEC, NETLINK_ROUTE);
    if (fd < 0 || bind(fd, (struct sockaddr *)&groups, sizeof groups) != 0) {
        fail(FAILED, "cannot watch the interfaces: %m");
    }
    return fd;
}

void packet_wait(struct link *l) {
    struct pollfd news = { open_watch(), POLLIN, 0 };
    uint8_t rest[8192];
    if (if_nametoindex(l->wanted) == 0) {
        note("%s: waiting for the interface", l->wanted);
        notify("READY=1\nSTATUS=Waiting for the interface");
    }
    while (if_nametoindex(l->wanted) == 0) {
        notify_alive(clock_now());
        if (poll(&news, 1, LOOK_EACH) > 0) {
            (void)!recv(news.fd, rest, sizeof rest, MSG_DONTWAIT);
        }
    }
    close(news.fd);
}

static struct packet_mreq frames_to(const struct link *l, uint64_t address) {
    struct packet_mreq more = { .mr_ifindex = (int)l->index, .mr_type = PACKET_MR_UNICAST,
                                .mr_alen = 6 };
    link_address(address, more.mr_address);
    return more;
}

/* Makes the interface receive frames to the station's MID too, if that isn't its MAC. */
static void take_address(const struct link *l) {
    struct packet_mreq more = frames_to(l, l->address);
    if (l->address != 0 && memcmp(more.mr_address, l->mac, 6) != 0
        && setsockopt(l->fd, SOL_PACKET, PACKET_ADD_MEMBERSHIP, &more, sizeof more) != 0) {
        note("%s: cannot add a MAC address: frames to this station alone may be lost", l->name);
    }
}

void packet_change_address(struct link *l, uint64_t address) {
    struct packet_mreq old = frames_to(l, l->address);
    l->address = address;
    if (l->fd >= 0) {
        (void)setsockopt(l->fd, SOL_PACKET, PACKET_DROP_MEMBERSHIP, &old, sizeof old);
        take_address(l);
    }
}

static void read_mac(struct link *l) {
    struct ifreq about;
    if (!ask(l, SIOCGIFHWADDR, &about)) {
        return;
    }
    if (about.ifr_hwaddr.sa_family != ARPHRD_ETHER
        && about.ifr_hwaddr.sa_family != ARPHRD_LOOPBACK) {
        fail(FAILED, "%s: not an Ethernet interface", l->name);
    }
    memcpy(l->mac, about.ifr_hwaddr.sa_data, sizeof l->mac);
}

/* The MTU is without the header of 14 octets. */
static void read_state(struct link *l) {
    struct ifreq about;
    bool known = ask(l, SIOCGIFFLAGS, &about);
    unsigned flags = known ? (unsigned)(unsigned short)about.ifr_flags : 0;
    l->up = (flags & IFF_UP) != 0 && (flags & IFF_RUNNING) != 0;
    known = ask(l, SIOCGIFMTU, &about) && about.ifr_mtu > 0;
    l->longest = known ? (size_t)about.ifr_mtu + HEADER : 0;
}

static void open_socket(struct link *l) {
    const int on = 1;
    /* no protocol before it is bound: otherwise it receives frames of all interfaces */
    l->fd = socket(AF_PACKET, SOCK_RAW | SOCK_CLOEXEC, 0);
    if (l->fd < 0 && errno == EPERM) {
        fail(FAILED, "%s: no permission: CAP_NET_RAW is needed", l->wanted);
    }
    if (l->fd < 0) {
        fail(FAILED, "%s: %m", l->wanted);
    }
    (void)setsockopt(l->fd, SOL_SOCKET, SO_TIMESTAMPNS, &on, sizeof on);
    (void)setsockopt(l->fd, SOL_PACKET, PACKET_IGNORE_OUTGOING, &on, sizeof on);
    link_enlarge_buffer(l->fd);
}

bool packet_open(struct link *l) {
    l->index = if_nametoindex(l->wanted);
    if (l->index == 0) {
        return false;
    }
    strncpy(l->name, l->wanted, sizeof l->name - 1);
    open_socket(l);
    if (l->watch < 0) {
        l->watch = open_watch();
    }
    struct sockaddr_ll at = { .sll_family = AF_PACKET, .sll_protocol = htons(ETHERTYPE),
                              .sll_ifindex = (int)l->index };
    if (bind(l->fd, (struct sockaddr *)&at, sizeof at) != 0) {
        packet_close(l);
        return false;
    }
    read_mac(l);
    read_state(l);
    take_address(l);
    return true;
}

void packet_close(struct link *l) {
    l->kernel_dropped += packet_drops(l);
    close(l->fd);
    l->fd = -1;
    l->index = 0;
    l->up = false;
}

static unsigned open_again(struct link *l) {
    uint8_t old[6];
    memcpy(old, l->mac, sizeof old);
    if (!packet_open(l)) {
        return NO_NEWS;
    }
    note("%s: the interface is back", l->name);
    return (l->up ? NEWS_UP : NO_NEWS) | (memcmp(old, l->mac, 6) != 0 ? NEWS_MAC : NO_NEWS);
}

/* The name of the interface may have changed. Its index stays as long as it exists. */
unsigned packet_look(struct link *l) {
    bool was = l->up;
    uint8_t old[6];
    memcpy(old, l->mac, sizeof old);
    if (l->index == 0) {
        return open_again(l);
    }
    if (if_indextoname(l->index, l->name) == NULL) {
        note("%s: the interface is gone: waiting for it", l->wanted);
        packet_close(l);
        return (was ? NEWS_UP : NO_NEWS) | open_again(l);
    }
    read_state(l);
    read_mac(l);
    bool changed = memcmp(old, l->mac, sizeof old) != 0;
    if (changed) {
        take_address(l);
    }
    return (l->up != was ? NEWS_UP : NO_NEWS) | (changed ? NEWS_MAC : NO_NEWS);
}

/* Returns the number of drops since the last call. */
uint64_t packet_drops(const struct link *l) {
    struct tpacket_stats counts = { 0, 0 };
    socklen_t size = sizeof counts;
    bool known = l->fd >= 0
        && getsockopt(l->fd, SOL_PACKET, PACKET_STATISTICS, &counts, &size) == 0;
    return known ? counts.tp_drops : 0;
}

/* Did the frame have a VLAN tag of another network (IEEE 802.1Q)? The kernel removes tags before a
 * socket for one EtherType sees the frame, and PACKET_AUXDATA doesn't show them. But a frame of a
 * VLAN with a device belongs to that device. A frame of another VLAN has the packet type "other
 * host", even if it is addressed to a group or to the interface's MAC. */
bool packet_is_foreign(const struct link *l, const uint8_t *octets, size_t n, const void *from) {
    const struct sockaddr_ll *at = from;
    return at->sll_ifindex != (int)l->index
        || (at->sll_pkttype == PACKET_OTHERHOST && n >= 6
            && ((octets[0] & 1) != 0 || memcmp(octets, l->mac, 6) == 0));
}
