/* A link over UDP, for test benches: one datagram is one frame, sent to each peer. */
#define _GNU_SOURCE
#include "parts.h"
#include <arpa/inet.h>
#include <string.h>

/* Joins a group at the local address. Frames to other groups are not received. */
static bool join(int fd, const struct sockaddr_in *group, struct in_addr local) {
    const int on = 1, off = 0;
    struct ip_mreqn how = { .imr_multiaddr = group->sin_addr, .imr_address = local };
    return setsockopt(fd, SOL_SOCKET, SO_REUSEADDR, &on, sizeof on) == 0
        && setsockopt(fd, IPPROTO_IP, IP_MULTICAST_ALL, &off, sizeof off) == 0
        && setsockopt(fd, IPPROTO_IP, IP_MULTICAST_IF, &how, sizeof how) == 0
        && setsockopt(fd, IPPROTO_IP, IP_ADD_MEMBERSHIP, &how, sizeof how) == 0;
}

static struct sockaddr_in inet_of(const struct address *a) {
    struct sockaddr_in at;
    memcpy(&at, &a->at, sizeof at);
    return at;
}

void udp_open(struct link *l, const struct options *o) {
    const int on = 1;
    struct sockaddr_in local = inet_of(&o->local), at = local;
    l->fd = socket(AF_INET, SOCK_DGRAM | SOCK_CLOEXEC, 0);
    l->peers = o->peers;
    l->peer_count = o->peer_count;
    for (size_t k = 0; l->fd >= 0 && k < o->peer_count; k++) {
        struct sockaddr_in peer = inet_of(&o->peers[k]);
        if (!IN_MULTICAST(ntohl(peer.sin_addr.s_addr))) {
            continue;
        }
        if (!join(l->fd, &peer, local.sin_addr)) {
            fail(FAILED, "--to %s: cannot join the group: %m", o->to[k]);
        }
        at.sin_addr.s_addr = htonl(INADDR_ANY); /* to receive group frames */
    }
    if (l->fd < 0 || bind(l->fd, (struct sockaddr *)&at, sizeof at) != 0) {
        fail(FAILED, "--udp %s: %m", o->udp);
    }
    (void)setsockopt(l->fd, SOL_SOCKET, SO_TIMESTAMPNS, &on, sizeof on);
}
