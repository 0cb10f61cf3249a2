// Two stations in C++. The first one sends to an area. The second one delivers the payload,
// forwards the packet, and knows where the first one is.
#include "geostation.hpp"

#include <cstdio>

int main() {
    using geostation::Frame;
    using geostation::Octets;
    using geostation::Station;
    using geostation::Status;

    auto a = Station::make(0x1400020000000001, 449, 0, 64, 8);
    auto made = Station::make(0x1400020000000002, 449, 900, 64, 8);
    if (!a || !made) {
        return 1;
    }
    Station b = std::move(*made);
    if (b.open_port(0, 2002) != Status::Ok) {
        return 1;
    }

    geostation_area_request area{};
    area.port = 2002;
    area.lifetime = 0x1a;
    area.max_hops = 5;
    area.shape = GEOSTATION_CIRCLE;
    area.latitude = 449;
    area.a = 200;

    const std::uint8_t hi[] = {'h', 'i'};
    Frame frame, relay;
    const Status sent = a->send_gbc(10, area, Octets{hi, sizeof hi}, frame);
    if (sent != Status::Ok) {
        std::fprintf(stderr, "%s\n", geostation::text(sent));
        return 1;
    }
    // On a radio, send `relay` after a random wait below 2 ms: otherwise forwarded frames collide.
    const auto got = b.receive(11, Octets{frame.octets.data(), frame.size}, relay);
    std::printf("%.*s at port %u, %zu bytes to forward\n", static_cast<int>(got.payload.size),
                reinterpret_cast<const char *>(got.payload.data), unsigned{got.reception.port},
                relay.size);
    const auto packet = geostation::read_frame(Octets{frame.octets.data(), frame.size}).packet;
    const auto where = b.look_up(11, 0x1400020000000001);
    std::printf("hop limit %u, from latitude %d\n", unsigned{packet.hops_left},
                where ? where->latitude : 0);
    return got.status == Status::Ok && got.payload.size == 2 && relay.size == 76 ? 0 : 1;
}
