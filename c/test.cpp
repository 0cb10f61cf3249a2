// Tests of signed packets from C++: calls of geostation.hpp return what those of geostation.h do.
#include "geostation.hpp"

#include <algorithm>
#include <cstdio>
#include <cstdlib>
#include <cstring>

#define CHECK(e) do { if (!(e)) { \
    std::fprintf(stderr, "%s:%d: %s\n", __FILE__, __LINE__, #e); std::exit(1); } } while (0)

namespace {

using geostation::Answer;
using geostation::Frame;
using geostation::Octets;
using geostation::Part;
using geostation::SecuredFrame;
using geostation::Station;
using geostation::Status;

const std::uint8_t HI[] = {'h', 'i'};
const std::uint8_t MESSAGE[] = {3, 0x81, 0x40};
const char OPEN[] = "{\"do\":\"open\",\"port\":2002}", SEAL[] = "{\"do\":\"seal\"}";

template <typename T> Octets view(const T &buffer) {
    return {buffer.octets.data(), buffer.size};
}

bool is(Octets octets, const std::uint8_t *other, std::size_t size) {
    return octets.size == size && std::memcmp(octets.data, other, size) == 0;
}

Octets text(const char *line) {
    return {reinterpret_cast<const std::uint8_t *>(line), std::strlen(line)};
}

Frame make_frame(Station &a) {
    geostation_area_request area{};
    area.port = 2002, area.lifetime = 0x1a, area.max_hops = 5;
    area.shape = GEOSTATION_CIRCLE, area.latitude = 449, area.a = 200;
    Frame frame;
    CHECK(a.send_gbc(10, area, {HI, sizeof HI}, frame) == Status::Ok && frame.size == 76);
    return frame;
}

void test_media(Station &a) {
    const geostation_shb_request request{2001, 0, 0};
    const geostation_shb_options options{0x05, {1, 2, 3, 4}};
    Frame frame, relay;
    CHECK(a.send_shb_with(10, request, options, {HI, sizeof HI}, frame) == Status::Ok);
    CHECK(frame.size == 60 && frame.octets[16] == 0x05);
    CHECK(std::equal(options.media, options.media + 4, frame.octets.begin() + 50));
    const auto got = a.receive(10, view(frame), relay);
    CHECK(got.status == Status::Ok);
    CHECK(std::equal(options.media, options.media + 4, got.reception.media));
    CHECK(a.send_shb_with(9, request, options, {}, frame) == Status::MomentEarlier);
}

void test_parts(const Frame &frame) {
    SecuredFrame secured;
    const Part plain = geostation::plain_part(view(frame));
    CHECK(plain.status == Status::Ok && is(plain.octets, frame.octets.data() + 18, 58));
    CHECK(geostation::message_of(view(frame)).status == Status::BadFrame);
    CHECK(geostation::seal(view(frame), {MESSAGE, 3}, secured) == Status::Ok && secured.size == 21);
    const Part message = geostation::message_of(view(secured));
    CHECK(message.status == Status::Ok && is(message.octets, MESSAGE, 3));
    const Part none = geostation::plain_part(view(secured));
    CHECK(none.status == Status::BadFrame && none.octets.data == nullptr && none.octets.size == 0);
    CHECK(geostation::seal(view(frame), {}, secured) == Status::BadArgument && secured.size == 0);
    CHECK(geostation::seal({}, {MESSAGE, 3}, secured) == Status::BadFrame && secured.size == 0);
}

void test_receiving(Station &b, const Frame &frame) {
    SecuredFrame secured, relay;
    const Octets plain = geostation::plain_part(view(frame)).octets;
    CHECK(geostation::seal(view(frame), {MESSAGE, 3}, secured) == Status::Ok);
    auto got = b.receive_verified(11, view(secured), {plain.data, 57}, relay);
    CHECK(got.status == Status::BadFrame && got.reception.fault == 6 && relay.size == 0);
    got = b.receive_verified(11, view(secured), plain, relay);
    CHECK(got.status == Status::Ok && got.payload.data == plain.data + 56);
    CHECK(is(got.payload, HI, 2) && got.reception.port == 2002 && relay.size == 21);
    CHECK(relay.octets[11] == 2 && relay.octets[17] == 4);
    CHECK(std::equal(MESSAGE, MESSAGE + 3, relay.octets.begin() + 18));
    Frame other;
    CHECK(b.receive(12, view(frame), other).reception.ignored == GEOSTATION_DUPLICATE);
    got = b.receive_verified(9, view(secured), plain, relay);
    CHECK(got.status == Status::MomentEarlier && got.payload.size == 0);
}

void test_contention(const Frame &frame) {
    geostation_config config = geostation::usual_config();
    config.address = 0x1400020000000002, config.latitude = 449, config.longitude = 900;
    config.area_forwarding = GEOSTATION_CONTENTION, config.contention_copies = 1;
    auto b = Station::make(config);
    CHECK(b && b->next_due() == UINT64_MAX);
    Frame relay, copy = frame;
    auto got = b->receive(11, view(frame), relay);
    CHECK(got.status == Status::Ok && got.held() && relay.size == 0 && !got.cancelled());
    CHECK(got.due() > 11 && got.due() <= 111 && b->next_due() == got.due());
    CHECK(b->release(got.due() - 1, relay) == Status::Ok && relay.size == 0);
    CHECK(b->release(10, relay) == Status::MomentEarlier && relay.size == 0);
    CHECK(b->release(got.due(), relay) == Status::Ok && is(view(relay), relay.octets.data(), 76));
    CHECK(relay.octets[11] == 2 && relay.octets[17] == 4 && b->next_due() == UINT64_MAX);
    CHECK(b->counts().contention.released == 1);

    b = Station::make(config);
    CHECK(b && b->receive(11, view(frame), relay).held());
    copy.octets[11] = 3, copy.octets[17] = 4;
    got = b->receive(12, view(copy), relay);
    CHECK(got.cancelled() && !got.held() && got.due() == 0);
    SecuredFrame secured;
    CHECK(b->release(200, secured) == Status::Ok && secured.size == 0);
    config.contention_min = 101;
    Status status = Status::Ok;
    CHECK(!Station::make(config, &status) && status == Status::BadArgument);
}

void test_lines(Station &b) {
    static Answer answer;
    Frame frame;
    SecuredFrame secured;
    CHECK(b.handle_json(12, 1, text(SEAL), answer, frame) == Status::NoRoom && answer.size == 0);
    CHECK(b.handle_json(12, 1, text(SEAL), answer, secured) == Status::Ok && answer.size != 0);
    CHECK(secured.size == 0 && b.handle_json(12, 1, text(OPEN), answer, frame) == Status::Ok);
    struct ::geostation_line_result done;
    CHECK(b.handle_line(12, 1, text(OPEN), 0, answer, secured, done) == Status::Ok);
    CHECK(done.command == GEOSTATION_COMMAND_OPEN && answer.size != 0);
    CHECK(done.outcome == GEOSTATION_OUTCOME_NOT_ALLOWED && secured.size == 0);
}

} // namespace

int main() {
    auto a = Station::make(0x1400020000000001, 449, 0, 64, 8);
    auto b = Station::make(0x1400020000000002, 449, 900, 64, 8);
    CHECK(a && b && b->open_port(0, 2002) == Status::Ok);
    const Frame frame = make_frame(*a);
    test_media(*a);
    test_parts(frame);
    test_receiving(*b, frame);
    test_lines(*b);
    test_contention(frame);
    return 0;
}
