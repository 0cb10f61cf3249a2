// Runs the commands of a file over the radio model of `geostation sim` in ns-3, prints the
// deliveries, and writes the columns of `--sends` and `--stations`.
//
//     agreement COMMANDS SENDS STATIONS
//
// The commands, each on a line: `air RANGE DELAY UNTIL`, `origin LAT LON`, `station MAC LAT LON
// CAPACITY REMEMBER FROM TO` (ms), and `at MS STATION CALL ..` with the calls of a scenario.
#include "geostation-ns3-range.hpp"
#include "geostation-ns3-results.hpp"

#include "ns3/config.h"
#include "ns3/constant-position-mobility-model.h"

#include <algorithm>
#include <array>
#include <fstream>
#include <iostream>
#include <memory>
#include <sstream>
#include <string>

using namespace ns3;
using geostation::Octets;
using geostation::Place;
using geostation::StationApplication;

namespace {

std::vector<std::uint8_t> Bytes(const std::string &hex) {
    std::vector<std::uint8_t> bytes;
    for (std::size_t i = 0; hex != "-" && i + 1 < hex.size(); i += 2) {
        bytes.push_back(static_cast<std::uint8_t>(std::stoul(hex.substr(i, 2), nullptr, 16)));
    }
    return bytes;
}

/// Media-dependent data that an SHB with this port info carries, which `sim` does not have.
std::array<std::uint8_t, 4> MediaOf(std::uint16_t info) {
    return {static_cast<std::uint8_t>(info >> 8), static_cast<std::uint8_t>(info), 0, 7};
}

/// Whether a reception has the media-dependent data that were sent.
bool HasItsMedia(const geostation_reception &got) {
    const auto media = got.kind == GEOSTATION_SHB ? MediaOf(got.info) : decltype(MediaOf(0)){};
    return std::equal(media.begin(), media.end(), got.media);
}

struct Run {
    NodeContainer nodes;
    Ptr<geostation::RangeChannel> channel = CreateObject<geostation::RangeChannel>();
    std::vector<Ptr<StationApplication>> stations;
    Place origin;
    std::int64_t until = 0;
    std::unique_ptr<geostation::Results> results;

    void AddStation(std::istringstream &words) {
        std::string mac;
        Place place;
        unsigned capacity, remember;
        std::int64_t from, to;
        words >> mac >> place.latitude >> place.longitude >> capacity >> remember >> from >> to;
        auto node = CreateObject<Node>();
        nodes.Add(node);
        auto mobility = CreateObject<ConstantPositionMobilityModel>();
        mobility->SetPosition(geostation::Plane(origin).ToPoint(place));
        node->AggregateObject(mobility);
        channel->Install(NodeContainer(node)).Get(0)->SetAddress(Mac48Address(mac.c_str()));
        auto station = CreateObjectWithAttributes<StationApplication>(
            "RelaySpread", TimeValue(Time(0)), "Beacons", BooleanValue(false), "Capacity",
            UintegerValue(capacity), "Remember", UintegerValue(remember), "OriginLatitude",
            IntegerValue(origin.latitude), "OriginLongitude", IntegerValue(origin.longitude));
        node->AddApplication(station);
        station->SetStartTime(MilliSeconds(static_cast<std::uint64_t>(from)));
        if (to < until) {
            station->SetStopTime(MilliSeconds(static_cast<std::uint64_t>(to)));
        }
        const std::size_t i = stations.size();
        station->TraceConnectWithoutContext(
            "Delivered",
            Callback<void, const geostation::Delivery &>([i](const geostation::Delivery &got) {
                std::printf("%" PRId64 " %zu %u ", Simulator::Now().GetMilliSeconds(), i,
                            unsigned{got.reception.port});
                NS_ABORT_MSG_UNLESS(HasItsMedia(got.reception), "media-dependent data");
                for (std::size_t k = 0; k < got.payload.size; k++) {
                    std::printf("%02x", unsigned{got.payload.data[k]});
                }
                std::printf(got.payload.size == 0 ? "-\n" : "\n");
            }));
        results->Add(station);
        stations.push_back(station);
    }

    /// Makes a call. It may be refused: `sim` refuses it too.
    void Call(std::size_t i, const std::string &text) {
        std::istringstream words(text);
        std::string call, payload, shape;
        words >> call;
        const auto station = stations.at(i);
        unsigned port = 0, info = 0, traffic_class = 0;
        if (call == "move") {
            Place place;
            words >> place.latitude >> place.longitude;
            station->GetNode()->GetObject<MobilityModel>()->SetPosition(
                geostation::Plane(origin).ToPoint(place));
        } else if (call == "open" || call == "close") {
            words >> port;
            const auto number = static_cast<std::uint16_t>(port);
            (void)(call == "open" ? station->OpenPort(number) : station->ClosePort(number));
        } else if (call == "restart") {
            unsigned number;
            words >> number;
            (void)station->Restart(static_cast<std::uint16_t>(number));
        } else if (call == "tick") {
            unsigned jitter;
            words >> jitter;
            (void)station->Tick(static_cast<std::uint16_t>(jitter));
        } else if (call == "shb") {
            words >> port >> info >> traffic_class >> payload;
            const auto bytes = Bytes(payload);
            const geostation_shb_request request{static_cast<std::uint16_t>(port),
                                                 static_cast<std::uint16_t>(info),
                                                 static_cast<std::uint8_t>(traffic_class)};
            geostation_shb_options options{0x1a, {}};
            const auto media = MediaOf(request.info);
            std::copy(media.begin(), media.end(), options.media);
            (void)station->SendShbWith(request, options, {bytes.data(), bytes.size()});
        } else {
            unsigned lifetime, hops, a, b, angle;
            geostation_area_request area{};
            words >> port >> info >> traffic_class >> lifetime >> hops >> shape >> area.latitude >>
                area.longitude >> a >> b >> angle >> payload;
            area.port = static_cast<std::uint16_t>(port);
            area.info = static_cast<std::uint16_t>(info);
            area.traffic_class = static_cast<std::uint8_t>(traffic_class);
            area.lifetime = static_cast<std::uint8_t>(lifetime);
            area.max_hops = static_cast<std::uint8_t>(hops);
            area.shape = shape == "circle"      ? GEOSTATION_CIRCLE
                         : shape == "rectangle" ? GEOSTATION_RECTANGLE
                                                : GEOSTATION_ELLIPSE;
            area.a = static_cast<std::uint16_t>(a);
            area.b = static_cast<std::uint16_t>(b);
            area.angle = static_cast<std::uint16_t>(angle);
            const auto bytes = Bytes(payload);
            const Octets octets{bytes.data(), bytes.size()};
            NS_ABORT_MSG_UNLESS(call == "gbc" || call == "gac", "unknown call: " << text);
            (void)(call == "gbc" ? station->SendGbc(area, octets) : station->SendGac(area, octets));
        }
        NS_ABORT_MSG_IF(words.fail(), "cannot read: " << text);
    }

    void Read(const std::string &line) {
        std::istringstream words(line);
        std::string word;
        words >> word;
        if (word == "air") {
            std::uint64_t range, delay;
            words >> range >> delay >> until;
            channel->SetAttribute("Range", UintegerValue(range));
            channel->SetAttribute("Delay", TimeValue(MilliSeconds(delay)));
            results = std::make_unique<geostation::Results>(static_cast<double>(range));
        } else if (word == "origin") {
            words >> origin.latitude >> origin.longitude;
        } else if (word == "station") {
            AddStation(words);
        } else {
            std::uint64_t at;
            std::size_t i;
            std::string call;
            words >> at >> i;
            std::getline(words, call);
            Simulator::Schedule(MilliSeconds(at), &Run::Call, this, i, call);
        }
    }
};

} // namespace

int main(int argc, char **argv) {
    if (argc != 4) {
        std::cerr << "usage: agreement COMMANDS SENDS STATIONS\n";
        return 2;
    }
    {
        Run run;
        std::ifstream commands(argv[1]);
        for (std::string line; std::getline(commands, line);) {
            run.Read(line);
        }
        Simulator::Stop(MilliSeconds(static_cast<std::uint64_t>(run.until)));
        Simulator::Run();
        std::ofstream sends(argv[2]), stations(argv[3]);
        run.results->WriteSends(sends);
        run.results->WriteStations(stations);
    }
    Simulator::Destroy();
}
