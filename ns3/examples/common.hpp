// What the examples share: a channel, stations that send awareness messages, and a warning.
#ifndef COMMON_HPP
#define COMMON_HPP

#include "any-copy.hpp"
#include "geostation-ns3-results.hpp"
#include "geostation-ns3-wifi.hpp"

#include "ns3/object-factory.h"

#include <fstream>
#include <iostream>
#include <string>
#include <vector>

constexpr std::uint16_t kAwareness = 2001, kWarning = 2002; // ports

/// Makes a channel. `loss` is `disk` (equal power up to `range` m), `log` (5.9 GHz, two slopes,
/// with 21 dBm -85 dBm at 300 m) or `nakagami` (`log` with fading).
inline ns3::Ptr<ns3::YansWifiChannel> MakeChannel(const std::string &loss, double range,
                                                  bool is_grid) {
    using namespace ns3;
    Ptr<PropagationLossModel> model;
    if (loss == "disk") {
        model = CreateObjectWithAttributes<RangePropagationLossModel>("MaxRange",
                                                                      DoubleValue(range));
    } else {
        NS_ABORT_MSG_UNLESS(loss == "log" || loss == "nakagami",
                            "the loss is disk, log or nakagami");
        model = CreateObjectWithAttributes<ThreeLogDistancePropagationLossModel>(
            "ReferenceLoss", DoubleValue(47.86), "Exponent0", DoubleValue(2), "Distance1",
            DoubleValue(100), "Exponent1", DoubleValue(3.8));
    }
    Ptr<YansWifiChannel> channel;
    if (is_grid) {
        const auto grid = CreateObject<geostation::GridWifiChannel>();
        if (loss != "nakagami") { // fading has no distance beyond which nothing arrives
            constexpr double kPower = 21, kSensitivity = -101; // dBm, for 20 MHz
            grid->SetAttribute("Reach", DoubleValue(geostation::GridWifiChannel::FindReach(
                                            model, kPower, kSensitivity + RatioToDb(0.5))));
        }
        channel = grid;
    } else {
        channel = CreateObject<YansWifiChannel>();
    }
    if (loss == "nakagami") {
        model->SetNext(CreateObjectWithAttributes<NakagamiPropagationLossModel>(
            "m0", DoubleValue(3), "m1", DoubleValue(1.5), "m2", DoubleValue(1), "Distance1",
            DoubleValue(50), "Distance2", DoubleValue(150)));
    }
    channel->SetPropagationLossModel(model);
    channel->SetPropagationDelayModel(CreateObject<ConstantSpeedPropagationDelayModel>());
    return channel;
}

/// Returns a factory of stations: `now` forwards at once, `spread` after a random time below
/// `RelaySpread`, `contention` by the station's contention, `any` by AnyCopyApplication.
inline ns3::ObjectFactory MakeFactory(const std::string &forward) {
    NS_ABORT_MSG_UNLESS(forward == "now" || forward == "spread" || forward == "contention" ||
                            forward == "any",
                        "the rule is now, spread, contention or any");
    ns3::ObjectFactory factory;
    factory.SetTypeId(forward == "any" ? "AnyCopyApplication" : "geostation::StationApplication");
    factory.Set("Contention", ns3::BooleanValue(forward == "contention"));
    if (forward == "now") {
        factory.Set("RelaySpread", ns3::TimeValue(ns3::Time(0)));
    }
    return factory;
}

/// Makes each station send `bytes` to all in reach, `rate` times a second, from a random time on.
class Awareness {
  public:
    Awareness(const ns3::ApplicationContainer &stations, double rate, std::size_t bytes,
              std::int64_t stream)
        : period_(ns3::Seconds(1 / rate)), payload_(bytes) {
        const auto random = ns3::CreateObject<ns3::UniformRandomVariable>();
        random->SetStream(stream);
        for (auto it = stations.Begin(); it != stations.End(); ++it) {
            const auto station = ns3::DynamicCast<geostation::StationApplication>(*it);
            const std::size_t i = stations_.size();
            stations_.push_back(station);
            station->Check(station->OpenPort(kAwareness));
            // A callback that holds a reference to its own station would keep it for ever.
            station->TraceConnectWithoutContext(
                "Running", ns3::Callback<void, bool>([this, random, i](bool runs) {
                    if (runs) {
                        ns3::Simulator::Schedule(
                            ns3::Seconds(random->GetValue(0, period_.GetSeconds())),
                            &Awareness::Send, this, i);
                    }
                }));
        }
    }
    Awareness(const Awareness &) = delete;
    Awareness &operator=(const Awareness &) = delete;

  private:
    void Send(std::size_t i) {
        if (stations_[i]->IsRunning()) {
            const geostation::Octets payload{payload_.data(), payload_.size()};
            stations_[i]->Check(stations_[i]->SendShb({kAwareness, 0, 2}, payload));
            ns3::Simulator::Schedule(period_, &Awareness::Send, this, i);
        }
    }

    std::vector<ns3::Ptr<geostation::StationApplication>> stations_;
    ns3::Time period_;
    std::vector<std::uint8_t> payload_;
};

/// Makes a station warn all stations within `radius` m of where it is then.
inline void Warn(ns3::Ptr<geostation::StationApplication> station, unsigned radius, unsigned hops,
                 unsigned traffic_class) {
    const geostation::Place place = station->GetPlace();
    geostation_area_request area{};
    area.port = kWarning;
    area.traffic_class = static_cast<std::uint8_t>(traffic_class);
    area.lifetime = 0x1a; // 60 s
    area.max_hops = static_cast<std::uint8_t>(hops);
    area.shape = GEOSTATION_CIRCLE;
    area.latitude = place.latitude;
    area.longitude = place.longitude;
    area.a = static_cast<std::uint16_t>(radius);
    const std::uint8_t payload[] = {'i', 'c', 'e'};
    station->Check(station->SendGbc(area, {payload, sizeof payload}));
}

/// Prints a line for each warning, and one about location tables that were full.
inline void PrintSends(const geostation::Results &results) {
    for (const auto &send : results.GetSends()) {
        std::cout << "station " << send.station << " at " << geostation::Milliseconds(send.at)
                  << " ms: reached " << send.Reached() << " of " << send.inside.size()
                  << " inside, with " << send.frames << " frames over at most " << send.hops
                  << " hops, p50 " << geostation::Milliseconds(send.Quantile(50)) << " ms, p95 "
                  << geostation::Milliseconds(send.Quantile(95)) << " ms, last "
                  << geostation::Milliseconds(send.Quantile(100)) << " ms\n";
    }
    if (results.GetFull() != 0) {
        std::cerr << results.GetFull()
                  << " receptions met a full location table: set Capacity higher\n";
    }
}

/// Returns the mean channel busy ratio of the stations that run, between two times, in percent.
inline double MeanBusy(const geostation::ChannelBusy &busy,
                       const ns3::ApplicationContainer &stations, ns3::Time from, ns3::Time to) {
    double sum = 0, count = 0;
    for (std::uint32_t i = 0; i < stations.GetN(); i++) {
        if (ns3::DynamicCast<geostation::StationApplication>(stations.Get(i))->IsRunning()) {
            sum += 100 * busy.GetRatio(i, from, to);
            count++;
        }
    }
    return count > 0 ? sum / count : 0;
}

#endif
