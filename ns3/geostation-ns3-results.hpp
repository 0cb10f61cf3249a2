// geostation-ns3-results.hpp: the results of a run in the columns of `geostation sim --sends` and
// `--stations`, so that one script reads both. It needs the modules of geostation-ns3.hpp.
#ifndef GEOSTATION_NS3_RESULTS_HPP
#define GEOSTATION_NS3_RESULTS_HPP

#include "geostation-ns3.hpp"

#include "ns3/application-container.h"
#include "ns3/callback.h"

#include <algorithm>
#include <cinttypes>
#include <cstdio>
#include <deque>
#include <functional>
#include <map>
#include <ostream>
#include <set>
#include <string>
#include <unordered_map>
#include <vector>

namespace geostation {

/// Returns the air time of a frame with this many bytes (an Ethernet header included) at 6 Mbit/s
/// in a channel of 10 MHz, in microseconds. `geostation sim` counts the same.
inline std::uint64_t AirTimeOf(std::size_t bytes) {
    return 40 + 8 * ((22 + 8 * (bytes + 24) + 47) / 48);
}

/// Returns whether a place is in an area, as the station decides it. The border is inside.
inline bool Holds(const geostation_area &area, Place place) {
    __extension__ using Wide = __int128;
    const auto [north, east] = Plane::OffsetOf({area.latitude, area.longitude}, place);
    const Wide a = 100 * Wide{area.a}, b = 100 * Wide{area.b};
    if (area.shape == GEOSTATION_CIRCLE) {
        return Wide{north} * north + Wide{east} * east <= a * a;
    }
    const std::int64_t sine = Plane::Sine(area.angle);
    const std::int64_t cosine = Plane::Sine((area.angle + 90) % 360);
    const Wide along = (Wide{north} * cosine + Wide{east} * sine) / 10000;
    const Wide across = (Wide{east} * cosine - Wide{north} * sine) / 10000;
    if (area.shape == GEOSTATION_RECTANGLE) {
        return -a <= along && along <= a && -b <= across && across <= b;
    }
    return along * along * b * b + across * across * a * a <= a * a * b * b;
}

/// Returns a time in milliseconds, with as many decimals as it needs, at most six.
inline std::string Milliseconds(ns3::Time time) {
    char text[32];
    const std::int64_t whole = time.GetNanoSeconds();
    std::snprintf(text, sizeof text, "%" PRId64 ".%06" PRId64, whole / 1'000'000,
                  whole % 1'000'000);
    std::string digits = text;
    digits.erase(digits.find_last_not_of('0') + 1);
    return digits.back() == '.' ? digits.substr(0, digits.size() - 1) : digits;
}

/// Records what stations send, forward and receive. Make it before the run, add each application
/// once, in the order of the station numbers, and write the files after the run. It must outlive
/// the run.
class Results {
  public:
    /// Without a range (0), the columns `lost`, `busy` and `busiest` stay empty. `lost` is for each
    /// frame the number of stations that were within this range (in m) of its sender when it went
    /// to the device, and that had not received it one second later, or at the end of the run.
    explicit Results(double range = 0) : range_(range) {}
    Results(const Results &) = delete;
    Results &operator=(const Results &) = delete;

    /// Adds a station. The id goes into the column `id`.
    void Add(const ns3::Ptr<StationApplication> &station, const std::string &id = "") {
        const std::size_t i = stations_.size();
        stations_.emplace_back();
        stations_.back().application = station;
        stations_.back().id = id;
        using namespace ns3;
        using FramePtr = Ptr<const ns3::Packet>;
        station->TraceConnectWithoutContext(
            "Sent", Callback<void, FramePtr, const Transmission &>(
                        [this, i](FramePtr frame, const Transmission &sent) {
                            RecordSent(i, frame->GetUid(), sent);
                        }));
        station->TraceConnectWithoutContext(
            "Forwarded", Callback<void, FramePtr, const Transmission &>(
                             [this, i](FramePtr frame, const Transmission &sent) {
                                 RecordFrame(i, frame->GetUid(), sent, SendOf(sent.key));
                                 stations_[i].relayed++;
                             }));
        station->TraceConnectWithoutContext(
            "Received", Callback<void, FramePtr, const Reception &>(
                            [this, i](FramePtr frame, const Reception &reception) {
                                RecordReceived(i, frame->GetUid(), reception);
                            }));
        station->TraceConnectWithoutContext(
            "Running", Callback<void, bool>([this, i](bool runs) { RecordRunning(i, runs); }));
        if (station->Contends()) {
            contends_ = true;
            station->TraceConnectWithoutContext(
                "Held", Callback<void, const PacketKey &, Time>(
                            [this](const PacketKey &key, Time) { RecordHeld(key, true); }));
            station->TraceConnectWithoutContext(
                "TakenBack", Callback<void, const PacketKey &>(
                                 [this](const PacketKey &key) { RecordHeld(key, false); }));
        }
    }

    /// Adds the stations of a container.
    void Add(const ns3::ApplicationContainer &stations) {
        for (auto it = stations.Begin(); it != stations.End(); ++it) {
            Add(ns3::DynamicCast<StationApplication>(*it));
        }
    }

    /// Measured channel load: called with a station number, it returns the microseconds in which
    /// the channel was busy at that station in the whole run, and the most in 100 ms. Without it
    /// both are computed from the air times of frames within the range, as `geostation sim` does.
    void SetBusy(std::function<std::pair<double, double>(std::size_t)> busy) {
        busy_ = std::move(busy);
    }

    /// A packet for an area, and the outcome of it.
    struct Send {
        std::uint64_t number = 0;
        ns3::Time at;
        std::size_t station = 0;
        std::uint32_t kind = 0;
        std::uint16_t port = 0;
        std::uint8_t max_hops = 0;
        std::vector<std::size_t> inside; ///< other stations in the area, with the port open
        std::map<std::size_t, ns3::Time> firsts; ///< delay of the first delivery at each station
        std::uint64_t frames = 0, heard = 0, lost = 0, duplicates = 0, full = 0;
        std::uint64_t held = 0, cancelled = 0;
        unsigned hops = 0;

        /// Returns how many of the stations in `inside` have got the packet.
        std::size_t Reached() const {
            return static_cast<std::size_t>(
                std::count_if(inside.begin(), inside.end(),
                              [this](std::size_t i) { return firsts.count(i) != 0; }));
        }

        /// Returns the delay that this percentage of the stations did not exceed, or 0.
        ns3::Time Quantile(std::size_t percent) const {
            std::vector<ns3::Time> times;
            for (const auto &first : firsts) {
                times.push_back(first.second);
            }
            std::sort(times.begin(), times.end());
            const std::size_t place = (percent * times.size() + 99) / 100;
            return times.empty() ? ns3::Time(0) : times[std::max<std::size_t>(place, 1) - 1];
        }
    };

    const std::deque<Send> &GetSends() const { return sends_; }

    /// Writes the columns of `--sends`. Delays have decimals if they are not whole milliseconds. If
    /// a station contends, the last columns are `held` and `cancelled`.
    void WriteSends(std::ostream &out) {
        JudgeFrames(ns3::Time::Max());
        out << "send,moment,station,kind,port,inside,reached,delivered,frames,heard,lost,"
               "duplicates,full,hops,first,p50,p95,last"
            << (contends_ ? ",held,cancelled\n" : "\n");
        for (const Send &send : sends_) {
            out << send.number << ',' << send.at.GetMilliSeconds() << ',' << send.station << ','
                << (send.kind == GEOSTATION_GBC ? "gbc" : "gac") << ',' << send.port << ','
                << send.inside.size() << ',' << send.Reached() << ',' << send.firsts.size() << ','
                << send.frames << ',' << send.heard << ',';
            if (range_ > 0) {
                out << send.lost;
            }
            out << ',' << send.duplicates << ',' << send.full << ',' << send.hops;
            for (const std::size_t percent : {0U, 50U, 95U, 100U}) {
                out << ',' << Milliseconds(send.Quantile(percent));
            }
            if (contends_) {
                out << ',' << send.held << ',' << send.cancelled;
            }
            out << '\n';
        }
    }

    /// Writes the columns of `--stations`. `to` of a station that still runs is the current time.
    void WriteStations(std::ostream &out) {
        JudgeFrames(ns3::Time::Max());
        out << "station,id,address,from,to,away,sent,relayed,octets,heard,delivered,duplicates,"
               "ignored,refused,full,lost,busy,busiest"
            << (contends_ ? ",held,cancelled\n" : "\n");
        for (std::size_t i = 0; i < stations_.size(); i++) {
            const Row &row = stations_[i];
            const Counts counts = row.application->GetCounts();
            const auto &refused = counts.refused;
            const ns3::Time to = row.application->IsRunning() ? ns3::Simulator::Now() : row.to;
            char address[17];
            std::snprintf(address, sizeof address, "%016" PRIx64, row.application->GetAddress());
            out << i << ',' << Quoted(row.id) << ',' << address << ','
                << row.from.GetMilliSeconds() << ',' << to.GetMilliSeconds() << ','
                << row.away.GetMilliSeconds() << ',' << row.sent << ',' << row.relayed << ','
                << row.octets << ',' << counts.received << ',' << counts.delivered << ','
                << counts.ignored.duplicate << ','
                << counts.ignored.not_for_me + counts.ignored.own_source +
                       counts.ignored.sender_mismatch
                << ','
                << refused.moment_earlier + refused.moment_too_late + refused.frame +
                       refused.table_full + refused.no_memory + refused.other
                << ',' << refused.table_full << ',';
            if (range_ > 0) {
                out << row.lost;
            }
            out << ',';
            if (busy_) {
                const auto [total, most] = busy_(i);
                out << std::llround(total) << ',' << std::llround(most);
            } else if (range_ > 0) {
                out << row.busy << ',' << row.busiest;
            } else {
                out << ',';
            }
            if (contends_) {
                out << ',' << counts.contention.held << ',' << counts.contention.cancelled;
            }
            out << '\n';
        }
    }

    /// Returns how many receptions met a full location table. If there are any, the numbers of the
    /// run are wrong: set the attribute `Capacity` higher.
    std::uint64_t GetFull() const {
        std::uint64_t full = 0;
        for (const Row &row : stations_) {
            full += row.application->GetCounts().refused.table_full;
        }
        return full;
    }

  private:
    struct Row {
        ns3::Ptr<StationApplication> application;
        std::string id;
        bool has_run = false;
        ns3::Time from, to, away;
        std::uint64_t sent = 0, relayed = 0, octets = 0, lost = 0, busy = 0, busiest = 0;
        std::uint64_t interval = 0, in_interval = 0; // the current 100 ms, and its air time
    };

    // A frame that went to a device, and the stations in range that have not received it yet.
    struct OnAir {
        ns3::Time at;
        std::ptrdiff_t send = -1; // an index of sends_
        std::set<std::size_t> missing;
    };

    static std::string Quoted(const std::string &text) {
        if (text.find_first_of(",\"\n") == std::string::npos) {
            return text;
        }
        std::string quoted = "\"";
        for (const char c : text) {
            quoted += c == '"' ? "\"\"" : std::string(1, c);
        }
        return quoted + '"';
    }

    std::ptrdiff_t SendOf(const PacketKey &key) const {
        const auto found = send_of_.find(key);
        return found == send_of_.end() ? -1 : found->second;
    }

    void RecordRunning(std::size_t i, bool runs) {
        Row &row = stations_[i];
        const ns3::Time now = ns3::Simulator::Now();
        if (!runs) {
            row.to = now;
        } else if (row.has_run) {
            row.away += now - row.to;
        } else {
            row.from = now;
            row.has_run = true;
        }
    }

    void RecordSent(std::size_t i, std::uint64_t uid, const Transmission &sent) {
        stations_[i].sent++;
        const std::uint64_t number = number_++;
        if (sent.key.kind != GEOSTATION_GBC && sent.key.kind != GEOSTATION_GAC) {
            RecordFrame(i, uid, sent, -1);
            return;
        }
        const geostation_packet packet = read_frame(sent.frame).packet;
        Send send;
        send.number = number;
        send.at = ns3::Simulator::Now();
        send.station = i;
        send.kind = sent.key.kind;
        send.port = packet.message.port;
        send.max_hops = packet.max_hops;
        for (std::size_t k = 0; k < stations_.size(); k++) {
            const auto &station = stations_[k].application;
            if (k != i && station->IsRunning() && station->IsOpen(send.port) &&
                Holds(packet.area, station->GetPlace())) {
                send.inside.push_back(k);
            }
        }
        sends_.push_back(std::move(send));
        const auto index = static_cast<std::ptrdiff_t>(sends_.size()) - 1;
        send_of_[sent.key] = index;
        RecordFrame(i, uid, sent, index);
    }

    void RecordFrame(std::size_t i, std::uint64_t uid, const Transmission &sent,
                     std::ptrdiff_t send) {
        const ns3::Time now = ns3::Simulator::Now();
        stations_[i].octets += sent.frame.size;
        if (send >= 0) {
            sends_[static_cast<std::size_t>(send)].frames++;
        }
        OnAir frame;
        frame.at = now;
        frame.send = send;
        if (range_ > 0) {
            const std::uint64_t air_time = AirTimeOf(sent.frame.size);
            const Place place = stations_[i].application->GetPlace();
            const auto most = static_cast<std::uint64_t>(100 * range_);
            AddAirTime(stations_[i], now, air_time);
            for (std::size_t k = 0; k < stations_.size(); k++) {
                const auto &station = stations_[k].application;
                if (k != i && station->IsRunning() &&
                    Plane::SquaredDistance(place, station->GetPlace()) <= most * most) {
                    frame.missing.insert(frame.missing.end(), k);
                    AddAirTime(stations_[k], now, air_time);
                }
            }
        }
        on_air_.emplace(uid, std::move(frame));
        by_age_.push_back(uid);
        JudgeFrames(now - ns3::Seconds(1));
    }

    static void AddAirTime(Row &row, ns3::Time now, std::uint64_t air_time) {
        const auto interval = static_cast<std::uint64_t>(now.GetMilliSeconds() / 100);
        row.in_interval = air_time + (row.interval == interval ? row.in_interval : 0);
        row.interval = interval;
        row.busy += air_time;
        row.busiest = std::max(row.busiest, row.in_interval);
    }

    void RecordReceived(std::size_t i, std::uint64_t uid, const Reception &reception) {
        std::ptrdiff_t index = SendOf(reception.key);
        const auto found = on_air_.find(uid);
        if (found != on_air_.end()) {
            found->second.missing.erase(i);
            index = found->second.send;
        }
        if (index < 0) {
            return;
        }
        Send &send = sends_[static_cast<std::size_t>(index)];
        const geostation_reception &got = reception.result.reception;
        send.heard++;
        send.duplicates += got.ignored == GEOSTATION_DUPLICATE;
        send.full += reception.result.status == Status::TableFull;
        if (got.delivered != 0) {
            send.hops = std::max(send.hops, unsigned{send.max_hops} - got.hops_left + 1);
            send.firsts.emplace(i, ns3::Simulator::Now() - send.at);
        }
    }

    void RecordHeld(const PacketKey &key, bool held) {
        const std::ptrdiff_t index = SendOf(key);
        if (index >= 0) {
            Send &send = sends_[static_cast<std::size_t>(index)];
            (held ? send.held : send.cancelled)++;
        }
    }

    // Counts the stations that have missed the frames which are at least as old as this.
    void JudgeFrames(ns3::Time until) {
        while (!by_age_.empty()) {
            const auto found = on_air_.find(by_age_.front());
            if (found->second.at > until) {
                return;
            }
            for (const std::size_t i : found->second.missing) {
                stations_[i].lost++;
            }
            if (found->second.send >= 0) {
                sends_[static_cast<std::size_t>(found->second.send)].lost +=
                    found->second.missing.size();
            }
            on_air_.erase(found);
            by_age_.pop_front();
        }
    }

    double range_;
    bool contends_ = false;
    std::function<std::pair<double, double>(std::size_t)> busy_;
    std::deque<Row> stations_;
    std::deque<Send> sends_;
    std::map<PacketKey, std::ptrdiff_t> send_of_;
    std::unordered_map<std::uint64_t, OnAir> on_air_;
    std::deque<std::uint64_t> by_age_;
    std::uint64_t number_ = 0;
};

} // namespace geostation

#endif
