// geostation-ns3.hpp: a station of geostation.hpp as an application of an ns-3 node.
// C++17, header only, for ns-3.37. It needs the modules core, network and mobility.
//
// The node needs a NetDevice with 48-bit addresses and a MobilityModel. docs/NS3.md has a tutorial,
// all attributes and all trace sources.
#ifndef GEOSTATION_NS3_HPP
#define GEOSTATION_NS3_HPP

#include "geostation.hpp"

#include "ns3/abort.h"
#include "ns3/application.h"
#include "ns3/boolean.h"
#include "ns3/integer.h"
#include "ns3/mac48-address.h"
#include "ns3/mobility-model.h"
#include "ns3/net-device.h"
#include "ns3/node.h"
#include "ns3/nstime.h"
#include "ns3/packet.h"
#include "ns3/random-variable-stream.h"
#include "ns3/simulator.h"
#include "ns3/socket.h"
#include "ns3/traced-callback.h"
#include "ns3/uinteger.h"
#include "ns3/vector.h"

#include <algorithm>
#include <cmath>
#include <cstdint>
#include <cstdlib>
#include <map>
#include <optional>
#include <ostream>
#include <tuple>
#include <utility>
#include <vector>

namespace geostation {

/// A position on the earth, in 0.1 microdegree.
struct Place {
    std::int32_t latitude = 0, longitude = 0;
};

/// Maps metres of ns-3 (x to the east, y to the north) to positions on the earth. The measure is
/// that of the station: 0.1 microdegree of latitude has 1.1132 cm. Distances from the origin are
/// the same in both, to a centimetre. Distances between two other points agree if the origin is at
/// latitude 0. Otherwise they differ more the further north or south they are from the origin.
class Plane {
  public:
    Plane() = default;
    explicit Plane(Place origin) : origin_(origin), scale_(ScaleOf(origin.latitude)) {}

    Place GetOrigin() const { return origin_; }

    /// Returns the length of a degree of longitude at the origin, in units of that at the equator.
    double GetScale() const { return static_cast<double>(scale_) / 10000; }

    /// Returns the position on the earth of a point on the plane.
    Place ToPlace(const ns3::Vector &at) const {
        const std::int64_t north = std::llround(at.y / kUnit);
        const std::int64_t east = std::llround(at.x / (kUnit * GetScale()));
        return {static_cast<std::int32_t>(origin_.latitude + north),
                static_cast<std::int32_t>(Wrap(origin_.longitude + east))};
    }

    /// Returns the point on the plane of a position on the earth. Its z is 0.
    ns3::Vector ToPoint(Place place) const {
        const auto north = static_cast<double>(std::int64_t{place.latitude} - origin_.latitude);
        const auto east =
            static_cast<double>(Wrap(std::int64_t{place.longitude} - origin_.longitude));
        return {east * kUnit * GetScale(), north * kUnit, 0};
    }

    /// Returns how far a place is to the north and to the east of a centre, in whole centimetres,
    /// as the station computes it.
    static std::pair<std::int64_t, std::int64_t> OffsetOf(Place centre, Place place) {
        const std::int64_t north = std::int64_t{place.latitude} - centre.latitude;
        const std::int64_t east = Wrap(std::int64_t{place.longitude} - centre.longitude);
        return {north * 11132 / 10000, east * 11132 * ScaleOf(centre.latitude) / 100'000'000};
    }

    /// Returns the square of the distance of a place from a centre, in square centimetres, as the
    /// station computes it.
    static std::uint64_t SquaredDistance(Place centre, Place place) {
        const auto [north, east] = OffsetOf(centre, place);
        return static_cast<std::uint64_t>(north * north) + static_cast<std::uint64_t>(east * east);
    }

    /// Returns 10000 times the sine of an angle of 0 to 359 whole degrees, as the station has it.
    static std::int64_t Sine(std::int32_t degrees) {
        return std::llround(10000 * std::sin(degrees * (kPi / 180)));
    }

    /// Returns 10000 times the cosine of a latitude in 0.1 microdegree, as the station has it:
    /// exact at whole degrees, and a straight line in between.
    static std::int64_t ScaleOf(std::int32_t latitude) {
        constexpr std::int64_t kDegree = 10'000'000;
        const std::int64_t size = std::abs(std::int64_t{latitude});
        const auto degree = static_cast<std::int32_t>(size / kDegree);
        const std::int64_t rest = size % kDegree;
        return degree >= 90 ? 0
                            : (Sine(90 - degree) * (kDegree - rest) + Sine(89 - degree) * rest) /
                                  kDegree;
    }

  private:
    static constexpr double kUnit = 0.011132; // metres in 0.1 microdegree of latitude
    static constexpr double kPi = 3.14159265358979323846;

    static std::int64_t Wrap(std::int64_t longitude) {
        constexpr std::int64_t kHalf = 1'800'000'000;
        return longitude > kHalf    ? longitude - 2 * kHalf
               : longitude < -kHalf ? longitude + 2 * kHalf
                                    : longitude;
    }

    Place origin_;
    std::int64_t scale_ = 10000;
};

/// Returns the heading of a velocity, in 0.1 degree clockwise from north.
inline std::uint16_t HeadingOf(const ns3::Vector &velocity) {
    const double degrees = std::atan2(velocity.x, velocity.y) * (180 / 3.14159265358979323846);
    return static_cast<std::uint16_t>(std::lround(10 * (degrees < 0 ? degrees + 360 : degrees)) %
                                      3600);
}

/// Returns the speed of a velocity in 0.01 m/s, at most 16383.
inline std::int16_t SpeedOf(const ns3::Vector &velocity) {
    return static_cast<std::int16_t>(
        std::min(16383L, std::lround(100 * std::hypot(velocity.x, velocity.y))));
}

/// The counts of a station. geostation.h has a call of the same name.
using Counts = struct ::geostation_counts;

/// Identifies a packet for an area (GBC, GAC) in a run: its source and its sequence number. A
/// BEACON or an SHB has the number 0, so that its key has only its kind and its source.
struct PacketKey {
    std::uint32_t kind = 0; ///< an enum geostation_kind
    std::uint64_t source = 0;
    std::uint16_t number = 0;

    friend bool operator<(const PacketKey &a, const PacketKey &b) {
        return std::tie(a.source, a.number, a.kind) < std::tie(b.source, b.number, b.kind);
    }
    friend bool operator==(const PacketKey &a, const PacketKey &b) {
        return std::tie(a.source, a.number, a.kind) == std::tie(b.source, b.number, b.kind);
    }
    friend std::ostream &operator<<(std::ostream &out, const PacketKey &key) {
        static constexpr const char *kKinds[] = {"?", "beacon", "shb", "gbc", "gac"};
        const auto flags = out.flags();
        out << kKinds[key.kind < 5 ? key.kind : 0] << ' ' << std::hex << key.source;
        out.flags(flags);
        return key.kind >= GEOSTATION_GBC ? out << ' ' << key.number : out;
    }
};

/// A frame that a station passes to its device. `frame` has the link addresses in front.
struct Transmission {
    PacketKey key;
    ns3::Mac48Address to;
    Octets frame;
};

/// A frame that arrived, and what the station made of it. If the status is not `Ok`, the key is
/// empty.
struct Reception {
    PacketKey key;
    ns3::Mac48Address from, to;
    Octets frame;
    const Received &result;
};

/// A payload that arrived at an open port.
struct Delivery {
    PacketKey key;
    const geostation_reception &reception; ///< the port, its info, and the hops that are left
    Octets payload;
};

/// A station on a device of a node.
class StationApplication : public ns3::Application {
  public:
    static constexpr std::uint16_t kEtherType = 0x8947;

    static ns3::TypeId GetTypeId();

    /// Ends the simulation with a message if a call failed.
    static void Check(Status status) { NS_ABORT_MSG_IF(status != Status::Ok, text(status)); }

    /// Fixes the random stream of this station: the jitter of beacons, and the waits of forwarded
    /// frames. Returns how many streams it has used.
    std::int64_t AssignStreams(std::int64_t stream) {
        random_->SetStream(stream);
        return 1;
    }

    /// Opens a port. Before the start the port is remembered. `Restart` keeps it open.
    Status OpenPort(std::uint16_t port) {
        Status status = Status::Ok;
        if (station_) {
            status = station_->open_port(Now(), port);
        } else if (IsOpen(port)) {
            status = Status::PortAlreadyOpen;
        } else if (ports_.size() >= kMaxPorts) {
            status = Status::PortsFull;
        }
        if (status == Status::Ok) {
            ports_.push_back(port);
        }
        return status;
    }

    /// Closes a port.
    Status ClosePort(std::uint16_t port) {
        const Status status = station_       ? station_->close_port(Now(), port)
                              : IsOpen(port) ? Status::Ok
                                             : Status::PortNotOpen;
        if (status == Status::Ok) {
            ports_.erase(std::remove(ports_.begin(), ports_.end(), port), ports_.end());
        }
        return status;
    }

    /// Returns whether a port is open.
    bool IsOpen(std::uint16_t port) const {
        return std::find(ports_.begin(), ports_.end(), port) != ports_.end();
    }

    /// Sends a payload to all stations in reach. While the application does not run, this and the
    /// calls below return `BadArgument`.
    Status SendShb(const geostation_shb_request &request, Octets payload) {
        return Send(GEOSTATION_SHB, [&](Frame &frame) {
            return station_->send_shb(Now(), request, payload, frame);
        });
    }

    /// Sends a payload to all stations in reach, with a lifetime and media-dependent data.
    Status SendShbWith(const geostation_shb_request &request,
                       const geostation_shb_options &options, Octets payload) {
        return Send(GEOSTATION_SHB, [&](Frame &frame) {
            return station_->send_shb_with(Now(), request, options, payload, frame);
        });
    }

    /// Sends a payload to all stations in an area.
    Status SendGbc(const geostation_area_request &request, Octets payload) {
        return Send(GEOSTATION_GBC, [&](Frame &frame) {
            return station_->send_gbc(Now(), request, payload, frame);
        });
    }

    /// Sends a payload to any one station in an area.
    Status SendGac(const geostation_area_request &request, Octets payload) {
        return Send(GEOSTATION_GAC, [&](Frame &frame) {
            return station_->send_gac(Now(), request, payload, frame);
        });
    }

    /// Sends a beacon if one with this jitter (ms) is due. With the attribute `Beacons` the
    /// application does this by itself.
    Status Tick(std::uint16_t jitter) {
        return Send(GEOSTATION_BEACON,
                    [&](Frame &frame) { return station_->tick(Now(), jitter, frame); });
    }

    /// Makes the station forget what it received. Frames that wait or are held are dropped. The next
    /// packet for an area has this sequence number. Ports stay open.
    Status Restart(std::uint16_t number = 0) {
        if (!station_) {
            return Status::BadArgument;
        }
        const Status status = station_->restart(Now(), number);
        if (status == Status::Ok) {
            CancelWaiting();
            for (const std::uint16_t port : ports_) {
                Check(station_->open_port(Now(), port));
            }
            if (beacons_) {
                beacon_.Cancel();
                PlanBeacon();
            }
        }
        return status;
    }

    /// Returns the station, for its neighbours and other calls of geostation.hpp. There is none
    /// while the application does not run.
    std::optional<Station> &GetStation() { return station_; }
    bool IsRunning() const { return station_.has_value(); }

    /// Returns the counts of all stations that this application has had. It has a new one after
    /// each start.
    Counts GetCounts() const {
        Counts sum = counts_;
        if (station_) {
            AddCounts(sum, station_->counts());
        }
        return sum;
    }

    /// Returns the GN address of a station on a device with this MAC address.
    std::uint64_t AddressOf(ns3::Mac48Address mac) const {
        std::uint8_t octets[6];
        mac.CopyTo(octets);
        std::uint64_t mid = 0;
        for (const std::uint8_t octet : octets) {
            mid = mid << 8 | octet;
        }
        return std::uint64_t{station_type_} << 58 | mid;
    }

    /// Returns the GN address of this station.
    std::uint64_t GetAddress() const {
        return AddressOf(ns3::Mac48Address::ConvertFrom(FindDevice()->GetAddress()));
    }

    /// Returns whether the station contends: the attribute `Contention`.
    bool Contends() const { return contention_; }

    Plane GetPlane() const { return Plane({origin_latitude_, origin_longitude_}); }

    /// Returns the current position of the node.
    Place GetPlace() const {
        return station_ ? plane_.ToPlace(mobility_->GetPosition())
                        : GetPlane().ToPlace(
                              GetNode()->GetObject<ns3::MobilityModel>()->GetPosition());
    }

  protected:
    /// Returns how long a frame that goes to all stations waits before it is passed to the device.
    /// The default is a random time below `RelaySpread`. A subclass may have another rule. It is not
    /// asked for frames that the station holds (`Contention`).
    virtual ns3::Time WaitOf(const Reception &) {
        return ns3::Seconds(random_->GetValue(0, relay_spread_.GetSeconds()));
    }

    /// Returns whether this duplicate takes back the frame with the same key that still waits. The
    /// default is no.
    virtual bool TakesBack(const Reception & /* duplicate */) { return false; }

    void DoDispose() override {
        beacon_.Cancel();
        CancelWaiting();
        station_.reset();
        device_ = nullptr;
        mobility_ = nullptr;
        random_ = nullptr;
        Application::DoDispose();
    }

  private:
    static constexpr std::size_t kHeader = 14; // target, source and EtherType, before a packet
    static constexpr std::size_t kTrafficClass = kHeader + 4 + 2;
    static constexpr std::size_t kMaxPorts = 64;
    static constexpr std::uint64_t kNever = UINT64_MAX;

    static std::uint64_t Now() {
        return static_cast<std::uint64_t>(ns3::Simulator::Now().GetMilliSeconds());
    }

    static void AddCounts(Counts &sum, const Counts &more) {
        sum.received += more.received;
        sum.accepted += more.accepted;
        sum.delivered += more.delivered;
        sum.relayed += more.relayed;
        sum.ignored.not_for_me += more.ignored.not_for_me;
        sum.ignored.own_source += more.ignored.own_source;
        sum.ignored.sender_mismatch += more.ignored.sender_mismatch;
        sum.ignored.duplicate += more.ignored.duplicate;
        sum.refused.moment_earlier += more.refused.moment_earlier;
        sum.refused.moment_too_late += more.refused.moment_too_late;
        sum.refused.frame += more.refused.frame;
        sum.refused.table_full += more.refused.table_full;
        sum.refused.no_memory += more.refused.no_memory;
        sum.refused.other += more.refused.other;
        sum.sent.beacons += more.sent.beacons;
        sum.sent.single_hop += more.sent.single_hop;
        sum.sent.geobroadcasts += more.sent.geobroadcasts;
        sum.sent.geoanycasts += more.sent.geoanycasts;
        sum.suppressed += more.suppressed;
        sum.repeated += more.repeated;
        sum.over_rate += more.over_rate;
        sum.contention.held += more.contention.held;
        sum.contention.released += more.contention.released;
        sum.contention.cancelled += more.contention.cancelled;
        sum.contention.dropped += more.contention.dropped;
        sum.contention.full += more.contention.full;
    }

    ns3::Ptr<ns3::NetDevice> FindDevice() const {
        NS_ABORT_MSG_IF(device_index_ >= GetNode()->GetNDevices(), "the node has no such device");
        return GetNode()->GetDevice(device_index_);
    }

    void StartApplication() override {
        device_ = FindDevice();
        mobility_ = GetNode()->GetObject<ns3::MobilityModel>();
        NS_ABORT_MSG_UNLESS(mobility_, "the node has no MobilityModel");
        plane_ = GetPlane();
        geostation_config config = usual_config();
        config.address = GetAddress();
        config.capacity = capacity_;
        config.remember = remember_;
        config.mobile = mobile_;
        config.number = number_;
        if (!limits_) {
            config.forward_rate = config.source_rate = config.own_rate = 0;
            config.hop_cap = config.deliver_once = 0;
        }
        NS_ABORT_MSG_IF(contention_min_ > contention_max_, "ContentionMin is over ContentionMax");
        config.area_forwarding = contention_ ? GEOSTATION_CONTENTION : GEOSTATION_SIMPLE;
        config.contention_max = contention_max_;
        config.contention_min = contention_min_;
        config.contention_range = contention_range_;
        config.contention_copies = contention_copies_;
        Status status;
        station_ = Station::make(config, &status);
        Check(status);
        fixed_ = ns3::Time(-1);
        Fix();
        for (const std::uint16_t port : ports_) {
            Check(station_->open_port(Now(), port));
        }
        // Only a promiscuous handler gets the real link target of a frame. The station ignores
        // frames to other stations.
        GetNode()->RegisterProtocolHandler(ns3::MakeCallback(&StationApplication::Receive, this),
                                           kEtherType, device_, true);
        if (beacons_) {
            PlanBeacon();
        }
        running_(true);
    }

    void StopApplication() override {
        if (!station_) {
            return;
        }
        GetNode()->UnregisterProtocolHandler(
            ns3::MakeCallback(&StationApplication::Receive, this));
        beacon_.Cancel();
        CancelWaiting();
        AddCounts(counts_, station_->counts());
        station_.reset();
        running_(false);
    }

    void CancelWaiting() {
        for (auto &waiting : waiting_) {
            waiting.second.Cancel();
        }
        waiting_.clear();
        release_.Cancel();
        due_ = kNever;
    }

    // Passes the node's position to the station, unless the last one is recent enough.
    void Fix() {
        const ns3::Time now = ns3::Simulator::Now();
        if (fixed_.IsPositive() && now - fixed_ < fix_interval_) {
            return;
        }
        fixed_ = now;
        const ns3::Vector velocity = mobility_->GetVelocity();
        const Place place = plane_.ToPlace(mobility_->GetPosition());
        Check(station_->move_to(Now(), place.latitude, place.longitude, true, SpeedOf(velocity),
                                HeadingOf(velocity)));
    }

    template <typename Call> Status Send(std::uint32_t kind, Call call) {
        if (!station_) {
            return Status::BadArgument;
        }
        Fix();
        const bool is_numbered = kind == GEOSTATION_GBC || kind == GEOSTATION_GAC;
        const std::uint16_t number = is_numbered ? station_->next_number() : std::uint16_t{0};
        Frame frame;
        const Status status = call(frame);
        if (frame.size != 0) {
            Put({kind, GetAddress(), number}, frame, sent_);
        }
        return status;
    }

    // A beacon is due at a whole millisecond of the station's clock, and is sent at a random time
    // within it. At the beginning of it, the beacons of two stations that share the millisecond
    // would always collide.
    void PlanBeacon() {
        jitter_ = static_cast<std::uint16_t>(random_->GetInteger(0, GEOSTATION_JITTER_MAX));
        WaitForBeacon();
    }

    void WaitForBeacon() {
        const ns3::Time due =
            ns3::MilliSeconds(station_->beacon_at(jitter_)) +
            ns3::Seconds(random_->GetValue(0, 0.001));
        beacon_ = ns3::Simulator::Schedule(ns3::Max(due - ns3::Simulator::Now(), ns3::Time(0)),
                                           &StationApplication::SendBeacon, this);
    }

    void SendBeacon() {
        if (station_->beacon_at(jitter_) > Now()) {
            WaitForBeacon(); // a packet of this station has put the beacon off
            return;
        }
        Check(Tick(jitter_));
        PlanBeacon();
    }

    void Receive(ns3::Ptr<ns3::NetDevice>, ns3::Ptr<const ns3::Packet> packet, std::uint16_t,
                 const ns3::Address &sender, const ns3::Address &target,
                 ns3::NetDevice::PacketType) {
        const ns3::Mac48Address from = ns3::Mac48Address::ConvertFrom(sender);
        const ns3::Mac48Address to = ns3::Mac48Address::ConvertFrom(target);
        std::uint8_t octets[GEOSTATION_FRAME_MAX + 1]; // one more than a frame may have
        to.CopyTo(octets);
        from.CopyTo(octets + 6);
        octets[12] = kEtherType >> 8;
        octets[13] = kEtherType & 0xff;
        constexpr auto kRoom = static_cast<std::uint32_t>(sizeof octets - kHeader);
        const Octets frame{octets, kHeader + packet->CopyData(octets + kHeader, kRoom)};
        Fix();
        Frame relay;
        const Received result = station_->receive(Now(), frame, relay);
        const geostation_reception &got = result.reception;
        const Reception reception{{got.kind, got.source, got.number}, from, to, frame, result};
        received_(packet, reception);
        if (result.status != Status::Ok) {
            refused_(packet, reception);
        } else if (got.ignored != 0) {
            ignored_(packet, reception);
            TakeBack(reception);
        } else if (result.held()) {
            held_(reception.key, ns3::MilliSeconds(result.due()));
        } else if (relay.size != 0) {
            Forward(reception, relay);
        }
        PlanRelease();
        // The application may send, restart or stop in answer to the payload, so this comes last.
        if (got.delivered != 0) {
            delivered_(Delivery{reception.key, got, result.payload});
        }
    }

    void Forward(const Reception &reception, const Frame &relay) {
        const PacketKey key = reception.key;
        const bool is_broadcast = (relay.octets[0] & 1) != 0;
        const ns3::Time wait = is_broadcast ? WaitOf(reception) : ns3::Time(0);
        if (wait.IsZero()) {
            Put(key, relay, forwarded_);
            return;
        }
        waiting_[key] = ns3::Simulator::Schedule(wait, [this, key, relay] {
            waiting_.erase(key);
            Put(key, relay, forwarded_);
        });
    }

    // Held frames are released when the first one is due, plus a random time. It is drawn again if
    // another frame is due first.
    void PlanRelease() {
        const std::uint64_t due = station_->next_due();
        if (due == due_) {
            return;
        }
        due_ = due;
        release_.Cancel();
        if (due != kNever) {
            const ns3::Time at =
                ns3::MilliSeconds(due) +
                ns3::Seconds(random_->GetValue(0, relay_spread_.GetSeconds()));
            release_ = ns3::Simulator::Schedule(ns3::Max(at - ns3::Simulator::Now(), ns3::Time(0)),
                                                &StationApplication::AwaitCopies, this);
        }
    }

    // Frames that arrive at this time come first: they may cancel what is due.
    void AwaitCopies() {
        release_ = ns3::Simulator::ScheduleNow(&StationApplication::Release, this);
    }

    void Release() {
        due_ = kNever;
        Frame frame;
        do {
            Check(station_->release(Now(), frame));
            if (frame.size != 0) {
                const geostation_packet packet =
                    read_frame({frame.octets.data(), frame.size}).packet;
                Put({packet.kind, packet.vector.address, packet.number}, frame, forwarded_);
            }
        } while (frame.size != 0);
        PlanRelease();
    }

    void TakeBack(const Reception &duplicate) {
        if (duplicate.result.cancelled()) {
            taken_back_(duplicate.key);
        }
        if (duplicate.result.reception.ignored != GEOSTATION_DUPLICATE) {
            return;
        }
        const auto waiting = waiting_.find(duplicate.key);
        if (waiting != waiting_.end() && TakesBack(duplicate)) {
            waiting->second.Cancel();
            waiting_.erase(waiting);
            taken_back_(duplicate.key);
        }
    }

    using FrameTrace = ns3::TracedCallback<ns3::Ptr<const ns3::Packet>, const Transmission &>;

    // Passes a frame to the device, with the user priority of its traffic class. Traffic class 0
    // goes to AC_VO, 1 to AC_VI, 2 to AC_BE, and the others to AC_BK.
    void Put(const PacketKey &key, const Frame &frame, const FrameTrace &trace) {
        const std::uint8_t traffic_class = frame.octets[kTrafficClass] & 0x3f;
        auto packet = ns3::Create<ns3::Packet>(frame.octets.data() + kHeader,
                                               static_cast<std::uint32_t>(frame.size - kHeader));
        ns3::SocketPriorityTag priority;
        priority.SetPriority(static_cast<std::uint8_t>(traffic_class < 3 ? 7 - 2 * traffic_class
                                                                         : 1));
        packet->AddPacketTag(priority);
        ns3::Mac48Address to;
        to.CopyFrom(frame.octets.data());
        trace(packet, Transmission{key, to, {frame.octets.data(), frame.size}});
        NS_ABORT_MSG_UNLESS(device_->Send(packet, to, kEtherType),
                            "the device has not accepted a frame of EtherType 0x8947. Use a "
                            "WifiNetDevice with an OcbWifiMac, not a WaveNetDevice.");
    }

    // attributes
    std::uint32_t device_index_ = 0;
    std::uint8_t station_type_ = 5;
    std::uint16_t capacity_ = 256, remember_ = 8, number_ = 0;
    bool mobile_ = true, beacons_ = true, limits_ = false, contention_ = false;
    std::uint16_t contention_min_ = 1, contention_max_ = 100, contention_range_ = 1000;
    std::uint8_t contention_copies_ = 2;
    std::int32_t origin_latitude_ = 0, origin_longitude_ = 0;
    ns3::Time fix_interval_, relay_spread_;

    // trace sources
    FrameTrace sent_, forwarded_;
    ns3::TracedCallback<ns3::Ptr<const ns3::Packet>, const Reception &> received_, ignored_,
        refused_;
    ns3::TracedCallback<const Delivery &> delivered_;
    ns3::TracedCallback<const PacketKey &> taken_back_;
    ns3::TracedCallback<const PacketKey &, ns3::Time> held_;
    ns3::TracedCallback<bool> running_;

    std::vector<std::uint16_t> ports_;
    std::optional<Station> station_;
    Counts counts_{};
    Plane plane_;
    ns3::Ptr<ns3::NetDevice> device_;
    ns3::Ptr<ns3::MobilityModel> mobility_;
    ns3::Time fixed_;
    ns3::Ptr<ns3::UniformRandomVariable> random_ =
        ns3::CreateObject<ns3::UniformRandomVariable>();
    std::uint16_t jitter_ = 0;
    ns3::EventId beacon_, release_;
    std::uint64_t due_ = kNever;
    std::map<PacketKey, ns3::EventId> waiting_;
};

inline ns3::TypeId StationApplication::GetTypeId() {
    using namespace ns3;
    using Self = StationApplication;
    static TypeId tid =
        TypeId("geostation::StationApplication")
            .SetParent<Application>()
            .SetGroupName("geostation")
            .AddConstructor<Self>()
            .AddAttribute("Device", "Index of the node's device that the station uses.",
                          UintegerValue(0), MakeUintegerAccessor(&Self::device_index_),
                          MakeUintegerChecker<std::uint32_t>())
            .AddAttribute("StationType",
                          "Station type in the GN address: 5 is a passenger car, 15 a road-side "
                          "unit.",
                          UintegerValue(5), MakeUintegerAccessor(&Self::station_type_),
                          MakeUintegerChecker<std::uint8_t>(0, 31))
            .AddAttribute("Mobile", "Whether the packets say that the station is mobile.",
                          BooleanValue(true), MakeBooleanAccessor(&Self::mobile_),
                          MakeBooleanChecker())
            .AddAttribute("Capacity", "Size of the location table.", UintegerValue(256),
                          MakeUintegerAccessor(&Self::capacity_),
                          MakeUintegerChecker<std::uint16_t>(1, 4096))
            .AddAttribute("Remember", "Length of the duplicate packet list of each source.",
                          UintegerValue(8), MakeUintegerAccessor(&Self::remember_),
                          MakeUintegerChecker<std::uint16_t>(1, 64))
            .AddAttribute("Number", "Sequence number of the first packet for an area.",
                          UintegerValue(0), MakeUintegerAccessor(&Self::number_),
                          MakeUintegerChecker<std::uint16_t>())
            .AddAttribute("Limits", "Whether the library's limits on frames and hops apply.",
                          BooleanValue(false), MakeBooleanAccessor(&Self::limits_),
                          MakeBooleanChecker())
            .AddAttribute("Beacons", "Whether the station sends beacons.", BooleanValue(true),
                          MakeBooleanAccessor(&Self::beacons_), MakeBooleanChecker())
            .AddAttribute("OriginLatitude",
                          "Latitude of the point (0, 0) of ns-3, in 0.1 microdegree.",
                          IntegerValue(0), MakeIntegerAccessor(&Self::origin_latitude_),
                          MakeIntegerChecker<std::int32_t>(-890'000'000, 890'000'000))
            .AddAttribute("OriginLongitude",
                          "Longitude of the point (0, 0) of ns-3, in 0.1 microdegree.",
                          IntegerValue(0), MakeIntegerAccessor(&Self::origin_longitude_),
                          MakeIntegerChecker<std::int32_t>(-1'800'000'000, 1'800'000'000))
            .AddAttribute("FixInterval",
                          "Age below which the last position is used again. With 0 each call has "
                          "the current position.",
                          TimeValue(Time(0)), MakeTimeAccessor(&Self::fix_interval_),
                          MakeTimeChecker())
            .AddAttribute("RelaySpread",
                          "A forwarded frame to all stations waits for a random time below this. "
                          "With 0 all stations that received a frame forward it in one slot, and "
                          "these frames collide. A held frame is released at its time plus a "
                          "random time below this.",
                          TimeValue(MilliSeconds(1)), MakeTimeAccessor(&Self::relay_spread_),
                          MakeTimeChecker())
            .AddAttribute("Contention",
                          "Whether the station holds the frame of a geobroadcast inside its area, "
                          "and drops it if others send it.",
                          BooleanValue(false), MakeBooleanAccessor(&Self::contention_),
                          MakeBooleanChecker())
            .AddAttribute("ContentionMin", "Least wait of a held frame, in ms.", UintegerValue(1),
                          MakeUintegerAccessor(&Self::contention_min_),
                          MakeUintegerChecker<std::uint16_t>(0, 1000))
            .AddAttribute("ContentionMax", "Greatest wait of a held frame, in ms.",
                          UintegerValue(100), MakeUintegerAccessor(&Self::contention_max_),
                          MakeUintegerChecker<std::uint16_t>(1, 1000))
            .AddAttribute("ContentionRange",
                          "Distance of the sender from which on the wait is the least, in m.",
                          UintegerValue(1000), MakeUintegerAccessor(&Self::contention_range_),
                          MakeUintegerChecker<std::uint16_t>(1, 65535))
            .AddAttribute("ContentionCopies",
                          "Number of copies, each of another station, that cancel a held frame.",
                          UintegerValue(2), MakeUintegerAccessor(&Self::contention_copies_),
                          MakeUintegerChecker<std::uint8_t>(1, 3))
            .AddTraceSource("Sent", "A frame with a packet of this station goes to the device.",
                            MakeTraceSourceAccessor(&Self::sent_),
                            "geostation::StationApplication::FrameTrace")
            .AddTraceSource("Forwarded",
                            "A frame with a packet of another station goes to the device.",
                            MakeTraceSourceAccessor(&Self::forwarded_),
                            "geostation::StationApplication::FrameTrace")
            .AddTraceSource("Received", "A frame has arrived, whatever becomes of it.",
                            MakeTraceSourceAccessor(&Self::received_),
                            "geostation::StationApplication::ReceptionTrace")
            .AddTraceSource("Ignored", "A frame has arrived that the station ignores.",
                            MakeTraceSourceAccessor(&Self::ignored_),
                            "geostation::StationApplication::ReceptionTrace")
            .AddTraceSource("Refused", "A frame has arrived that the station rejects.",
                            MakeTraceSourceAccessor(&Self::refused_),
                            "geostation::StationApplication::ReceptionTrace")
            .AddTraceSource("Delivered", "A payload has arrived at an open port.",
                            MakeTraceSourceAccessor(&Self::delivered_),
                            "geostation::StationApplication::DeliveryTrace")
            .AddTraceSource("Held", "A frame is held; the time is when it is due.",
                            MakeTraceSourceAccessor(&Self::held_),
                            "geostation::StationApplication::HeldTrace")
            .AddTraceSource("TakenBack",
                            "A duplicate has cancelled a held frame, or one that waited.",
                            MakeTraceSourceAccessor(&Self::taken_back_),
                            "geostation::StationApplication::KeyTrace")
            .AddTraceSource("Running", "The station has started (true) or stopped (false).",
                            MakeTraceSourceAccessor(&Self::running_),
                            "ns3::TracedCallback::Bool");
    return tid;
}

NS_OBJECT_ENSURE_REGISTERED(StationApplication);

} // namespace geostation

#endif
