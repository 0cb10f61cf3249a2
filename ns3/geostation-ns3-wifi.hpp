// geostation-ns3-wifi.hpp: devices for IEEE 802.11p, the channel busy ratio, and a faster channel.
// It needs the modules wave, wifi and propagation, and those of geostation-ns3.hpp.
#ifndef GEOSTATION_NS3_WIFI_HPP
#define GEOSTATION_NS3_WIFI_HPP

#include "geostation-ns3.hpp"

#include "ns3/constant-position-mobility-model.h"
#include "ns3/double.h"
#include "ns3/mobility-model.h"
#include "ns3/node-container.h"
#include "ns3/pointer.h"
#include "ns3/propagation-delay-model.h"
#include "ns3/propagation-loss-model.h"
#include "ns3/string.h"
#include "ns3/wave-mac-helper.h"
#include "ns3/wifi-80211p-helper.h"
#include "ns3/wifi-net-device.h"
#include "ns3/wifi-phy-state-helper.h"
#include "ns3/wifi-ppdu.h"
#include "ns3/wifi-psdu.h"
#include "ns3/wifi-utils.h"
#include "ns3/yans-wifi-channel.h"
#include "ns3/yans-wifi-helper.h"
#include "ns3/yans-wifi-phy.h"

#include <algorithm>
#include <cmath>
#include <cstdint>
#include <cstdio>
#include <ostream>
#include <string>
#include <unordered_map>
#include <utility>
#include <vector>

namespace geostation {

/// A YansWifiChannel that makes no event at a radio at which the signal is too weak to be received.
/// YansWifiChannel makes one at each radio for each frame. The receptions are the same. The radios
/// must be `GridWifiPhy`.
///
/// If `Reach` is not 0, the loss is not even computed for radios that are further away: a grid of
/// positions finds the others. The receptions are still the same if the loss has no random part and
/// grows with the distance, and if the signal is too weak at this distance (`FindReach`).
class GridWifiChannel : public ns3::YansWifiChannel {
  public:
    static ns3::TypeId GetTypeId() {
        static ns3::TypeId tid =
            ns3::TypeId("geostation::GridWifiChannel")
                .SetParent<ns3::YansWifiChannel>()
                .SetGroupName("geostation")
                .AddConstructor<GridWifiChannel>()
                .AddAttribute("Reach",
                              "Distance in m beyond which no loss is computed. 0 is no limit.",
                              ns3::DoubleValue(0),
                              ns3::MakeDoubleAccessor(&GridWifiChannel::reach_),
                              ns3::MakeDoubleChecker<double>(0))
                .AddAttribute("MaxSpeed",
                              "Greatest speed of a node in m/s. A node may also be put elsewhere "
                              "by its mobility model, if that reports a course change.",
                              ns3::DoubleValue(100),
                              ns3::MakeDoubleAccessor(&GridWifiChannel::max_speed_),
                              ns3::MakeDoubleChecker<double>(0))
                .AddAttribute("Refresh", "Time after which all positions are read again.",
                              ns3::TimeValue(ns3::MilliSeconds(200)),
                              ns3::MakeTimeAccessor(&GridWifiChannel::refresh_),
                              ns3::MakeTimeChecker());
        return tid;
    }

    /// Returns the distance in m at which a signal of this power is as weak as the sensitivity,
    /// both in dBm, for a loss model without a random part whose loss grows with the distance. Add
    /// the gains of sender and receiver to the power.
    static double FindReach(const ns3::Ptr<ns3::PropagationLossModel> &loss, double power,
                            double sensitivity) {
        const auto here = ns3::CreateObject<ns3::ConstantPositionMobilityModel>();
        const auto there = ns3::CreateObject<ns3::ConstantPositionMobilityModel>();
        double low = 1, high = 1e6;
        while (high - low > 0.01) {
            const double middle = (low + high) / 2;
            there->SetPosition(ns3::Vector(middle, 0, 0));
            (loss->CalcRxPower(power, here, there) >= sensitivity ? low : high) = middle;
        }
        return high;
    }

    /// Passes a frame to the radios that can receive it. `GridWifiPhy` calls this.
    void Transmit(const ns3::Ptr<ns3::YansWifiPhy> &sender,
                  const ns3::Ptr<const ns3::WifiPpdu> &ppdu, double power) {
        FindRadios();
        const auto mobility = sender->GetMobility();
        if (reach_ <= 0) {
            for (const Radio &radio : radios_) {
                TransmitTo(radio, sender, mobility, ppdu, power);
            }
            return;
        }
        const ns3::Time now = ns3::Simulator::Now();
        if (now - read_ >= refresh_) {
            ReadPositions();
        } else {
            ReadChanged();
        }
        const double limit = reach_ + max_speed_ * (now - read_).GetSeconds();
        const ns3::Vector at = mobility->GetPosition();
        near_.clear();
        for (std::int64_t x = CellOf(at.x - limit); x <= CellOf(at.x + limit); x++) {
            for (std::int64_t y = CellOf(at.y - limit); y <= CellOf(at.y + limit); y++) {
                const auto cell = cells_.find(KeyOf(x, y));
                if (cell != cells_.end()) {
                    for (const std::uint32_t i : cell->second) {
                        const ns3::Vector &p = positions_[i];
                        const double dx = p.x - at.x, dy = p.y - at.y;
                        if (dx * dx + dy * dy <= limit * limit) {
                            near_.push_back(i);
                        }
                    }
                }
            }
        }
        // In the order of the radios, as events of one time are run in the order of their making.
        std::sort(near_.begin(), near_.end());
        for (const std::uint32_t i : near_) {
            TransmitTo(radios_[i], sender, mobility, ppdu, power);
        }
    }

  private:
    struct Radio {
        ns3::Ptr<ns3::YansWifiPhy> phy;
        ns3::Ptr<ns3::MobilityModel> mobility;
        std::uint32_t node;
    };

    void TransmitTo(const Radio &radio, const ns3::Ptr<ns3::YansWifiPhy> &sender,
                    const ns3::Ptr<ns3::MobilityModel> &mobility,
                    const ns3::Ptr<const ns3::WifiPpdu> &ppdu, double power) {
        if (radio.phy == sender || radio.phy->GetChannelNumber() != sender->GetChannelNumber()) {
            return;
        }
        const double received = loss_->CalcRxPower(power, mobility, radio.mobility);
        const std::uint16_t width = ppdu->GetTransmissionChannelWidth();
        if (received + radio.phy->GetRxGain() <
            radio.phy->GetRxSensitivity() + ns3::RatioToDb(width / 20.0)) {
            return;
        }
        ns3::Simulator::ScheduleWithContext(radio.node, delay_->GetDelay(mobility, radio.mobility),
                                            &GridWifiChannel::Arrive, radio.phy, ppdu, received);
    }

    static void Arrive(ns3::Ptr<ns3::YansWifiPhy> phy, ns3::Ptr<const ns3::WifiPpdu> ppdu,
                       double power) {
        ns3::RxPowerWattPerChannelBand watts;
        watts.insert({std::make_pair(0, 0), ns3::DbmToW(power + phy->GetRxGain())});
        phy->StartReceivePreamble(ppdu, watts, ppdu->GetTxDuration());
    }

    // Reads which radios there are. Devices may be added until the first frame.
    void FindRadios() {
        if (radios_.size() == GetNDevices()) {
            return;
        }
        ns3::PointerValue value;
        GetAttribute("PropagationLossModel", value);
        loss_ = value.Get<ns3::PropagationLossModel>();
        GetAttribute("PropagationDelayModel", value);
        delay_ = value.Get<ns3::PropagationDelayModel>();
        for (std::size_t i = radios_.size(); i < GetNDevices(); i++) {
            const auto device = ns3::DynamicCast<ns3::WifiNetDevice>(GetDevice(i));
            const auto phy = ns3::StaticCast<ns3::YansWifiPhy>(device->GetPhy());
            const auto number = static_cast<std::uint32_t>(i);
            radios_.push_back({phy, phy->GetMobility(), device->GetNode()->GetId()});
            if (reach_ > 0) {
                // A mobility model that puts its node elsewhere reports it.
                phy->GetMobility()->TraceConnectWithoutContext(
                    "CourseChange", ns3::Callback<void, ns3::Ptr<const ns3::MobilityModel>>(
                                        [this, number](ns3::Ptr<const ns3::MobilityModel>) {
                                            changed_.push_back(number);
                                        }));
            }
        }
        if (reach_ > 0) {
            ReadPositions();
        }
    }

    std::int64_t CellOf(double metres) const {
        return static_cast<std::int64_t>(std::floor(metres / (reach_ / 2)));
    }
    static std::uint64_t KeyOf(std::int64_t x, std::int64_t y) {
        return static_cast<std::uint64_t>(x) << 32 ^ (static_cast<std::uint64_t>(y) & 0xffffffff);
    }
    std::vector<std::uint32_t> &CellAt(const ns3::Vector &at) {
        return cells_[KeyOf(CellOf(at.x), CellOf(at.y))];
    }

    void ReadPositions() {
        read_ = ns3::Simulator::Now();
        cells_.clear();
        positions_.resize(radios_.size());
        for (std::size_t i = 0; i < radios_.size(); i++) {
            positions_[i] = radios_[i].mobility->GetPosition();
            CellAt(positions_[i]).push_back(static_cast<std::uint32_t>(i));
        }
        changed_.clear();
    }

    // Reads the positions of nodes whose course has changed: they may have been put elsewhere.
    void ReadChanged() {
        for (const std::uint32_t i : std::exchange(changed_, {})) {
            auto &old = CellAt(positions_[i]);
            old.erase(std::find(old.begin(), old.end(), i));
            positions_[i] = radios_[i].mobility->GetPosition();
            CellAt(positions_[i]).push_back(i);
        }
    }

    double reach_ = 0, max_speed_ = 100;
    ns3::Time refresh_, read_;
    ns3::Ptr<ns3::PropagationLossModel> loss_;
    ns3::Ptr<ns3::PropagationDelayModel> delay_;
    std::vector<Radio> radios_;
    std::vector<ns3::Vector> positions_;
    std::unordered_map<std::uint64_t, std::vector<std::uint32_t>> cells_;
    std::vector<std::uint32_t> near_, changed_;
};

/// A radio that sends over a `GridWifiChannel`.
class GridWifiPhy : public ns3::YansWifiPhy {
  public:
    static ns3::TypeId GetTypeId() {
        static ns3::TypeId tid = ns3::TypeId("geostation::GridWifiPhy")
                                     .SetParent<ns3::YansWifiPhy>()
                                     .SetGroupName("geostation")
                                     .AddConstructor<GridWifiPhy>();
        return tid;
    }

    void StartTx(ns3::Ptr<const ns3::WifiPpdu> ppdu, const ns3::WifiTxVector &vector) override {
        const auto channel = ns3::DynamicCast<GridWifiChannel>(GetChannel());
        NS_ABORT_MSG_UNLESS(channel, "the channel of a GridWifiPhy must be a GridWifiChannel");
        channel->Transmit(this, ppdu, GetPowerDbm(vector.GetTxPowerLevel()) + GetTxGain());
    }
};

NS_OBJECT_ENSURE_REGISTERED(GridWifiChannel);
NS_OBJECT_ENSURE_REGISTERED(GridWifiPhy);

/// Installs devices for IEEE 802.11p outside the context of a BSS: 6 Mbit/s in 10 MHz at channel
/// 180 (5.9 GHz), with the EDCA parameters of 802.11p. Change the PHY by `GetPhy` before `Install`.
class ItsG5Helper {
  public:
    explicit ItsG5Helper(const ns3::Ptr<ns3::YansWifiChannel> &channel) : channel_(channel) {
        const bool is_grid = ns3::DynamicCast<GridWifiChannel>(channel) != nullptr;
        phy_.Use(is_grid ? "geostation::GridWifiPhy" : "ns3::YansWifiPhy");
        phy_.SetChannel(channel);
        phy_.Set("ChannelSettings", ns3::StringValue("{180, 10, BAND_5GHZ, 0}"));
        phy_.Set("TxPowerStart", ns3::DoubleValue(21));
        phy_.Set("TxPowerEnd", ns3::DoubleValue(21));
        // The default of -82 dBm is for 20 MHz.
        phy_.SetPreambleDetectionModel("ns3::ThresholdPreambleDetectionModel", "MinimumRssi",
                                       ns3::DoubleValue(-85));
        phy_.SetPcapDataLinkType(ns3::WifiPhyHelper::DLT_IEEE802_11_RADIO);
    }

    ns3::NetDeviceContainer Install(const ns3::NodeContainer &nodes) {
        return wifi_.Install(phy_, ns3::QosWaveMacHelper::Default(), nodes);
    }

    /// Fixes the random streams of the channel and of some devices. Returns how many it has used.
    std::int64_t AssignStreams(const ns3::NetDeviceContainer &devices, std::int64_t stream) {
        const std::int64_t first = stream;
        stream += channel_->AssignStreams(stream);
        stream += wifi_.AssignStreams(devices, stream);
        return stream - first;
    }

    /// Writes what the radio of a device sends and receives to a pcap file, which `geostation show`
    /// reads. The link type is radiotap.
    void EnablePcap(const std::string &file, const ns3::Ptr<ns3::NetDevice> &device) {
        phy_.EnablePcap(file, device, false, true);
    }

    ns3::WifiPhyHelper &GetPhy() { return phy_; }

  private:
    class PhyHelper : public ns3::YansWifiPhyHelper {
      public:
        void Use(const std::string &type) { m_phy.at(0).SetTypeId(type); }
    };

    ns3::Ptr<ns3::YansWifiChannel> channel_;
    PhyHelper phy_;
    ns3::Wifi80211pHelper wifi_ = ns3::Wifi80211pHelper::Default();
};

/// Measures how long the radio of each device sends, receives, or finds the channel busy. Add the
/// devices in the order of the station numbers. It must outlive the run.
class ChannelBusy {
  public:
    ChannelBusy() = default;
    ChannelBusy(const ChannelBusy &) = delete;
    ChannelBusy &operator=(const ChannelBusy &) = delete;

    void Add(const ns3::Ptr<ns3::NetDevice> &device) {
        const std::size_t i = busy_.size();
        busy_.emplace_back();
        const auto wifi = ns3::DynamicCast<ns3::WifiNetDevice>(device);
        NS_ABORT_MSG_UNLESS(wifi, "a channel busy ratio needs a WifiNetDevice");
        using namespace ns3; // later releases have WifiPhyState in this namespace
        wifi->GetPhy()->GetState()->TraceConnectWithoutContext(
            "State", Callback<void, Time, Time, WifiPhyState>(
                         [this, i](Time from, Time lasts, WifiPhyState state) {
                             if (state == WifiPhyState::TX || state == WifiPhyState::RX ||
                                 state == WifiPhyState::CCA_BUSY) {
                                 AddTime(busy_[i], from.GetNanoSeconds(), lasts.GetNanoSeconds());
                             }
                         }));
    }

    void Add(const ns3::NetDeviceContainer &devices) {
        for (auto device = devices.Begin(); device != devices.End(); ++device) {
            Add(*device);
        }
    }

    /// Returns the channel busy ratio at a station between two times, 0 to 1. Both times are whole
    /// windows of 100 ms.
    double GetRatio(std::size_t station, ns3::Time from, ns3::Time to) const {
        double sum = 0;
        for (std::int64_t at = from.GetNanoSeconds(); at < to.GetNanoSeconds(); at += kWindow) {
            const auto window = static_cast<std::size_t>(at / kWindow);
            sum += window < busy_[station].size() ? busy_[station][window] : 0;
        }
        return sum / static_cast<double>((to - from).GetNanoSeconds());
    }

    /// Returns the microseconds in which the channel was busy at a station, and the most in a
    /// window of 100 ms. `Results::SetBusy` takes this.
    std::pair<double, double> GetBusy(std::size_t station) const {
        double sum = 0, most = 0;
        for (const double window : busy_[station]) {
            sum += window / 1000;
            most = std::max(most, window / 1000);
        }
        return {sum, most};
    }

    /// Writes a row `second,station,busy` for each second until `end` and each station. `busy` is
    /// the channel busy ratio in percent. The last second counts up to `end`.
    void Write(std::ostream &out, ns3::Time end) const {
        out << "second,station,busy\n";
        for (ns3::Time from; from < end; from += ns3::Seconds(1)) {
            const ns3::Time to = ns3::Min(from + ns3::Seconds(1), end);
            for (std::size_t i = 0; i < busy_.size(); i++) {
                char text[16];
                std::snprintf(text, sizeof text, "%.2f", 100 * GetRatio(i, from, to));
                out << from.GetSeconds() << ',' << i << ',' << text << '\n';
            }
        }
    }

  private:
    static constexpr std::int64_t kWindow = 100'000'000; // ns

    static void AddTime(std::vector<double> &windows, std::int64_t at, std::int64_t lasts) {
        for (const std::int64_t end = at + lasts; at < end;) {
            const std::int64_t window = at / kWindow;
            const std::int64_t next = std::min(end, (window + 1) * kWindow);
            const auto index = static_cast<std::size_t>(window);
            if (windows.size() <= index) {
                windows.resize(index + 1);
            }
            windows[index] += static_cast<double>(next - at);
            at = next;
        }
    }

    std::vector<std::vector<double>> busy_; // ns in each window, of each station
};

} // namespace geostation

#endif
