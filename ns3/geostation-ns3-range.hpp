// geostation-ns3-range.hpp: the radio model of `geostation sim` as a channel of ns-3. Each frame
// arrives at every station within a range of its sender, after a fixed delay. Nobody waits for the
// channel, and no frame is lost. It needs the modules of geostation-ns3.hpp.
#ifndef GEOSTATION_NS3_RANGE_HPP
#define GEOSTATION_NS3_RANGE_HPP

#include "geostation-ns3.hpp"

#include "ns3/error-model.h"
#include "ns3/net-device-container.h"
#include "ns3/node-container.h"
#include "ns3/queue.h"
#include "ns3/simple-channel.h"
#include "ns3/simple-net-device.h"

namespace geostation {

/// A device that sends a frame at once, whatever it sends already.
class RangeNetDevice : public ns3::SimpleNetDevice {
  public:
    static ns3::TypeId GetTypeId() {
        static ns3::TypeId tid = ns3::TypeId("geostation::RangeNetDevice")
                                     .SetParent<ns3::SimpleNetDevice>()
                                     .SetGroupName("geostation")
                                     .AddConstructor<RangeNetDevice>();
        return tid;
    }

    bool Send(ns3::Ptr<ns3::Packet> packet, const ns3::Address &to,
              std::uint16_t protocol) override {
        return SendFrom(packet, GetAddress(), to, protocol);
    }

    bool SendFrom(ns3::Ptr<ns3::Packet> packet, const ns3::Address &from, const ns3::Address &to,
                  std::uint16_t protocol) override {
        ns3::StaticCast<ns3::SimpleChannel>(GetChannel())
            ->Send(packet, protocol, ns3::Mac48Address::ConvertFrom(to),
                   ns3::Mac48Address::ConvertFrom(from), this);
        return true;
    }
};

/// The channel of these devices. It looks at the positions of nodes when a frame is sent. The first
/// application of each node is its station.
class RangeChannel : public ns3::SimpleChannel {
  public:
    static ns3::TypeId GetTypeId() {
        static ns3::TypeId tid =
            ns3::TypeId("geostation::RangeChannel")
                .SetParent<ns3::SimpleChannel>()
                .SetGroupName("geostation")
                .AddConstructor<RangeChannel>()
                .AddAttribute("Range", "Distance at which a frame still arrives, in whole metres.",
                              ns3::UintegerValue(300),
                              ns3::MakeUintegerAccessor(&RangeChannel::range_),
                              ns3::MakeUintegerChecker<std::uint16_t>(1));
        return tid;
    }

    void Send(ns3::Ptr<ns3::Packet> packet, std::uint16_t protocol, ns3::Mac48Address to,
              ns3::Mac48Address from, ns3::Ptr<ns3::SimpleNetDevice> sender) override {
        ns3::TimeValue delay;
        GetAttribute("Delay", delay);
        const std::uint64_t most = 100 * std::uint64_t{range_};
        const Place place = StationOf(sender)->GetPlace();
        for (std::size_t i = 0; i < GetNDevices(); i++) {
            const auto receiver = ns3::StaticCast<ns3::SimpleNetDevice>(GetDevice(i));
            const auto station = StationOf(receiver);
            if (receiver != sender && station->IsRunning() &&
                Plane::SquaredDistance(place, station->GetPlace()) <= most * most) {
                ns3::Simulator::ScheduleWithContext(
                    receiver->GetNode()->GetId(), delay.Get(), &ns3::SimpleNetDevice::Receive,
                    receiver, packet->Copy(), protocol, to, from);
            }
        }
    }

    /// Makes devices for some nodes. They have new MAC addresses.
    ns3::NetDeviceContainer Install(const ns3::NodeContainer &nodes) {
        ns3::NetDeviceContainer devices;
        for (auto node = nodes.Begin(); node != nodes.End(); ++node) {
            auto device = ns3::CreateObject<RangeNetDevice>();
            device->SetAddress(ns3::Mac48Address::Allocate());
            (*node)->AddDevice(device);
            device->SetChannel(this);
            devices.Add(device);
        }
        return devices;
    }

  private:
    static ns3::Ptr<StationApplication> StationOf(const ns3::Ptr<ns3::NetDevice> &device) {
        return ns3::StaticCast<StationApplication>(device->GetNode()->GetApplication(0));
    }

    std::uint16_t range_ = 300;
};

NS_OBJECT_ENSURE_REGISTERED(RangeNetDevice);
NS_OBJECT_ENSURE_REGISTERED(RangeChannel);

} // namespace geostation

#endif
