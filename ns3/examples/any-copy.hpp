// Contention as EN 302 636-4-1, annex F.3 has it, for comparison with the station's own (attribute
// `Contention`): any copy of a packet takes the waiting frame back, also one that this station has
// not the same frame of. It is a subclass of the station's application. Nothing about it is proved.
//
// The further away the sender of a frame is, the shorter the station waits before it forwards it.
#ifndef ANY_COPY_HPP
#define ANY_COPY_HPP

#include "geostation-ns3.hpp"

#include "ns3/double.h"

class AnyCopyApplication : public geostation::StationApplication {
  public:
    static ns3::TypeId GetTypeId() {
        static ns3::TypeId tid =
            ns3::TypeId("AnyCopyApplication")
                .SetParent<geostation::StationApplication>()
                .AddConstructor<AnyCopyApplication>()
                .AddAttribute("MinWait", "Wait for a sender at `Reach` or further away.",
                              ns3::TimeValue(ns3::MilliSeconds(1)),
                              ns3::MakeTimeAccessor(&AnyCopyApplication::min_wait_),
                              ns3::MakeTimeChecker())
                .AddAttribute("MaxWait", "Wait for a sender at the same position.",
                              ns3::TimeValue(ns3::MilliSeconds(100)),
                              ns3::MakeTimeAccessor(&AnyCopyApplication::max_wait_),
                              ns3::MakeTimeChecker())
                .AddAttribute("Reach", "Greatest distance at which frames arrive, in m.",
                              ns3::DoubleValue(1000),
                              ns3::MakeDoubleAccessor(&AnyCopyApplication::reach_),
                              ns3::MakeDoubleChecker<double>(1));
        return tid;
    }

  protected:
    ns3::Time WaitOf(const geostation::Reception &reception) override {
        const auto now = static_cast<std::uint64_t>(ns3::Simulator::Now().GetMilliSeconds());
        const auto sender = GetStation()->look_up(now, AddressOf(reception.from));
        if (!sender) {
            return max_wait_; // it is not in the location table
        }
        const geostation::Place place{sender->latitude, sender->longitude};
        const double metres =
            std::sqrt(static_cast<double>(geostation::Plane::SquaredDistance(GetPlace(), place))) /
            100;
        const double share = std::min(1.0, metres / reach_);
        return max_wait_ - ns3::Seconds(share * (max_wait_ - min_wait_).GetSeconds());
    }

    bool TakesBack(const geostation::Reception &) override { return true; }

  private:
    ns3::Time min_wait_, max_wait_;
    double reach_ = 1000;
};

NS_OBJECT_ENSURE_REGISTERED(AnyCopyApplication);

#endif
