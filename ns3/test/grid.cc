// The same road over YansWifiChannel and over the channel with a grid. Prints a hash of all
// receptions (time, station, frame), their number, the events and the processor seconds.
//
//     grid CHANNEL LOSS VEHICLES LENGTH SECONDS
//
// CHANNEL is yans, grid, a grid with a limit of the distance in m, or 0 for one without a limit.
#include "common.hpp"

#include "ns3/constant-velocity-mobility-model.h"

#include <cstring>
#include <ctime>

using namespace ns3;
using geostation::StationApplication;

int main(int argc, char **argv) {
    if (argc != 6) {
        std::cerr << "usage: grid CHANNEL LOSS VEHICLES LENGTH SECONDS\n";
        return 2;
    }
    const std::string kind = argv[1];
    const double length = std::atof(argv[4]), until = std::atof(argv[5]);
    NodeContainer nodes;
    nodes.Create(static_cast<std::uint32_t>(std::atoi(argv[3])));
    const auto random = CreateObject<UniformRandomVariable>();
    random->SetStream(1);
    for (std::uint32_t i = 0; i < nodes.GetN(); i++) {
        const auto mobility = CreateObject<ConstantVelocityMobilityModel>();
        mobility->SetPosition(Vector(random->GetValue(0, length), 4.0 * (i % 4), 1.5));
        mobility->SetVelocity(Vector((i % 4 < 2 ? 1 : -1) * random->GetValue(20, 30), 0, 0));
        nodes.Get(i)->AggregateObject(mobility);
        if (i % 10 == 0) { // one in ten is put elsewhere now and then
            for (double at = 0.05; at < until; at += 0.21) {
                Simulator::Schedule(Seconds(at), [mobility, random, length] {
                    mobility->SetPosition(Vector(random->GetValue(0, length), 2, 1.5));
                });
            }
        }
    }
    const auto channel = MakeChannel(argv[2], 300, kind != "yans");
    if (kind != "yans" && kind != "grid") {
        channel->SetAttribute("Reach", DoubleValue(std::atof(argv[1])));
    }
    geostation::ItsG5Helper radio(channel);
    const NetDeviceContainer devices = radio.Install(nodes);
    std::int64_t stream = 100;
    stream += radio.AssignStreams(devices, stream);
    ObjectFactory factory = MakeFactory("spread");
    ApplicationContainer stations;
    std::uint64_t hash = 1469598103934665603ULL, receptions = 0; // FNV-1a
    const auto add = [&hash](std::uint64_t value) { hash = (hash ^ value) * 1099511628211ULL; };
    for (std::uint32_t i = 0; i < nodes.GetN(); i++) {
        const auto station = factory.Create<StationApplication>();
        nodes.Get(i)->AddApplication(station);
        stream += station->AssignStreams(stream);
        station->SetAttribute("Capacity", UintegerValue(4096));
        station->Check(station->OpenPort(kWarning));
        stations.Add(station);
        station->TraceConnectWithoutContext(
            "Received", Callback<void, Ptr<const Packet>, const geostation::Reception &>(
                            [&, i](Ptr<const Packet> packet, const geostation::Reception &) {
                                receptions++;
                                add(static_cast<std::uint64_t>(Simulator::Now().GetNanoSeconds()));
                                add(i);
                                add(packet->GetUid());
                            }));
    }
    Awareness awareness(stations, 10, 300, 2);
    Simulator::Schedule(Seconds(until / 2), [&] {
        Warn(DynamicCast<StationApplication>(stations.Get(0)), 1000, 10, 0);
    });
    const std::clock_t began = std::clock();
    Simulator::Stop(Seconds(until));
    Simulator::Run();
    std::printf("%016" PRIx64 " %" PRIu64 " receptions %" PRIu64 " events %.2f s\n", hash,
                receptions, Simulator::GetEventCount(),
                static_cast<double>(std::clock() - began) / CLOCKS_PER_SEC);
    Simulator::Destroy();
}
