// A warning among beacons: stations that stand in a square and send only beacons. After ten seconds
// one of them warns all. Prints how many beacons were received, and whom the warning has reached.
#include "common.hpp"

#include "ns3/command-line.h"

using namespace ns3;
using geostation::StationApplication;

int main(int argc, char **argv) {
    unsigned count = 50;
    double side = 200, until = 20;
    std::string forward = "spread";
    CommandLine line(__FILE__);
    line.AddValue("count", "Number of stations", count);
    line.AddValue("side", "Side of the square, m", side);
    line.AddValue("until", "End of the run, s", until);
    line.AddValue("forward", "now, spread or contention", forward);
    line.Parse(argc, argv);

    NodeContainer nodes;
    nodes.Create(count);
    const auto random = CreateObject<UniformRandomVariable>();
    random->SetStream(1);
    for (std::uint32_t i = 0; i < count; i++) {
        const auto mobility = CreateObject<ConstantPositionMobilityModel>();
        const double x = random->GetValue(0, side), y = random->GetValue(0, side);
        mobility->SetPosition(Vector(x, y, 1.5));
        nodes.Get(i)->AggregateObject(mobility);
    }
    geostation::ItsG5Helper radio(MakeChannel("log", 300, false));
    const NetDeviceContainer devices = radio.Install(nodes);
    std::int64_t stream = 100;
    stream += radio.AssignStreams(devices, stream);
    ObjectFactory factory = MakeFactory(forward);
    geostation::Results results;
    std::uint64_t sent = 0, received = 0;
    Ptr<StationApplication> first;
    for (std::uint32_t i = 0; i < count; i++) {
        const auto station = factory.Create<StationApplication>();
        nodes.Get(i)->AddApplication(station);
        stream += station->AssignStreams(stream);
        station->Check(station->OpenPort(kWarning));
        results.Add(station);
        first = i == 0 ? station : first;
        using Frame = Ptr<const Packet>;
        station->TraceConnectWithoutContext(
            "Sent", Callback<void, Frame, const geostation::Transmission &>(
                        [&sent](Frame, const geostation::Transmission &frame) {
                            sent += frame.key.kind == GEOSTATION_BEACON;
                        }));
        station->TraceConnectWithoutContext(
            "Received", Callback<void, Frame, const geostation::Reception &>(
                            [&received](Frame, const geostation::Reception &frame) {
                                received += frame.key.kind == GEOSTATION_BEACON;
                            }));
    }
    Simulator::Schedule(Seconds(10), [&] { Warn(first, 1000, 10, 0); });
    Simulator::Stop(Seconds(until));
    Simulator::Run();
    PrintSends(results);
    std::cout << sent << " beacons, received by "
              << 100.0 * static_cast<double>(received) / static_cast<double>(sent * (count - 1))
              << " % of the other stations\n";
    Simulator::Destroy();
}
