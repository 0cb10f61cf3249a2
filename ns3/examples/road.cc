// A road: vehicles on four lanes send awareness messages over IEEE 802.11p, and the one in the
// middle warns those around it.
#include "common.hpp"

#include "ns3/command-line.h"
#include "ns3/constant-velocity-mobility-model.h"

using namespace ns3;
using geostation::StationApplication;

int main(int argc, char **argv) {
    unsigned count = 100, radius = 1000, hops = 10, traffic_class = 0, bytes = 300;
    double length = 2000, range = 300, rate = 10, at = 1.5, until = 2;
    bool is_grid = false;
    std::string loss = "log", forward = "spread", sends_file, stations_file, busy_file, moves_file,
                pcap;
    CommandLine line(__FILE__);
    line.AddValue("count", "Number of vehicles", count);
    line.AddValue("length", "Length of the road, m", length);
    line.AddValue("rate", "Awareness messages of a vehicle per second", rate);
    line.AddValue("bytes", "Payload of an awareness message", bytes);
    line.AddValue("radius", "Radius of the warning's area, m", radius);
    line.AddValue("hops", "Hop limit of the warning", hops);
    line.AddValue("tc", "Traffic class of the warning, 0 (AC_VO) to 3 (AC_BK)", traffic_class);
    line.AddValue("at", "Time of the warning, s", at);
    line.AddValue("until", "End of the run, s", until);
    line.AddValue("forward", "now, spread, contention or any", forward);
    line.AddValue("loss", "disk, log or nakagami", loss);
    line.AddValue("range", "Range of disk, and of the column `lost`, m", range);
    line.AddValue("grid", "Use the channel with a grid", is_grid);
    line.AddValue("sends", "File for the columns of sim --sends", sends_file);
    line.AddValue("stations", "File for the columns of sim --stations", stations_file);
    line.AddValue("busy", "File for the channel busy ratio of each second and station", busy_file);
    line.AddValue("moves", "File for the positions, which sim --moves reads", moves_file);
    line.AddValue("pcap", "File for the frames of the vehicle that warns", pcap);
    line.Parse(argc, argv);

    // Nodes on the lanes. Two lanes go east, two go west.
    NodeContainer nodes;
    nodes.Create(count);
    const auto random = CreateObject<UniformRandomVariable>();
    random->SetStream(1);
    std::uint32_t middle = 0;
    double nearest = length;
    for (std::uint32_t i = 0; i < count; i++) {
        const auto mobility = CreateObject<ConstantVelocityMobilityModel>();
        const double x = random->GetValue(0, length);
        mobility->SetPosition(Vector(x, 4.0 * (i % 4), 1.5));
        mobility->SetVelocity(Vector((i % 4 < 2 ? 1 : -1) * random->GetValue(20, 30), 0, 0));
        nodes.Get(i)->AggregateObject(mobility);
        if (std::abs(x - length / 2) < nearest) {
            nearest = std::abs(x - length / 2);
            middle = i;
        }
    }

    // Radios, and stations on them.
    geostation::ItsG5Helper radio(MakeChannel(loss, range, is_grid));
    const NetDeviceContainer devices = radio.Install(nodes);
    std::int64_t stream = 100;
    stream += radio.AssignStreams(devices, stream);
    if (!pcap.empty()) {
        radio.EnablePcap(pcap, devices.Get(middle));
    }
    ObjectFactory factory = MakeFactory(forward);
    ApplicationContainer stations;
    for (std::uint32_t i = 0; i < count; i++) {
        const auto station = factory.Create<StationApplication>();
        nodes.Get(i)->AddApplication(station);
        stream += station->AssignStreams(stream);
        station->Check(station->OpenPort(kWarning));
        stations.Add(station);
    }
    geostation::Results results(range);
    geostation::ChannelBusy busy;
    results.Add(stations);
    busy.Add(devices);
    results.SetBusy([&busy](std::size_t i) { return busy.GetBusy(i); });
    Awareness awareness(stations, rate, bytes, 2);
    Simulator::Schedule(Seconds(at), [&] {
        Warn(DynamicCast<StationApplication>(stations.Get(middle)), radius, hops, traffic_class);
    });

    // The positions every 100 ms, so that `sim` can run the same road.
    std::ofstream moves;
    if (!moves_file.empty()) {
        moves.open(moves_file);
        moves << "at,id,lat,lon,speed,heading\n";
        for (std::uint64_t ms = 0; ms <= static_cast<std::uint64_t>(1000 * until); ms += 100) {
            Simulator::Schedule(MilliSeconds(ms), [&nodes, &moves, ms] {
                for (std::uint32_t i = 0; i < nodes.GetN(); i++) {
                    const auto mobility = nodes.Get(i)->GetObject<MobilityModel>();
                    const auto place = geostation::Plane().ToPlace(mobility->GetPosition());
                    const Vector velocity = mobility->GetVelocity();
                    moves << ms << ',' << i << ',' << place.latitude << ',' << place.longitude
                          << ',' << geostation::SpeedOf(velocity) << ','
                          << geostation::HeadingOf(velocity) << '\n';
                }
            });
        }
    }

    Simulator::Stop(Seconds(until));
    Simulator::Run();
    PrintSends(results);
    std::cout << "channel busy " << MeanBusy(busy, stations, Seconds(at - 1), Seconds(at))
              << " % in the second before the warning, on average\n";
    std::cerr << count << " nodes, " << Simulator::GetEventCount() << " events\n";
    if (!sends_file.empty()) {
        std::ofstream out(sends_file);
        results.WriteSends(out);
    }
    if (!stations_file.empty()) {
        std::ofstream out(stations_file);
        results.WriteStations(out);
    }
    if (!busy_file.empty()) {
        std::ofstream out(busy_file);
        busy.Write(out, Seconds(until));
    }
    Simulator::Destroy();
}
