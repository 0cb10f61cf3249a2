// A town: vehicles of a SUMO trace send awareness messages over IEEE 802.11p, and one of them warns
// those around it. `--medium=range` has the radio model of `geostation sim` instead: no frame is
// lost, and nobody waits for the channel.
#include "common.hpp"
#include "geostation-ns3-moves.hpp"
#include "geostation-ns3-range.hpp"

#include "ns3/command-line.h"

using namespace ns3;
using geostation::StationApplication;

int main(int argc, char **argv) {
    unsigned radius = 500, hops = 10, traffic_class = 0, bytes = 300, range = 300;
    double begin = 0, rate = 10, at = 1, until = 1.5;
    bool is_grid = true;
    std::string file, id, medium = "wifi", loss = "log", forward = "spread", sends_file,
                          stations_file, busy_file, pcap;
    CommandLine line(__FILE__);
    line.AddValue("moves", "Vehicles: a file for sim --moves", file);
    line.AddValue("begin", "Time of the file at which the run begins, s", begin);
    line.AddValue("id", "Vehicle that warns", id);
    line.AddValue("rate", "Awareness messages of a vehicle per second", rate);
    line.AddValue("bytes", "Payload of an awareness message", bytes);
    line.AddValue("radius", "Radius of the warning's area, m", radius);
    line.AddValue("hops", "Hop limit of the warning", hops);
    line.AddValue("tc", "Traffic class of the warning, 0 (AC_VO) to 3 (AC_BK)", traffic_class);
    line.AddValue("at", "Time of the warning, s", at);
    line.AddValue("until", "End of the run, s", until);
    line.AddValue("forward", "now, spread, contention or any", forward);
    line.AddValue("medium", "wifi or range", medium);
    line.AddValue("loss", "disk, log or nakagami", loss);
    line.AddValue("range", "Range of disk, of the medium range, and of the column `lost`, m",
                  range);
    line.AddValue("grid", "Use the channel with a grid", is_grid);
    line.AddValue("sends", "File for the columns of sim --sends", sends_file);
    line.AddValue("stations", "File for the columns of sim --stations", stations_file);
    line.AddValue("busy", "File for the channel busy ratio of each second and station", busy_file);
    line.AddValue("pcap", "File for the frames of the vehicle that warns", pcap);
    line.Parse(argc, argv);
    NS_ABORT_MSG_IF(file.empty(), "--moves names the file of the vehicles");
    NS_ABORT_MSG_UNLESS(medium == "wifi" || medium == "range", "the medium is wifi or range");
    const bool is_wifi = medium == "wifi";

    // Nodes where the file has vehicles, and stations on them.
    const geostation::MovesHelper moves(file, Seconds(begin), Seconds(until));
    const NodeContainer &nodes = moves.GetNodes();
    geostation::ItsG5Helper radio(MakeChannel(loss, range, is_grid));
    geostation::ChannelBusy busy;
    geostation::Results results(range);
    NetDeviceContainer devices;
    std::int64_t stream = 100;
    if (is_wifi) {
        devices = radio.Install(nodes);
        stream += radio.AssignStreams(devices, stream);
        busy.Add(devices);
        results.SetBusy([&busy](std::size_t i) { return busy.GetBusy(i); });
    } else {
        const auto channel = CreateObjectWithAttributes<geostation::RangeChannel>(
            "Range", UintegerValue(range), "Delay", TimeValue(MilliSeconds(1)));
        devices = channel->Install(nodes);
    }
    const ApplicationContainer stations = moves.Install(MakeFactory(forward));
    Ptr<StationApplication> warner;
    for (std::uint32_t i = 0; i < stations.GetN(); i++) {
        const auto station = DynamicCast<StationApplication>(stations.Get(i));
        const auto &vehicle = moves.GetVehicles()[i];
        stream += station->AssignStreams(stream);
        station->Check(station->OpenPort(kWarning));
        results.Add(station, vehicle.id);
        if (vehicle.id == id) {
            warner = station;
        }
        if (!is_wifi) {
            continue;
        }
        if (vehicle.id == id && !pcap.empty()) {
            radio.EnablePcap(pcap, devices.Get(i));
        }
        // The radio of a vehicle that is not there is off.
        const auto phy = StaticCast<WifiNetDevice>(devices.Get(i))->GetPhy();
        if (vehicle.from.IsStrictlyPositive()) {
            Simulator::Schedule(Time(0), &WifiPhy::SetOffMode, phy);
            Simulator::Schedule(vehicle.from, &WifiPhy::ResumeFromOff, phy);
        }
        Simulator::Schedule(vehicle.to, &WifiPhy::SetOffMode, phy);
    }
    NS_ABORT_MSG_UNLESS(warner, "there is no vehicle '" << id << "': --id names it");
    Awareness awareness(stations, rate, bytes, 2);
    Simulator::Schedule(Seconds(at), [&] { Warn(warner, radius, hops, traffic_class); });

    Simulator::Stop(Seconds(until));
    Simulator::Run();
    PrintSends(results);
    if (is_wifi) {
        std::cout << "channel busy " << MeanBusy(busy, stations, Seconds(0.1), Seconds(at))
                  << " % before the warning, on average\n";
    }
    std::cerr << nodes.GetN() << " nodes, " << Simulator::GetEventCount() << " events\n";
    if (!sends_file.empty()) {
        std::ofstream out(sends_file);
        results.WriteSends(out);
    }
    if (!stations_file.empty()) {
        std::ofstream out(stations_file);
        results.WriteStations(out);
    }
    if (!busy_file.empty()) {
        std::ofstream out(busy_file);
        busy.Write(out, Seconds(until));
    }
    Simulator::Destroy();
}
