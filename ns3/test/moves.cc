// Prints where the vehicles of a file are: `moves FILE BEGIN UNTIL STEP` (ms), with the attributes
// of MovesHelper. A line is `MS ID LAT LON`, in 0.1 microdegree, each STEP ms for each vehicle that
// is there.
#include "geostation-ns3-moves.hpp"

#include "ns3/command-line.h"

#include <iostream>

using namespace ns3;

namespace {

void Print(const geostation::MovesHelper &moves) {
    const Time now = Simulator::Now();
    for (std::uint32_t i = 0; i < moves.GetNodes().GetN(); i++) {
        const auto &vehicle = moves.GetVehicles()[i];
        if (now < vehicle.from || now > vehicle.to) {
            continue;
        }
        const auto way = moves.GetNodes().Get(i)->GetObject<MobilityModel>();
        const geostation::Place place = moves.GetPlane().ToPlace(way->GetPosition());
        std::cout << now.GetMilliSeconds() << " " << vehicle.id << " " << place.latitude << " "
                  << place.longitude << "\n";
    }
}

} // namespace

int main(int argc, char **argv) {
    std::string file;
    unsigned begin = 0, until = 0, step = 1;
    CommandLine line(__FILE__);
    line.AddNonOption("file", "Vehicles: a file for sim --moves", file);
    line.AddNonOption("begin", "Time of the file at which the run begins, ms", begin);
    line.AddNonOption("until", "End of the run, ms", until);
    line.AddNonOption("step", "Time between two lines of a vehicle, ms", step);
    line.Parse(argc, argv);
    const geostation::MovesHelper moves(file, MilliSeconds(begin), MilliSeconds(until));
    for (unsigned at = 0; at <= until; at += step) {
        Simulator::Schedule(MilliSeconds(at), [&moves] { Print(moves); });
    }
    Simulator::Stop(MilliSeconds(until + 1));
    Simulator::Run();
    Simulator::Destroy();
}
