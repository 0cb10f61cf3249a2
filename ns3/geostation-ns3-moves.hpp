// geostation-ns3-moves.hpp: vehicles from the file that `geostation sim --moves` reads. It needs
// the modules of geostation-ns3.hpp.
#ifndef GEOSTATION_NS3_MOVES_HPP
#define GEOSTATION_NS3_MOVES_HPP

#include "geostation-ns3.hpp"

#include "ns3/application-container.h"
#include "ns3/boolean.h"
#include "ns3/node-container.h"
#include "ns3/object-base.h"
#include "ns3/object-factory.h"
#include "ns3/waypoint-mobility-model.h"
#include "ns3/waypoint.h"

#include <algorithm>
#include <cmath>
#include <fstream>
#include <istream>
#include <map>
#include <string>
#include <utility>
#include <vector>

namespace geostation {

/// Reads vehicles from CSV, in the columns `at,id,lat,lon` (ms and 0.1 microdegree) or in those
/// that SUMO's `xml2csv.py` writes for `--fcd-output.geo`. Fields are not quoted.
///
/// The attribute `Interpolate` says where a vehicle is between two rows: on the straight line
/// between them, or at the position of the first one, as in `sim`. It is read when a helper is made.
/// So set it before, by `Config::SetDefault` or on the command line.
class MovesHelper : public ns3::ObjectBase {
  public:
    /// A vehicle is there from its first row until `gone` after its last row. Without `Interpolate`
    /// it leaves before the events of that time, as in `sim`.
    struct Vehicle {
        std::string id;
        ns3::Time from, to;
    };

    static ns3::TypeId GetTypeId() {
        static const ns3::TypeId id =
            ns3::TypeId("geostation::MovesHelper")
                .SetParent<ns3::ObjectBase>()
                .SetGroupName("geostation")
                .AddAttribute("Interpolate",
                              "Whether a vehicle moves on a straight line between two rows. "
                              "Otherwise it jumps at each row, as in sim.",
                              ns3::BooleanValue(true),
                              ns3::MakeBooleanAccessor(&MovesHelper::interpolates_),
                              ns3::MakeBooleanChecker());
        return id;
    }
    ns3::TypeId GetInstanceTypeId() const override { return GetTypeId(); }

    /// Reads a file from `begin` on, which is the time 0 of ns-3, to `begin` + `until`.
    MovesHelper(const std::string &file, ns3::Time begin, ns3::Time until,
                ns3::Time gone = ns3::Seconds(1)) {
        ConstructSelf(ns3::AttributeConstructionList());
        std::ifstream in(file);
        NS_ABORT_MSG_UNLESS(in, "cannot read " << file);
        Read(in, begin, until, gone);
    }

    /// Returns a node for each vehicle, in the order of their first rows.
    const ns3::NodeContainer &GetNodes() const { return nodes_; }
    const std::vector<Vehicle> &GetVehicles() const { return vehicles_; }

    /// Returns the plane whose origin is the position in the first row.
    Plane GetPlane() const { return plane_; }

    /// Makes a station for each vehicle, which runs while the vehicle is there. The factory sets
    /// the other attributes.
    ns3::ApplicationContainer Install(ns3::ObjectFactory factory) const {
        factory.Set("OriginLatitude", ns3::IntegerValue(plane_.GetOrigin().latitude));
        factory.Set("OriginLongitude", ns3::IntegerValue(plane_.GetOrigin().longitude));
        ns3::ApplicationContainer stations;
        for (std::uint32_t i = 0; i < nodes_.GetN(); i++) {
            const auto station = factory.Create<StationApplication>();
            nodes_.Get(i)->AddApplication(station);
            station->SetStartTime(vehicles_[i].from);
            station->SetStopTime(vehicles_[i].to);
            stations.Add(station);
        }
        return stations;
    }

  private:
    // The shortest time of ns-3.
    static ns3::Time Instant() { return ns3::NanoSeconds(1); }

    static bool Split(std::istream &in, char separator, std::vector<std::string> &fields) {
        std::string line;
        fields.assign(1, "");
        if (!std::getline(in, line)) {
            return false;
        }
        for (const char c : line) {
            if (c == separator) {
                fields.emplace_back();
            } else if (c != '\r') {
                fields.back() += c;
            }
        }
        return true;
    }

    void Read(std::istream &in, ns3::Time begin, ns3::Time until, ns3::Time gone) {
        std::vector<std::string> head, row;
        const char separator = FindSeparator(in);
        Split(in, separator, head);
        const bool is_sumo = std::find(head.begin(), head.end(), "vehicle_id") != head.end();
        const auto column = [&](const char *own, const char *sumo) {
            const auto found = std::find(head.begin(), head.end(), is_sumo ? sumo : own);
            NS_ABORT_MSG_IF(found == head.end(),
                            "the moves have no column " << (is_sumo ? sumo : own));
            return static_cast<std::size_t>(found - head.begin());
        };
        const std::size_t at = column("at", "timestep_time"), id = column("id", "vehicle_id"),
                          lat = column("lat", "vehicle_y"), lon = column("lon", "vehicle_x");
        const double degree = is_sumo ? 1e7 : 1, second = is_sumo ? 1 : 1000;
        std::map<std::string, std::uint32_t> number_of;
        while (Split(in, separator, row)) {
            if (row.size() != head.size() || row[id].empty()) {
                continue; // an empty line, or a time step of SUMO without vehicles
            }
            const ns3::Time moment = ns3::Seconds(std::stod(row[at]) / second) - begin;
            if (moment.IsStrictlyNegative()) {
                continue;
            }
            if (moment > until) {
                break;
            }
            const Place place{
                static_cast<std::int32_t>(std::lround(std::stod(row[lat]) * degree)),
                static_cast<std::int32_t>(std::lround(std::stod(row[lon]) * degree))};
            if (vehicles_.empty()) {
                plane_ = Plane(place);
            }
            const auto [entry, is_new] = number_of.emplace(row[id], nodes_.GetN());
            if (is_new) {
                const auto node = ns3::CreateObject<ns3::Node>();
                node->AggregateObject(ns3::CreateObject<ns3::WaypointMobilityModel>());
                nodes_.Add(node);
                vehicles_.push_back({row[id], moment, moment});
            }
            const auto early = interpolates_ ? ns3::Time(0) : Instant();
            vehicles_[entry->second].to = moment + gone - early;
            AddRow(nodes_.Get(entry->second), moment, plane_.ToPoint(place));
        }
    }

    // Without `Interpolate` a vehicle stays where it is until the instant before the row.
    void AddRow(const ns3::Ptr<ns3::Node> &node, ns3::Time moment, const ns3::Vector &point) {
        const auto way = node->GetObject<ns3::WaypointMobilityModel>();
        const auto last = last_.find(node->GetId());
        if (last != last_.end() && !interpolates_) {
            const auto &[since, held] = last->second;
            if (moment - since > Instant()) {
                way->AddWaypoint(ns3::Waypoint(moment - Instant(), held));
            }
        }
        way->AddWaypoint(ns3::Waypoint(moment, point));
        last_.insert_or_assign(node->GetId(), std::make_pair(moment, point));
    }

    // Returns `;` if the first line has one, and otherwise `,`.
    static char FindSeparator(std::istream &in) {
        std::string line;
        std::getline(in, line);
        in.clear();
        in.seekg(0);
        return line.find(';') == std::string::npos ? ',' : ';';
    }

    bool interpolates_ = true;
    ns3::NodeContainer nodes_;
    std::vector<Vehicle> vehicles_;
    Plane plane_;
    // The last row of each node: its time and position.
    std::map<std::uint32_t, std::pair<ns3::Time, ns3::Vector>> last_;
};
NS_OBJECT_ENSURE_REGISTERED(MovesHelper);

} // namespace geostation

#endif
