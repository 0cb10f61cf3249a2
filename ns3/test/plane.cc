// Maps positions to the plane and back. Reads lines `LAT0 LON0 LAT LON`: an origin and a position,
// in 0.1 microdegree. Prints for each `X Y LAT LON NORTH EAST`: the point in metres, its position,
// and the offset from the origin in whole centimetres.
#include "geostation-ns3.hpp"

#include <cinttypes>
#include <cstdio>

int main() {
    geostation::Place origin, place;
    while (std::scanf("%" SCNd32 " %" SCNd32 " %" SCNd32 " %" SCNd32, &origin.latitude,
                      &origin.longitude, &place.latitude, &place.longitude) == 4) {
        const geostation::Plane plane(origin);
        const ns3::Vector point = plane.ToPoint(place);
        const geostation::Place again = plane.ToPlace(point);
        const auto [north, east] = geostation::Plane::OffsetOf(origin, place);
        std::printf("%.6f %.6f %" PRId32 " %" PRId32 " %" PRId64 " %" PRId64 "\n", point.x, point.y,
                    again.latitude, again.longitude, north, east);
    }
}
