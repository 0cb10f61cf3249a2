"""Places, distances and areas (EN 302 931), on the ellipsoid of WGS 84.

The standards give no arithmetic for a place's offset from another one. Here it is that of the
ellipsoid's two radii of curvature at the centre, in floating point. The station under test computes
in whole centimetres on a sphere (FUN-25), so the two may differ near a border. `TOLERANCE` and
`LEAST` bound by how much. A place so near to a border is `unsure`, and nothing is claimed of it.
"""

from __future__ import annotations

import struct
from dataclasses import dataclass
from math import cos, hypot, radians, sin, sqrt

Place = tuple[int, int]  # latitude and longitude in 0.1 microdegree

MAJOR = 6_378_137.0  # m
ECCENTRICITY = 0.006_694_379_990_14  # squared
UNIT = radians(1e-7)
HALF_TURN = 1_800_000_000  # 180 degrees
TOLERANCE, LEAST = 0.005, 0.5  # of an offset; m
SHAPES = ["circle", "rectangle", "ellipse"]


def offset(centre: Place, place: Place) -> tuple[float, float]:
    """How many metres a place is north and east of a centre, by the shorter way round."""
    latitude = centre[0] * UNIT
    bend = 1 - ECCENTRICITY * sin(latitude) ** 2
    north = MAJOR * (1 - ECCENTRICITY) / (bend * sqrt(bend))
    east = MAJOR / sqrt(bend) * cos(latitude)
    turn = (place[1] - centre[1] + HALF_TURN) % (2 * HALF_TURN) - HALF_TURN
    return (place[0] - centre[0]) * UNIT * north, turn * UNIT * east


def distance(centre: Place, place: Place) -> float:
    return hypot(*offset(centre, place))


def is_close(one: float, two: float) -> bool:
    """Whether two distances may be equal, by another arithmetic."""
    return abs(one - two) <= 2 * (TOLERANCE * max(one, two) + LEAST)


def azimuth_axes(north: float, east: float, angle: float) -> tuple[float, float]:
    """Offsets along and across an azimuth, which counts clockwise from north."""
    turn = radians(angle)
    return north * cos(turn) + east * sin(turn), east * cos(turn) - north * sin(turn)


@dataclass(frozen=True)
class Area:
    """A geographical area. `a` is a radius, or half of the side along the azimuth `angle`."""

    shape: str
    latitude: int
    longitude: int
    a: int
    b: int = 0
    angle: int = 0

    @property
    def centre(self) -> Place:
        return self.latitude, self.longitude

    def encode(self) -> bytes:
        """Octets 40 to 55 of a GBC or GAC (9.8.5)."""
        return struct.pack(
            ">iiHHHH", self.latitude, self.longitude, self.a, self.b, self.angle, 0
        )

    def function(self, x: float, y: float) -> float:
        """The function F of clause 5: 1 at the centre, 0 on the border, below it outside."""
        if self.shape == "circle":
            return 1 - (x / self.a) ** 2 - (y / self.a) ** 2
        if self.shape == "rectangle":
            return min(1 - (x / self.a) ** 2, 1 - (y / self.b) ** 2)
        return 1 - (x / self.a) ** 2 - (y / self.b) ** 2

    def holds_offset(self, north: float, east: float) -> bool:
        return self.function(*azimuth_axes(north, east, self.angle)) >= 0

    def holds(self, place: Place) -> bool:
        return self.holds_offset(*offset(self.centre, place))

    def is_unsure(self, place: Place) -> bool:
        """Whether another arithmetic may find the place on the other side of the border."""
        north, east = offset(self.centre, place)
        up, right = (TOLERANCE * abs(part) + LEAST for part in (north, east))
        found = {
            self.holds_offset(north + u * up, east + r * right)
            for u in (-1, 0, 1)
            for r in (-1, 0, 1)
        }
        return len(found) == 2
