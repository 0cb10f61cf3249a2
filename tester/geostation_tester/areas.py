"""Positions and areas, in metres from the station under test."""

from __future__ import annotations

import struct
from dataclasses import dataclass
from math import cos, radians

from .tables import Table

METRE = 10_000_000 / 111_320  # 0.1 microdegree of latitude
FAR = 100_000  # m
SHAPES = ("circle", "rectangle", "ellipse")

Place = tuple[int, int]  # latitude and longitude in 0.1 microdegree


def moved(home: Place, north: int, east: int) -> Place:
    """A position so many metres from another one."""
    scale = max(cos(radians(home[0] / 1e7)), 0.01)
    return home[0] + round(north * METRE), home[1] + round(east * METRE / scale)


@dataclass(frozen=True)
class Area:
    """A destination area (EN 302 931). The angle is clockwise from north."""

    shape: int
    north: int
    east: int
    a: int
    b: int
    angle: int

    def encode(self, home: Place) -> bytes:
        """Octets 40 to 55 of a GBC or GAC."""
        return struct.pack(
            ">iiHHHH", *moved(home, self.north, self.east), self.a, self.b, self.angle, 0
        )


def read_area(t: Table) -> Area | None:
    """The area of an action: a table whose name is the shape."""
    for shape, word in enumerate(SHAPES):
        inner = t.table(word)
        if inner is None:
            continue
        is_circle = word == "circle"
        found = Area(
            shape,
            inner.whole("north", -FAR, FAR, 0),
            inner.whole("east", -FAR, FAR, 0),
            inner.whole("a", 1, 65_535),
            0 if is_circle else inner.whole("b", 1, 65_535),
            0 if is_circle else inner.whole("angle", 0, 359, 0),
        )
        inner.end()
        return found
    return None
