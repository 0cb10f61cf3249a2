"""A capture in pcap: `traffic.py RECORDS` prints what 300 stations and one under test send.

Half of the records are beacons, three in ten are single-hop messages, the others are packets for an
area, and copies of these that a station forwards within 50 ms. The station under test has the address
3c00020000000100 and stands in the middle.
"""

import random
import struct
import sys

STATION = 0x3C00_0200_0000_0100
FIRST = 0x1400_0200_0001_0001
LAT, LON, SPREAD = 514_776_500, -10_000, 9_000
START = 1_790_000_000_000_000_000  # ns since 1970
TAI = 1_072_915_200_000 - 5_000  # ms from 1970 to the begin of time stamps
PORT, OCTETS = 2002, 60
ALL = b"\xff" * 6
BEACON, SHB, GBC = 0x10, 0x50, 0x40
WITHIN = 50_000_000  # ns
GROUP = 40


def headers(kind, length, left, most):
    first = bytes([0x11, 0, 0x1A, left])
    return first + struct.pack(">BBBBHBB", 0x20 if length else 0, kind, 0, 0x80, length, most, 0)


def frame(sender, packet):
    return ALL + (sender & 0xFFFF_FFFF_FFFF).to_bytes(6, "big") + b"\x89\x47" + packet


class Traffic:
    """Draws one frame after the other."""

    def __init__(self):
        self.draws = random.Random(1)
        self.stations = [STATION, *(FIRST + k for k in range(300))]
        self.numbers = dict.fromkeys(self.stations, 0)
        self.recent = []

    def vector(self, source, now):
        lat, lon = (self.draws.randint(-SPREAD, SPREAD) for _ in range(2))
        if source == STATION:
            lat = lon = 0
        stamp = (now // 1_000_000 - TAI) & 0xFFFF_FFFF
        return struct.pack(">QIiiHH", source, stamp, LAT + lat, LON + lon, 0x8000, 0)

    def next(self, now):
        source, kind = self.draws.choice(self.stations), self.draws.random()
        vector, payload = self.vector(source, now), struct.pack(">HH", PORT, 0) + bytes(OCTETS)
        self.recent = [it for it in self.recent[-GROUP:] if now - it[1] < WITHIN]
        if kind < 0.5:
            return frame(source, headers(BEACON, 0, 1, 1) + vector)
        if kind < 0.8:
            return frame(source, headers(SHB, len(payload), 1, 1) + vector + bytes(4) + payload)
        if kind < 0.9 or not self.recent:
            number = self.numbers[source] = (self.numbers[source] + 1) & 0xFFFF
            area = struct.pack(">iiHHHH", LAT, LON, 1000, 0, 0, 0)
            body = struct.pack(">HH", number, 0) + vector + area + payload
            self.recent.append((body, now, source))
            return frame(source, headers(GBC, len(payload), 10, 10) + body)
        body, _, origin = self.draws.choice(self.recent)
        while source == origin:
            source = self.draws.choice(self.stations)
        return frame(source, headers(GBC, len(payload), 9, 10) + body)


def main(records):
    traffic, now = Traffic(), START
    out = open(sys.stdout.fileno(), "wb", closefd=False)
    out.write(struct.pack("<IHHiIII", 0xA1B23C4D, 2, 4, 0, 0, 65535, 1))
    for _ in range(records):
        now += traffic.draws.randint(20_000, 180_000)
        octets = traffic.next(now)
        seconds, nanoseconds = divmod(now, 1_000_000_000)
        out.write(struct.pack("<IIII", seconds, nanoseconds, len(octets), len(octets)) + octets)


main(int(sys.argv[1]))
