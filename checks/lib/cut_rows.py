"""Frames that a short snap length cut off at each octet, and what `show --partial` prints of each.

What is there follows from the places of the fields in EN 302 636-4-1 clause 9 alone: a value is
printed if its last octet was captured. A frame without the end of its source's address is P4, but
for a field that is there and wrong.
"""

from __future__ import annotations

import struct
from dataclasses import dataclass
from typing import Iterator

from packet_rows import AFTER_BTP, BASIC, BEACON, ENDS, FLAGS, GAC, GBC, HOPS, LINK, NEXT, SHB
from packet_rows import TYPE_AFTER_BTP, with_put

# Classic pcap of Ethernet, the lowest octet first, with milliseconds that the rows count up.
HEADER = bytes.fromhex("d4c3b2a1" "0200" "0400" "00000000" "00000000" "ffff0000" "01000000")

# Where the packet begins in a frame.
PACKET = 14

# The fields behind the Common Header of each kind, by place and size from the packet's first octet,
# as `struct` reads them. `pai` and `speed` share two octets.
VECTOR = [("address", 0, "8s"), ("tst", 8, "I"), ("lat", 12, "i"), ("lon", 16, "i")]
MOTION, HEADING = 20, 22
AREA = [("alat", 40, "i"), ("alon", 44, "i"), ("a", 48, "H"), ("b", 50, "H"), ("angle", 52, "H")]
KINDS = {0x10: "beacon", 0x30: "gac", 0x40: "gbc", 0x50: "shb"}
SHAPES = ["circle", "rectangle", "ellipse"]


@dataclass(frozen=True)
class CutFrame:
    """A frame of which so many octets were captured: the object that `show --partial --json` prints
    of it but for its moment, and its port, if that is there."""

    name: str
    frame: bytes
    captured: int
    told: dict
    port: int | None

    def record(self, moment: int) -> bytes:
        """Its record in classic pcap."""
        second, below = divmod(moment, 1000)
        sizes = self.captured, len(self.frame)
        return struct.pack("<IIII", second, 1000 * below, *sizes) + self.frame[: self.captured]


def number(packet: bytes, place: int, form: str) -> int:
    return struct.unpack_from(f">{form}", packet, place)[0]


def vector_of(packet: bytes, start: int, there: int) -> Iterator[tuple[str, object]]:
    """The values of a long position vector that are there."""
    for key, place, form in VECTOR:
        if start + place + struct.calcsize(form) <= there:
            value = number(packet, start + place, form)
            yield key, value.hex() if isinstance(value, bytes) else value
    if start + MOTION + 2 <= there:
        motion = number(packet, start + MOTION, "H")
        speed = motion & 0x7FFF
        yield "pai", motion >= 0x8000
        yield "speed", speed - 0x8000 if speed >= 0x4000 else speed
    if start + HEADING + 2 <= there:
        yield "heading", number(packet, start + HEADING, "H")


def area_of(packet: bytes, there: int) -> Iterator[tuple[str, object]]:
    """The values of a packet for an area that are there, after its hop limit."""
    yield "number", number(packet, 12, "H")
    yield "shape", SHAPES[packet[5] & 0xF]
    for key, place, form in AREA:
        if place + struct.calcsize(form) <= there:
            yield key, number(packet, place, form)


def payload_of(packet: bytes, start: int, there: int) -> Iterator[tuple[str, object]]:
    if start + 2 <= there:
        yield "port", number(packet, start, "H")
    if start + 4 <= there:
        yield "info", number(packet, start + 2, "H")
        yield "payload", packet[start + 4 : there].hex()


def read_of(frame: bytes, captured: int) -> dict:
    """What is printed of a right frame whose source's address is there."""
    packet, there = frame[PACKET:], captured - PACKET
    kind = KINDS[packet[5] & 0xF0]
    told = {"from": frame[6:12].hex(), "to": frame[:6].hex(), "kind": kind}
    told.update(vector_of(packet, 16 if kind in ("gbc", "gac") else 12, there))
    told.update(lt=packet[2], tc=packet[6], mobile=packet[7] >= 0x80)
    told.update(hops=packet[3], max_hops=packet[10])
    if kind in ("gbc", "gac"):
        told.update(area_of(packet, there))
    if kind != "beacon":
        told.update(payload_of(packet, 40 if kind == "shb" else 56, there))
    return {**told, "cut": True}


def address_end(packet: bytes) -> int:
    return PACKET + (24 if packet[5] & 0xF0 in (0x30, 0x40) else 20)


def cuts_of(name: str, packet: bytes) -> Iterator[CutFrame]:
    """A right frame, cut at each octet."""
    frame = LINK + packet
    for captured in range(len(frame)):
        refused = {"refused": "P4"}
        is_read = captured >= address_end(packet)
        told = read_of(frame, captured) if is_read else refused
        yield CutFrame(f"{name} cut to {captured}", frame, captured, told, told.get("port"))


# Wrong fields of one octet in front of the source's address, and the fault of each. A next header
# may be that of a secured packet.
FRONT = [row for row in [*BASIC, *AFTER_BTP] if len(row[1]) == 1 and row[1] != b"\x12"]


def wrong_fronts() -> Iterator[CutFrame]:
    """A geobroadcast with a wrong field, cut at each octet up to the address's end: it is refused for
    that field once its octet is there."""
    for place, put, fault in FRONT:
        frame = LINK + with_put(GBC, (place, put))
        at = place if fault != "G9" else 10
        for captured in range(PACKET, address_end(GBC) + 1):
            code = f"L5 {fault} at {at}" if captured > PACKET + place else "P4"
            told = {"refused": code}
            yield CutFrame(f"{put.hex()} at {place} cut to {captured}", frame, captured, told, None)


# An ellipse, a rectangle and a circle, and packets that are for no area.
RIGHT = {
    "ellipse": ENDS,
    "rectangle": with_put(ENDS, (5, b"\x41")),
    "circle": GBC,
    "geoanycast": GAC,
    "single-hop broadcast": SHB,
    "beacon": BEACON,
}


def cut_frames() -> list[CutFrame]:
    right = [row for name, packet in RIGHT.items() for row in cuts_of(name, packet)]
    return right + list(wrong_fronts())


def half_ports(rows: list[CutFrame]) -> Iterator[tuple[int, list[int]]]:
    """Ports, and the places of the rows that `--port` selects: those whose port is there. A port of
    which the lower octet is missing would be that with 0 in its place."""
    for packet in (GBC, ENDS):
        port = number(packet, 56, "H")
        for asked in (port, port & 0xFF00, 0):
            yield asked, [at for at, row in enumerate(rows) if row.port == asked]
