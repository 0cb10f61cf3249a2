"""Packets of each kind, for checks/packets and checks/calls, and what becomes of them where a field
is another one.

Places are those of octets of a packet, from its first; a fault is told as `G9 at 10` with the
octet at which its field begins. The values are those of EN 302 636-4-1 clause 9.
"""

from __future__ import annotations

from dataclasses import dataclass, field
from typing import Iterator

ALL, SENDER = bytes.fromhex("ffffffffffff"), bytes.fromhex("020000000001")
LINK = ALL + SENDER + bytes.fromhex("8947")

# The sentence of each fault; of a packet's the octet follows.
SENTENCES = {
    "L1": "a frame of fewer than 14 octets",
    "L2": "a frame of another type than 0x8947",
    "L3": "a frame of more than 1468 octets",
    "L4": "octets after the packet",
    "G1": "a truncated packet",
    "G2": "a version other than 1",
    "G3": "no Common Header after the Basic Header",
    "G4": "a reserved bit that is set",
    "G5": "no hop left",
    "G6": "a next header other than none and BTP-B",
    "G7": "an unsupported header type, or one that does not go with the next header",
    "G8": "a sub-type that the header type does not have",
    "G9": "more hops left than the maximum",
    "G10": "a payload length out of range",
    "G11": "a group address, or a position out of range",
    "G12": "an area out of range, or a circle with a second distance or an angle",
}

# A beacon of a station at (0, 0), a single-hop broadcast of `hi` to port 2002, and a geobroadcast
# of it for the circle of 100 m at (0, 0). The same as a geoanycast.
BEACON = bytes.fromhex(
    "11001a01" "0010008000000100" "140002000000000100000000" "000000000000000000000000"
)
SHB = bytes.fromhex(
    "11001a01" "2050008000060100" "140002000000000100000000" "000000000000000000000000" "00000000"
    "07d20000" "6869"
)
GBC = bytes.fromhex(
    "11001a0a" "2040008000060a00" "00000000" "140002000000000100000000" "000000000000000000000000"
    "0000000000000000" "006400000000" "0000" "07d20000" "6869"
)
GAC = GBC[:5] + b"\x30" + GBC[6:]

# A geobroadcast no two fields of which are alike: an ellipse, and numbers at the ends of their
# ranges.
ENDS = bytes.fromhex(
    "11007f03" "2042a50000070400" "fffe0000" "940202030405060789abcdef" "f8a432eb6b49d1ffc000ffff"
    "35a4e90094b62e00" "ffff00010167" "0000" "07d20001" "ff0080"
)


@dataclass(frozen=True)
class Row:
    """A record: its name in reports of differences, its frame, and why it is rejected, or some of the
    values that are printed for it. A frame that is read is printed with all its values."""

    name: str
    frame: bytes
    refused: str | None = None
    values: dict = field(default_factory=dict)


def with_put(octets: bytes, *puts: tuple[int, bytes]) -> bytes:
    """The octets with others at some places."""
    changed = bytearray(octets)
    for place, put in puts:
        changed[place : place + len(put)] = put
    return bytes(changed)


def hexed(*rows: tuple[int, str, str]) -> list[tuple[int, bytes, str]]:
    """Rows of a place, octets as digits, and a fault."""
    return [(place, bytes.fromhex(digits), fault) for place, digits, fault in rows]


def moved(start: int, rows: list[tuple[int, bytes, str]]) -> list[tuple[int, bytes, str]]:
    """Rows with places that count from this one."""
    return [(start + place, put, fault) for place, put, fault in rows]


# What stands at a place instead, and the fault of the field that begins there. The Basic Header:
# version, next header, a reserved octet, hops left.
BASIC = hexed(
    (0, "01", "G2"),
    (0, "22", "G2"),
    (0, "10", "G3"),
    (0, "12", "G3"),
    (1, "01", "G4"),
    (1, "80", "G4"),
    (3, "00", "G5"),
)
# The next header of the Common Header, and the reserved half octet after it.
NEXT = hexed((4, "10", "G6"), (4, "31", "G6"), (4, "01", "G4"), (4, "28", "G4"))
# Header type and sub-type after no next header.
TYPE_OF_BEACON = hexed(
    (5, "00", "G7"),
    (5, "30", "G7"),
    (5, "41", "G7"),
    (5, "50", "G7"),
    (5, "11", "G8"),
    (5, "18", "G8"),
)
# Header type and sub-type after BTP-B.
TYPE_AFTER_BTP = hexed(
    (5, "00", "G7"),
    (5, "10", "G7"),
    (5, "23", "G7"),
    (5, "60", "G7"),
    (5, "33", "G8"),
    (5, "3f", "G8"),
    (5, "43", "G8"),
    (5, "48", "G8"),
    (5, "51", "G8"),
)
FLAGS = hexed((7, "40", "G4"), (7, "81", "G4"))
# The payload length of a beacon, and of the others.
NO_LENGTH = hexed((8, "0001", "G10"), (8, "0100", "G10"))
LENGTH = hexed((8, "0000", "G10"), (8, "0003", "G10"), (8, "0577", "G10"), (8, "ffff", "G10"))
# The greatest number of hops, and the reserved octet after it.
HOPS = hexed((10, "00", "G9"), (11, "01", "G4"), (11, "80", "G4"))
# The long position vector, counted from its first octet: a group MID, and places just out of range.
VECTOR = hexed(
    (0, "1400030000000001", "G11"),
    (12, "35a4e901", "G11"),
    (12, "ca5b16ff", "G11"),
    (16, "6b49d201", "G11"),
    (16, "94b62dff", "G11"),
)
# The reserved octets in front of the vector.
BEFORE_VECTOR = hexed((14, "0001", "G4"), (14, "8000", "G4"))
# Place and distance a of the area of any shape.
AREA = hexed(
    (40, "35a4e901", "G12"),
    (40, "ca5b16ff", "G12"),
    (44, "6b49d201", "G12"),
    (44, "94b62dff", "G12"),
    (48, "0000", "G12"),
)
# Distance b and angle of a circle, and of the other shapes.
CIRCLE = hexed((50, "0001", "G12"), (50, "0100", "G12"), (52, "0001", "G12"), (52, "0100", "G12"))
TURNED = hexed((50, "0000", "G12"), (52, "0168", "G12"))
# The angle of any shape, and the reserved octets after the area.
ANGLE = hexed((52, "ffff", "G12"))
AFTER_AREA = hexed((54, "0001", "G4"), (54, "8000", "G4"))

OF_BEACON = BASIC + NEXT + TYPE_OF_BEACON + FLAGS + NO_LENGTH + HOPS + moved(12, VECTOR)
AFTER_BTP = BASIC + NEXT + TYPE_AFTER_BTP + FLAGS + LENGTH + HOPS
OF_SHB = AFTER_BTP + moved(12, VECTOR)
FOR_AREA = AFTER_BTP + BEFORE_VECTOR + moved(16, VECTOR) + AREA
OF_CIRCLE = FOR_AREA + CIRCLE + ANGLE + AFTER_AREA
OF_TURNED = FOR_AREA + TURNED + ANGLE + AFTER_AREA

# Packets, with header type and sub-type, and their wrong fields in the order of the wire.
WRONG = [
    (BEACON, 0x10, OF_BEACON),
    (SHB, 0x50, OF_SHB),
    (GBC, 0x40, OF_CIRCLE),
    (GAC, 0x30, OF_CIRCLE),
    (ENDS, 0x31, OF_TURNED),
    (ENDS, 0x32, OF_TURNED),
    (ENDS, 0x41, OF_TURNED),
    (ENDS, 0x42, OF_TURNED),
]


def refused(name: str, packet: bytes, fault: str) -> Row:
    """A frame with octets that are no packet, for this fault."""
    return Row(name, LINK + packet, f"L5 {fault}")


def wrong_fields() -> Iterator[Row]:
    """Each of the fields alone, in octets that end before it, in it, or anywhere behind it, where
    one that isn't wholly there is G1; and each two of them, of which the first one is the fault."""
    for vector, types, fields in WRONG:
        packet = with_put(vector, (5, bytes([types])))
        for nth, (place, put, fault) in enumerate(fields):
            name = f"type {types:02x}: {put.hex()} at {place}"
            alone, end = with_put(packet, (place, put)), place + len(put)
            for cut in range(len(packet) + 1):
                wanted = f"G1 at {cut}" if cut < end else f"{fault} at {place}"
                yield refused(f"{name}, cut to {cut}", alone[:cut], wanted)
            for later, other, _ in fields[nth:]:
                both = with_put(packet, (later, other), (place, put))
                yield refused(f"{name}, {other.hex()} at {later}", both, f"{fault} at {place}")


def cuts() -> Iterator[Row]:
    """Octets that end before a packet does. Those of the geobroadcast are in checks/station."""
    for packet in (BEACON, SHB, GAC, ENDS):
        for cut in range(len(packet)):
            yield refused(f"{packet.hex()} cut to {cut}", packet[:cut], f"G1 at {cut}")


# A field that is right by itself, and wrong after those before it: the fault is at the later one.
# The sub-types 0 to 2 of a geoanycast are its shapes, 3 is refused; none stands after no next
# header.
TOGETHER = [
    (BEACON, 4, "20", "G7 at 5"),
    (SHB, 4, "00", "G7 at 5"),
    (GBC, 4, "00", "G7 at 5"),
    (GAC, 4, "00", "G7 at 5"),
    (BEACON, 3, "02", "G9 at 10"),
    (GBC, 3, "0b", "G9 at 10"),
    (GBC, 5, "41", "G12 at 50"),
    (GBC, 5, "31", "G12 at 50"),
    (ENDS, 5, "40", "G12 at 50"),
    (ENDS, 5, "30", "G12 at 50"),
    (GBC, 4, "2033", "G8 at 5"),
    (BEACON, 4, "0030", "G7 at 5"),
]
# The same where it is right after those before it, and the kind that the packet is then.
OTHER_KINDS = [
    (GBC[:46], 5, "50", "shb"),
    (GBC, 5, "30", "gac"),
    (GBC, 4, "2030", "gac"),
    (ENDS, 4, "2031", "gac"),
    (ENDS, 4, "2032", "gac"),
]


def fields_together() -> Iterator[Row]:
    for packet, place, digits, fault in TOGETHER:
        changed = with_put(packet, (place, bytes.fromhex(digits)))
        yield refused(f"{digits} at {place}", changed, fault)
    for packet, place, digits, kind in OTHER_KINDS:
        changed = with_put(packet, (place, bytes.fromhex(digits)))
        yield Row(f"{digits} at {place}", LINK + changed, values={"kind": kind})


# A packet, and what stands at a place of it instead: the ends of the range of each field.
RIGHT = [
    (BEACON, 0, ""),
    (SHB, 0, ""),
    (GBC, 0, ""),
    (GAC, 0, ""),
    (ENDS, 0, ""),
    # Lifetime and hops left, and the greatest number of hops.
    (GBC, 2, "0001204000800006ff"),
    (GBC, 2, "ffff204000800006ff"),
    (GBC, 2, "1a02204000800006ff"),
    # Traffic class, flags, and the greatest number of hops.
    (ENDS, 6, "00"),
    (ENDS, 6, "ff"),
    (ENDS, 7, "80"),
    (ENDS, 7, "00"),
    (ENDS, 10, "03"),
    (ENDS, 10, "ff"),
    # Geoanycasts of each shape.
    (GBC, 4, "2030"),
    (ENDS, 4, "2031"),
    (ENDS, 4, "2032"),
    # A rectangle, and sequence numbers.
    (ENDS, 5, "41"),
    (ENDS, 12, "0000"),
    (ENDS, 12, "ffff"),
    # Address, timestamp, place, accuracy and speed, and heading of the vector.
    (ENDS, 16, "0000000000000000"),
    (ENDS, 16, "fffffeffffffffff"),
    (ENDS, 24, "00000000"),
    (ENDS, 24, "ffffffff"),
    (ENDS, 28, "35a4e900"),
    (ENDS, 28, "ca5b1700"),
    (ENDS, 32, "6b49d200"),
    (ENDS, 32, "94b62e00"),
    (ENDS, 36, "3fff"),
    (ENDS, 36, "4000"),
    (ENDS, 36, "bfff"),
    (ENDS, 38, "0000"),
    (BEACON, 32, "0001"),
    (BEACON, 32, "3fff"),
    (BEACON, 32, "4000"),
    (BEACON, 32, "7fff"),
    (BEACON, 32, "8000"),
    (BEACON, 32, "bfff"),
    (BEACON, 32, "ffff"),
    # The place of the area, its distances and its angle.
    (ENDS, 40, "ca5b1700"),
    (ENDS, 44, "6b49d200"),
    (ENDS, 48, "0001"),
    (ENDS, 50, "ffff"),
    (ENDS, 52, "0000"),
    (ENDS, 52, "0167"),
    (GBC, 48, "0001"),
    (GBC, 48, "ffff"),
    # The media octets of a single-hop broadcast.
    (SHB, 36, "0102feff"),
    # A payload of any octets.
    (ENDS, 56, "00" * 7),
    (ENDS, 56, "ff" * 7),
]


def right_fields() -> Iterator[Row]:
    for packet, place, digits in RIGHT:
        changed = with_put(packet, (place, bytes.fromhex(digits)))
        yield Row(f"{digits} at {place} of {packet.hex()}", LINK + changed)


# What is printed of most of these packets.
HEADER = {
    "from": SENDER.hex(),
    "to": ALL.hex(),
    "address": "1400020000000001",
    "tst": 0,
    "lat": 0,
    "lon": 0,
    "pai": False,
    "speed": 0,
    "heading": 0,
    "lt": 0x1A,
    "tc": 0,
    "mobile": True,
    "hops": 1,
    "max_hops": 1,
}
HI = {"port": 2002, "info": 0, "payload": b"hi".hex()}
CIRCLE_OF_100 = {
    "hops": 10,
    "max_hops": 10,
    "number": 0,
    "shape": "circle",
    "alat": 0,
    "alon": 0,
    "a": 100,
    "b": 0,
    "angle": 0,
}
OF_ENDS = {
    "from": SENDER.hex(),
    "to": ALL.hex(),
    "kind": "gbc",
    "address": "9402020304050607",
    "tst": 0x89ABCDEF,
    "lat": -123_456_789,
    "lon": 1_799_999_999,
    "pai": True,
    "speed": -16384,
    "heading": 0xFFFF,
    "lt": 0x7F,
    "tc": 0xA5,
    "mobile": False,
    "hops": 3,
    "max_hops": 4,
    "number": 0xFFFE,
    "shape": "ellipse",
    "alat": 900_000_000,
    "alon": -1_800_000_000,
    "a": 65535,
    "b": 1,
    "angle": 359,
    "port": 2002,
    "info": 1,
    "payload": "ff0080",
}
# Accuracy and speed of the vector of a beacon.
SPEEDS = [
    ("0001", False, 1),
    ("3fff", False, 16383),
    ("4000", False, -16384),
    ("7fff", False, -1),
    ("8000", True, 0),
    ("bfff", True, 16383),
    ("ffff", True, -1),
]


def kinds() -> Iterator[Row]:
    """Each kind with all its values, and the speeds."""
    for packet, values in [
        (BEACON, {**HEADER, "kind": "beacon"}),
        (SHB, {**HEADER, "kind": "shb", **HI}),
        (GBC, {**HEADER, "kind": "gbc", **CIRCLE_OF_100, **HI}),
        (GAC, {**HEADER, "kind": "gac", **CIRCLE_OF_100, **HI}),
        (ENDS, OF_ENDS),
    ]:
        yield Row(f"{values['kind']} of {len(packet)}", LINK + packet, values=values)
    for digits, accurate, speed in SPEEDS:
        changed = with_put(BEACON, (32, bytes.fromhex(digits)))
        yield Row(f"speed {digits}", LINK + changed, values={"pai": accurate, "speed": speed})


def with_length(packet: bytes, told: int, size: int) -> bytes:
    """A frame of a packet of so many octets, of which its header tells this payload length."""
    filled = packet + b"\x5a" * (size - len(packet))
    return LINK + with_put(filled, (8, told.to_bytes(2, "big")))[:size]


# The geobroadcast with a payload of 1398 octets, all of them 5a.
LONGEST = with_length(GBC[:56], 1398, 56 + 1398)


def payload_lengths() -> Iterator[Row]:
    """The shortest payload and the longest, where the packet ends with it and an octet before and
    behind that; and lengths out of range in the longest frame."""
    for packet, headers in [(SHB, 40), (GBC, 56), (GAC, 56)]:
        for told in (4, 1398):
            size, name = headers + told, f"type {packet[5]:02x} with {told}"
            digits = (packet + b"\x5a" * 1398)[headers + 4 : size].hex()
            right = with_length(packet, told, size)
            yield Row(name, right, values={"payload": digits})
            yield Row(f"{name}, cut", right[:-1], f"L5 G1 at {size - 1}")
            if len(right) < 1468:
                yield Row(f"{name}, and more", right + b"\0", "L4")
        for told in (3, 1399, 0xFFFF):
            wrong = with_length(packet, told, 1454)
            yield Row(f"type {packet[5]:02x} with {told}", wrong, "L5 G10 at 8")


def left_over() -> Iterator[Row]:
    """Frames of geobroadcasts that one bit makes shorter than their octets: that of the payload
    length 6, and that of the header type, which is a single-hop broadcast then."""
    yield Row("payload length 4", LINK + with_put(GBC, (9, b"\x04")), "L4")
    yield Row("header type 5", LINK + with_put(GBC, (5, b"\x50")), "L4")


def buffer_rows() -> Iterator[Row]:
    """A long frame, and shorter ones behind it, of which nothing of the first is told."""
    for packet in (LONGEST[14:], ENDS, BEACON, SHB):
        yield Row(f"{len(packet)} octets", LINK + packet)


TABLES = [
    wrong_fields,
    cuts,
    fields_together,
    right_fields,
    kinds,
    payload_lengths,
    left_over,
    buffer_rows,
]
