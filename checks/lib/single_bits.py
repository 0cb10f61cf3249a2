"""What becomes of a packet that differs in one bit from a good one, computed from the layout of the
headers (EN 302 636-4-1 clause 9, EN 302 636-5-1) and not from the program.

Each header is a table of its fields, in the order of the wire. The first field that is not wholly
there is G1, and the first one whose value is not allowed has the fault of its row, at the octet in
which the field begins.
"""

from __future__ import annotations

from typing import Callable, Iterator, NamedTuple

ANY, BTP_B = 0, 2
BEACON, GAC, GBC, TSB = 1, 3, 4, 5
CIRCLE, RECTANGLE, ELLIPSE = 0, 1, 2
# The header types that may follow each next header, and the sub-types that each of them has.
TYPES = {ANY: {BEACON}, BTP_B: {GAC, GBC, TSB}}
SHAPES = {CIRCLE, RECTANGLE, ELLIPSE}
SUB_TYPES = {BEACON: {0}, GAC: SHAPES, GBC: SHAPES, TSB: {0}}
# A payload begins with the four octets of BTP-B. itsGnMaxSduSize is its greatest length.
PAYLOADS = range(4, 1398 + 1)
# The bit of a GN address that makes its MID, an IEEE 802 address, that of a group.
GROUP = 1 << 40


class Field(NamedTuple):
    """A field: its name, its bits, and which fault a value has that the rule doesn't allow. The rule
    gets the value and the fields before it."""

    name: str
    bits: int
    fault: str = ""
    allows: Callable[[int, dict], bool] = lambda value, before: True


def reserved(bits: int) -> Field:
    return Field("reserved", bits, "G4", lambda value, _: value == 0)


def degrees(name: str, most: int, fault: str) -> Field:
    """A latitude or longitude, a number with a sign, in tenths of a microdegree."""
    return Field(name, 32, fault, lambda value, _: abs(value - (value >> 31 << 32)) <= most * 10**7)


def is_length(value: int, before: dict) -> bool:
    return value == 0 if before["type"] == BEACON else value in PAYLOADS


def is_for_shape(value: int, before: dict) -> bool:
    """Distance b: a circle has none, another shape has one."""
    return (value == 0) == (before["sub-type"] == CIRCLE)


def is_angle(value: int, before: dict) -> bool:
    return value == 0 if before["sub-type"] == CIRCLE else value < 360


BASIC = [
    Field("version", 4, "G2", lambda value, _: value == 1),
    Field("Common Header", 4, "G3", lambda value, _: value == 1),
    reserved(8),
    Field("lifetime", 8),
    Field("hops", 8, "G5", lambda value, _: value > 0),
]
COMMON = [
    Field("next", 4, "G6", lambda value, _: value in TYPES),
    reserved(4),
    Field("type", 4, "G7", lambda value, before: value in TYPES[before["next"]]),
    Field("sub-type", 4, "G8", lambda value, before: value in SUB_TYPES[before["type"]]),
    Field("traffic class", 8),
    Field("mobile", 1),
    reserved(7),
    Field("length", 16, "G10", is_length),
    Field("most hops", 8, "G9", lambda value, before: before["hops"] <= value),
    reserved(8),
]
VECTOR = [
    Field("address", 64, "G11", lambda value, _: value & GROUP == 0),
    Field("time", 32),
    degrees("latitude", 90, "G11"),
    degrees("longitude", 180, "G11"),
    Field("speed", 16),
    Field("heading", 16),
]
AREA = [
    degrees("latitude of the area", 90, "G12"),
    degrees("longitude of the area", 180, "G12"),
    Field("a", 16, "G12", lambda value, _: value > 0),
    Field("b", 16, "G12", is_for_shape),
    Field("angle", 16, "G12", is_angle),
    reserved(16),
]
FOR_AREA = [Field("number", 16), reserved(16), *VECTOR, *AREA]
EXTENDED = {BEACON: VECTOR, TSB: [*VECTOR, Field("media", 32)], GAC: FOR_AREA, GBC: FOR_AREA}


class Packet(NamedTuple):
    """Octets as a packet: the fault, empty if there is none; the octets behind the packet; and the
    first bit of each field that was read, counted from that of the packet."""

    fault: str
    left_over: int
    starts: dict


def layout(values: dict) -> Iterator[Field]:
    """The fields of a packet, whose last header depends on the values before it."""
    yield from BASIC
    yield from COMMON
    yield from EXTENDED[values["type"]]


def read(octets: bytes) -> Packet:
    """Reads octets as the headers and the payload of a packet."""
    values, starts, at = {}, {}, 0
    number, bits = int.from_bytes(octets, "big"), 8 * len(octets)
    for field in layout(values):
        if at + field.bits > bits:
            return Packet(f"G1 at {len(octets)}", 0, starts)
        value = number >> (bits - at - field.bits) & (1 << field.bits) - 1
        if not field.allows(value, values):
            return Packet(f"{field.fault} at {at // 8}", 0, starts)
        values[field.name], starts[field.name] = value, at
        at += field.bits
    left_over = len(octets) - at // 8 - values["length"]
    fault = f"G1 at {len(octets)}" if left_over < 0 else ""
    return Packet(fault, max(left_over, 0), starts)


def bits_of(packet: bytes, *names: str) -> set[int]:
    """The bits of these fields of a good packet, counted from its first."""
    starts = read(packet).starts
    sizes = {it.name: it.bits for table in (BASIC, COMMON, VECTOR, FOR_AREA) for it in table}
    return {starts[name] + bit for name in names for bit in range(sizes[name])}


def single_bits(octets: bytes) -> list[bytes]:
    """The octets with one bit turned, in the order of the wire."""
    turned = (1 << place for place in reversed(range(8 * len(octets))))
    whole = int.from_bytes(octets, "big")
    return [(whole ^ bit).to_bytes(len(octets), "big") for bit in turned]


def refusal(packet: bytes) -> str | None:
    """How a frame of these octets is refused, or None if it is read."""
    found = read(packet)
    if found.fault:
        return f"L5 {found.fault}"
    return "L4" if found.left_over else None
