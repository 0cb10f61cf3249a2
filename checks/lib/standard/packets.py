"""The octets of frames (EN 302 636-4-1 clause 9, EN 302 636-5-1 clause 7), read and written.

Octets in the comments count from the first one of the packet. A number has its highest octet
first. An item such as PKT-14 is a row of docs/PROFILE.md. `Rejected` has the first reason that was
found.
"""

from __future__ import annotations

import struct
from dataclasses import dataclass

from .areas import SHAPES, Area

ETHERTYPE = 0x8947  # CAP-1
BROADCAST = b"\xff" * 6
LINK = 14  # octets of two link addresses and the EtherType
SHORTEST = 60  # octets of a frame, up to which Ethernet adds zeros
VERSION = 1
COMMON_HEADER_FOLLOWS = 1  # NH of the Basic Header (9.6.3)
ANY, BTP_B = 0, 2  # NH of the Common Header
MOBILE = 0x80  # bit 0 of the flags
BTP_HEADER = 4
MAX_PAYLOAD = 1398  # itsGnMaxSduSize, MIB-7
MAX_FRAME = 1468  # MIB-7
LATITUDE_MAX, LONGITUDE_MAX = 900_000_000, 1_800_000_000

# Header type and sub-type of each kind (9.7.4). GBC and GAC have a sub-type per shape.
TYPES = {(1, 0): "beacon", (5, 0): "shb"}
TYPES |= {(3, sub): "gac" for sub in range(3)} | {(4, sub): "gbc" for sub in range(3)}
HEADERS = {"beacon": 24, "shb": 28, "gbc": 44, "gac": 44}  # octets from 12 to the payload


class Rejected(ValueError):
    """These octets are not a frame of the profile."""


@dataclass(frozen=True)
class Vector:
    """A Long Position Vector (9.5.2)."""

    address: int
    timestamp: int  # ms of TAI since 2004, modulo 2^32
    latitude: int  # 0.1 microdegree
    longitude: int
    accurate: bool = True  # PAI
    speed: int = 0  # 0.01 m/s, 15 bits, signed
    heading: int = 0  # 0.1 degree

    @property
    def place(self) -> tuple[int, int]:
        return self.latitude, self.longitude

    def encode(self) -> bytes:
        speed = (self.accurate << 15) | (self.speed & 0x7FFF)
        return struct.pack(
            ">QIiiHH",
            self.address,
            self.timestamp,
            self.latitude,
            self.longitude,
            speed,
            self.heading,
        )


@dataclass(frozen=True)
class Packet:
    """A packet that carries nothing, or BTP-B."""

    kind: str  # a value of TYPES
    source: Vector
    hops: int = 1  # RHL
    max_hops: int = 1  # MHL
    lifetime: int = 0x1A  # LT as its octet: 6 times 10 s
    traffic_class: int = 0
    mobile: bool = False
    number: int | None = None  # SN
    area: Area | None = None
    media: bytes = bytes(4)  # media-dependent data of an SHB
    port: int | None = None
    info: int = 0
    payload: bytes = b""


def mid(address: int) -> bytes:
    """The link address of a station: the MID in its GN address (clause 6)."""
    return (address & ((1 << 48) - 1)).to_bytes(6, "big")


def encode(packet: Packet, source: bytes, target: bytes = BROADCAST) -> bytes:
    """The frame of a packet, between two link addresses."""
    sub_type = SHAPES.index(packet.area.shape) if packet.area else 0
    header_type = {"beacon": 1, "gac": 3, "gbc": 4, "shb": 5}[packet.kind]
    body = b"" if packet.port is None else struct.pack(">HH", packet.port, packet.info)
    body += packet.payload
    basic = struct.pack(
        ">BBBB", VERSION << 4 | COMMON_HEADER_FOLLOWS, 0, packet.lifetime, packet.hops
    )
    common = struct.pack(
        ">BBBBHBB",
        (ANY if packet.port is None else BTP_B) << 4,
        header_type << 4 | sub_type,
        packet.traffic_class,
        MOBILE if packet.mobile else 0,
        len(body),
        packet.max_hops,
        0,
    )
    extended = b"" if packet.number is None else struct.pack(">HH", packet.number, 0)
    extended += packet.source.encode()
    if packet.kind == "shb":
        extended += packet.media
    if packet.area is not None:
        extended += packet.area.encode()
    return target + source + struct.pack(">H", ETHERTYPE) + basic + common + extended + body


def need(holds: bool, why: str) -> None:
    if not holds:
        raise Rejected(why)


def read_vector(octets: bytes) -> Vector:
    address, timestamp, latitude, longitude, speed, heading = struct.unpack(">QIiiHH", octets)
    need(address >> 40 & 1 == 0, "PKT-12: the address of a group")
    need(abs(latitude) <= LATITUDE_MAX, "PKT-12: latitude")
    need(abs(longitude) <= LONGITUDE_MAX, "PKT-12: longitude")
    signed = (speed & 0x7FFF) - (0x8000 if speed & 0x4000 else 0)
    return Vector(address, timestamp, latitude, longitude, speed >> 15 == 1, signed, heading)


def read_area(shape: str, octets: bytes) -> Area:
    latitude, longitude, a, b, angle, reserved = struct.unpack(">iiHHHH", octets)
    need(abs(latitude) <= LATITUDE_MAX and abs(longitude) <= LONGITUDE_MAX, "PKT-12: centre")
    if shape == "circle":
        need(a > 0 and b == 0 and angle == 0, "PKT-13: a circle with b or an angle")
    else:
        need(a > 0 and b > 0, "MIB-18: a half length of 0")
        need(angle < 360, "PKT-13: an angle from 360")
    need(reserved == 0, "PKT-14: octets 54 and 55")
    return Area(shape, latitude, longitude, a, b, angle)


def read_common(octets: bytes) -> tuple[str, int, int, int, int, int]:
    """Kind, sub-type, traffic class, flags, PL and MHL (9.7)."""
    following, kind, traffic_class, flags, length, max_hops, reserved = struct.unpack(
        ">BBBBHBB", octets
    )
    need(following & 0x0F == 0 and reserved == 0, "PKT-14: octet 4 or 11")
    need((kind >> 4, kind & 15) in TYPES, "PKT-2, PKT-6, PKT-7: header type or sub-type")
    name = TYPES[kind >> 4, kind & 15]
    need(following >> 4 == (ANY if name == "beacon" else BTP_B), "CAP-5, PKT-9: next header")
    need(flags & 0x7F == 0, "PKT-14: octet 7")
    if name == "beacon":
        need(length == 0, "PKT-10: a BEACON with a payload")
    else:
        need(BTP_HEADER <= length <= MAX_PAYLOAD, "PKT-10, MIB-7: payload length")
    return name, kind & 15, traffic_class, flags, length, max_hops


def without_padding(frame: bytes, end: int) -> bytes:
    """A frame that ends here, without the zeros of Ethernet (CAP-1)."""
    need(len(frame) >= end, "truncated")
    rest = frame[end:]
    need(not rest or (len(frame) <= SHORTEST and not any(rest)), "CAP-1: octets after the packet")
    return frame[:end]


def read(frame: bytes) -> Packet:
    """The packet of a frame. Link addresses are `frame[:6]` and `frame[6:12]`."""
    need(len(frame) >= LINK + 12, "truncated")
    need(frame[12:14] == struct.pack(">H", ETHERTYPE), "another EtherType")
    need(len(frame) <= MAX_FRAME, "MIB-7: too long")
    version, reserved, lifetime, hops = frame[14:18]
    need(version >> 4 == VERSION, "MIB-2: version")
    need(version & 15 == COMMON_HEADER_FOLLOWS, "PKT-8, CAP-3: next header of the Basic Header")
    need(reserved == 0, "PKT-14: octet 1")
    need(hops > 0, "PKT-11: RHL 0")
    kind, sub_type, traffic_class, flags, length, max_hops = read_common(frame[18:26])
    need(hops <= max_hops, "FUN-14: RHL over MHL")
    body = LINK + 12 + HEADERS[kind]
    frame = without_padding(frame, body + length)
    more = {}
    at = LINK + 12
    if kind in ("gbc", "gac"):
        number, reserved = struct.unpack_from(">HH", frame, at)
        need(reserved == 0, "PKT-14: octets 14 and 15")
        more = {"number": number, "area": read_area(SHAPES[sub_type], frame[at + 28 : at + 44])}
        at += 4
    elif kind == "shb":
        more = {"media": frame[at + 24 : at + 28]}
    if kind != "beacon":
        port, info = struct.unpack_from(">HH", frame, body)
        more |= {"port": port, "info": info, "payload": frame[body + BTP_HEADER :]}
    return Packet(
        kind,
        read_vector(frame[at : at + 24]),
        hops,
        max_hops,
        lifetime,
        traffic_class,
        bool(flags & MOBILE),
        **more,
    )
