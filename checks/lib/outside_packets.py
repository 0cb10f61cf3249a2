"""Packets that EN 302 636-4-1 clause 9 lays out, in the profile or not: an encoder of them.

It is written from the standard. A packet is drawn, encoded, and printed as a line of its fields in
the order of the wire. `checks/outside` compares these lines with those of tshark, and the tests of
`its_outside` have rows of them.
"""

from __future__ import annotations

import struct
from dataclasses import dataclass, field, replace
from random import Random

# Header type and sub-type of each kind. The sub-type of a packet for an area is its shape.
TYPES = {
    "beacon": (1, 0),
    "guc": (2, 0),
    "gac": (3, None),
    "gbc": (4, None),
    "shb": (5, 0),
    "tsb": (5, 1),
    "ls-request": (6, 0),
    "ls-reply": (6, 1),
}
UNSENT = ("beacon", "ls-request", "ls-reply")
SHAPES = ["circle", "rectangle", "ellipse"]
ANY, BTP_A, BTP_B, IPV6 = range(4)

# The fields and parts of a packet that may be unusual.
UNUSUAL = [
    "basic_next",
    "basic_reserved",
    "next",
    "next_reserved",
    "flags_reserved",
    "common_reserved",
    "source",
    "sequence",
    "area",
    "payload",
]


@dataclass
class Vector:
    """A position vector: a short one has no more than a place."""

    address: int
    timestamp: int
    latitude: int
    longitude: int
    accurate: bool = False
    speed: int = 0
    heading: int = 0

    def short(self) -> bytes:
        return struct.pack(">QIii", self.address, self.timestamp, self.latitude, self.longitude)

    def long(self) -> bytes:
        motion = self.accurate << 15 | self.speed & 0x7FFF
        return self.short() + struct.pack(">HH", motion, self.heading)

    def place(self) -> list[int]:
        return [self.address, self.timestamp, self.latitude, self.longitude]

    def values(self) -> list[int]:
        return [*self.place(), int(self.accurate), self.speed, self.heading]


@dataclass
class Area:
    """An area and the reserved octets after it."""

    latitude: int
    longitude: int
    a: int
    b: int
    angle: int
    reserved: int

    def values(self) -> list[int]:
        return [self.latitude, self.longitude, self.a, self.b, self.angle, self.reserved]

    def octets(self) -> bytes:
        return struct.pack(">iiHHHH", *self.values())


@dataclass
class Packet:
    """A packet, and each of its fields."""

    kind: str
    shape: int
    basic_next: int
    basic_reserved: int
    lifetime: int
    left: int
    next: int
    next_reserved: int
    traffic_class: int
    mobile: bool
    flags_reserved: int
    max_hops: int
    common_reserved: int
    source: Vector
    sequence: tuple[int, int] = (0, 0)
    destination: Vector | None = None
    area: Area | None = None
    media: int = 0
    sought: int = 0
    payload: bytes = field(default=b"")

    def extended(self) -> bytes:
        """The extended header."""
        source = self.source.long()
        if self.kind == "beacon":
            return source
        if self.kind == "shb":
            return source + struct.pack(">I", self.media)
        numbered = struct.pack(">HH", *self.sequence) + source
        if self.area:
            return numbered + self.area.octets()
        if self.destination:
            return numbered + self.destination.short()
        if self.kind == "ls-request":
            return numbered + struct.pack(">Q", self.sought)
        return numbered

    def octets(self) -> bytes:
        """The octets of the packet."""
        header_type, sub_type = TYPES[self.kind]
        sub_type = self.shape if sub_type is None else sub_type
        basic = [1 << 4 | self.basic_next, self.basic_reserved, self.lifetime, self.left]
        common = struct.pack(
            ">BBBBHBB",
            self.next << 4 | self.next_reserved,
            header_type << 4 | sub_type,
            self.traffic_class,
            self.mobile << 7 | self.flags_reserved,
            len(self.payload),
            self.max_hops,
            self.common_reserved,
        )
        return bytes(basic) + common + self.extended() + self.payload

    def rest(self) -> list[object]:
        """What the extended header has besides the source's vector."""
        if self.kind == "beacon":
            return []
        if self.kind == "shb":
            return [self.media]
        values: list[object] = [*self.sequence]
        if self.area:
            values += [SHAPES[self.shape], *self.area.values()]
        if self.destination:
            values += self.destination.place()
        if self.kind == "ls-request":
            values += [self.sought]
        return values

    def btp(self) -> list[object]:
        """The header of BTP: its letter, the destination port, and the source port or the info."""
        if self.next not in (BTP_A, BTP_B) or len(self.payload) < 4:
            return []
        return ["a" if self.next == BTP_A else "b", *struct.unpack(">HH", self.payload[:4])]

    def line(self) -> str:
        """All fields, in the order of the wire."""
        values = [
            self.kind,
            self.basic_next,
            self.basic_reserved,
            self.lifetime,
            self.left,
            self.next,
            self.next_reserved,
            self.traffic_class,
            int(self.mobile),
            self.flags_reserved,
            self.max_hops,
            self.common_reserved,
            *self.source.values(),
            *self.rest(),
            *self.btp(),
            self.payload.hex() or "-",
        ]
        return " ".join(str(value) for value in values)


def number(random: Random, bits: int) -> int:
    """A number of so many bits, its ends more often than others."""
    others = [random.getrandbits(bits), random.getrandbits(bits)]
    return random.choice([0, 1, (1 << bits) - 1, *others])


def signed(random: Random, bits: int, ends: tuple[int, ...] = ()) -> int:
    """A signed number of so many bits, these ends more often than others."""
    return random.choice([*ends, number(random, bits) - (1 << bits - 1)])


def draw_vector(random: Random) -> Vector:
    return Vector(
        number(random, 64),
        number(random, 32),
        signed(random, 32, (900_000_000, 900_000_001, -900_000_001)),
        signed(random, 32, (1_800_000_000, 1_800_000_001, -1_800_000_001)),
        random.random() < 0.5,
        signed(random, 15),
        number(random, 16),
    )


def draw_area(random: Random) -> Area:
    return Area(
        signed(random, 32, (900_000_000, 900_000_001)),
        signed(random, 32, (1_800_000_000, 1_800_000_001)),
        *(number(random, 16) for _ in range(3)),
        random.choice([0, 0, number(random, 16)]),
    )


def draw_wild(random: Random, kind: str) -> Packet:
    """A packet of this kind in which anything may be unusual."""
    left = random.choice([0, 1, number(random, 8)])
    size = 0 if kind in UNSENT else random.choice([0, 1, 3, 4, 5, 8, random.randrange(60)])
    return Packet(
        kind=kind,
        shape=random.randrange(3) if kind in ("gac", "gbc") else 0,
        basic_next=random.choice([0, 1]),
        basic_reserved=random.choice([0, number(random, 8)]),
        lifetime=number(random, 8),
        left=left,
        next=random.choice([ANY, BTP_A, BTP_B, BTP_B, IPV6]),
        next_reserved=random.choice([0, 0, number(random, 4)]),
        traffic_class=number(random, 8),
        mobile=random.random() < 0.5,
        flags_reserved=random.choice([0, 0, number(random, 7)]),
        max_hops=random.choice([left, 255, random.randint(left, 255)]),
        common_reserved=random.choice([0, 0, number(random, 8)]),
        source=draw_vector(random),
        sequence=(number(random, 16), random.choice([0, number(random, 16)])),
        destination=draw_vector(random) if kind in ("guc", "ls-reply") else None,
        area=draw_area(random) if kind in ("gac", "gbc") else None,
        media=number(random, 32),
        sought=number(random, 64),
        payload=random.randbytes(size),
    )


def tame(random: Random, packet: Packet) -> Packet:
    """The packet with nothing unusual, apart from its kind."""
    area, flat = packet.area, packet.shape == 0
    source = replace(
        packet.source,
        address=packet.source.address & ~(1 << 40),
        latitude=random.randint(-900_000_000, 900_000_000),
        longitude=random.randint(-1_800_000_000, 1_800_000_000),
    )
    return replace(
        packet,
        basic_next=1,
        basic_reserved=0,
        left=max(packet.left, 1),
        max_hops=max(packet.max_hops, 1),
        next=ANY if packet.kind in UNSENT else BTP_B,
        next_reserved=0,
        flags_reserved=0,
        common_reserved=0,
        source=source,
        sequence=(packet.sequence[0], 0),
        area=area
        and Area(
            random.randint(-900_000_000, 900_000_000),
            random.randint(-1_800_000_000, 1_800_000_000),
            max(area.a, 1),
            0 if flat else max(area.b, 1),
            0 if flat else area.angle % 360,
            0,
        ),
        payload=b"" if packet.kind in UNSENT else packet.payload + bytes(4),
    )


def draw(random: Random, kind: str) -> Packet:
    """A packet of this kind. Half of them have at most one unusual field or part."""
    wild = draw_wild(random, kind)
    if random.random() < 0.5:
        return wild
    usual = tame(random, wild)
    name = random.choice([None, *UNUSUAL])
    return replace(usual, **{name: getattr(wild, name)}) if name else usual


def drawn(count: int, seed: int = 98) -> list[Packet]:
    """So many packets, of each kind in turn."""
    random = Random(seed)
    kinds = list(TYPES)
    return [draw(random, kinds[place % len(kinds)]) for place in range(count)]


def in_profile(packet: Packet) -> bool:
    """Whether the profile has the packet."""
    area = packet.area
    source = packet.source
    reserved = [
        packet.basic_reserved,
        packet.next_reserved,
        packet.flags_reserved,
        packet.common_reserved,
    ]
    if packet.kind not in ("beacon", "shb", "gac", "gbc") or packet.basic_next != 1:
        return False
    if packet.next != (ANY if packet.kind == "beacon" else BTP_B) or not 0 < packet.left:
        return False
    if packet.kind != "beacon" and not 4 <= len(packet.payload) <= 1398:
        return False
    if area:
        flat = packet.shape == 0
        reserved += [packet.sequence[1], area.reserved]
        if abs(area.latitude) > 900_000_000 or abs(area.longitude) > 1_800_000_000:
            return False
        if area.a == 0 or flat != (area.b == 0) or area.angle > (0 if flat else 359):
            return False
    return (
        not any(reserved)
        and source.address >> 40 & 1 == 0
        and abs(source.latitude) <= 900_000_000
        and abs(source.longitude) <= 1_800_000_000
    )


def capture(packets: list[Packet]) -> bytes:
    """A pcap file of Ethernet frames with these packets, all at one time."""
    header = struct.pack("<IHHiIII", 0xA1B2C3D4, 2, 4, 0, 0, 65535, 1)
    records = []
    for packet in packets:
        frame = b"\xff" * 6 + bytes.fromhex("020000000001") + b"\x89\x47" + packet.octets()
        records.append(struct.pack("<IIII", 1_800_000_000, 0, len(frame), len(frame)) + frame)
    return header + b"".join(records)
