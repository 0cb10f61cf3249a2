"""Drawn traffic: what happens around two stations, as a list of events that a seed decides.

Some thirty sources, of which a few send most, are around two stations. They send each kind of
packet, by themselves or by a forwarder, with copies, older time stamps and octets that are wrong.
The stations move, send packets of their own, and open and close ports. After each `SCENE` all go to
another part of the world.
"""

from __future__ import annotations

import random
from collections import deque
from collections.abc import Iterator
from dataclasses import dataclass, replace
from typing import NamedTuple

from .areas import HALF_TURN, SHAPES, Area, Place
from .packets import BROADCAST, HEADERS, LINK, SHORTEST, Packet, Vector, encode, mid

SCENE = 600_000  # ms
REGIONS = [
    (514_776_500, -10_000),
    (-338_688_000, 1_512_093_000),
    (696_492_000, 189_560_000),
    (0, 0),
    (-546_000_000, -683_000_000),
    (-165_000_000, 1_800_000_000),
]
SOURCES, REACH = 32, 1_500  # m
METRE = 90  # 0.1 microdegree of latitude, about
REMEMBERED = 8  # itsGnDPLLength
NUMBER_AT, SOURCE_AT = LINK + 12, LINK + 16  # in a frame for an area
PORTS = [0, 2001, 2002, 2003, 65535]
WRAP = 1 << 32


@dataclass
class Source:
    """A station that exists only in its frames."""

    address: int
    place: Place
    stamp: int  # at the begin
    number: int


class Frame(NamedTuple):
    """A frame on the wire, and what is wrong with it."""

    octets: bytes
    wrong: str = ""


class Move(NamedTuple):
    """A station is elsewhere: the vector has no time stamp yet."""

    station: int
    vector: Vector


class Send(NamedTuple):
    """A station is asked to send a packet. Its source is not used."""

    station: int
    packet: Packet


class Port(NamedTuple):
    """A station's port is opened, or closed if it is open."""

    station: int
    port: int


class Wait(NamedTuple):
    """Time goes on."""

    ms: int


class Traffic:
    def __init__(self, seed: int, addresses: tuple[int, int], start: int):
        self.draw = random.Random(seed)
        self.addresses, self.start, self.now = addresses, start, start
        self.recent: deque[bytes] = deque(maxlen=60)
        self.own: dict[bytes, list[bytes]] = {}  # of each source, for areas, by its address
        self.region = REGIONS[0]
        self.places = [self.place(), self.place()]
        self.sources = [self.source(k) for k in range(SOURCES)]
        self.weights = [1 / (k + 1) for k in range(SOURCES)]

    # ---- places and areas

    def place(self, centre: Place | None = None, spread: float = REACH) -> Place:
        """A place around another one. Degrees of longitude are taken for as long as at the
        latitude of 60 degrees."""
        latitude, longitude = centre or self.region
        north, east = (self.draw.gauss(0, spread) for _ in range(2))
        turned = longitude + round(2 * east * METRE) + HALF_TURN
        return latitude + round(north * METRE), turned % (2 * HALF_TURN) - HALF_TURN

    def length(self) -> int:
        return round(20 * 200 ** self.draw.random())

    def spots(self) -> list[Place]:
        return [s.place for s in self.sources]

    def area(self) -> Area:
        near = self.draw.choice(self.places if self.draw.random() < 0.6 else self.spots())
        shape = self.draw.choice(SHAPES)
        latitude, longitude = self.place(near, self.draw.choice([30, 300, 2_000]))
        if shape == "circle":
            return Area(shape, latitude, longitude, self.length())
        angle = self.draw.choice([0, 90, self.draw.randrange(360), self.draw.randrange(360)])
        return Area(shape, latitude, longitude, self.length(), self.length(), angle)

    # ---- packets of the sources

    def source(self, k: int) -> Source:
        address = self.draw.randrange(32) << 58 | 0x0200_0000_A000 + k
        address |= self.draw.choice([0, 1 << 63])
        late = self.draw.random() < 0.4
        stamp = WRAP - self.draw.randrange(3_600_000) if late else self.start
        return Source(address, self.place(), stamp % WRAP, self.draw.choice([0, 65_530, 12_345]))

    def vector(self, s: Source) -> Vector:
        stamp = s.stamp + self.now - self.start
        kind = self.draw.random()
        if kind < 0.1:
            stamp -= self.draw.randrange(1, 30_000)
        elif kind < 0.105:
            stamp += (1 << 31) + self.draw.randrange(1, 1_000_000) * self.draw.choice([-1, 1])
        if self.draw.random() < 0.1:
            s.place = self.place(s.place, 100)
        return Vector(
            s.address,
            stamp % WRAP,
            *s.place,
            accurate=self.draw.random() < 0.7,
            speed=self.draw.randrange(-16_384, 16_384),
            heading=self.draw.randrange(3_601),
        )

    def message(self) -> dict:
        longest = self.draw.choice([0, 8, 60, 60, 60, 1_394])
        return {
            "traffic_class": self.draw.choice([0, 2, 0x80, self.draw.randrange(256)]),
            "lifetime": self.draw.choice([0x1A, 0xF1, self.draw.randrange(256)]),
            "port": self.draw.choice(PORTS),
            "info": self.draw.choice([0, self.draw.randrange(65_536)]),
            "payload": self.draw.randbytes(self.draw.randint(0, longest)),
        }

    def hops(self) -> int:
        return self.draw.choice([1, 2, 3, 5, 10, 10, 10, 255])

    def packet(self, s: Source) -> Packet:
        """One of the source's own, as it is when it leaves."""
        kind = self.draw.choices(["beacon", "shb", "gbc", "gac"], [25, 8, 30, 15])[0]
        mobile = self.draw.random() < 0.7
        source = self.vector(s)
        hops = self.hops()
        if kind in ("beacon", "shb"):
            hops = hops if self.draw.random() < 0.05 else 1
            message = self.message() if kind == "shb" else {"lifetime": 0xF1}
            return Packet(kind, source, hops, hops, mobile=mobile, **message)
        number, s.number = s.number, (s.number + 1) % 65_536
        return Packet(
            kind, source, hops, hops, mobile=mobile, number=number, area=self.area(),
            **self.message(),
        )  # fmt: skip

    def target(self) -> bytes:
        other = mid(self.draw.choice(self.sources).address)
        ours = [mid(address) for address in self.addresses]
        return self.draw.choices([BROADCAST, *ours, other], [85, 6, 6, 3])[0]

    def frame(self) -> bytes:
        """A packet of a source, of which some arrive by a forwarder."""
        s = self.draw.choices(self.sources, self.weights)[0]
        packet, sender = self.packet(s), s
        if packet.area is not None and packet.hops > 1 and self.draw.random() < 0.5:
            packet = replace(packet, hops=self.draw.randint(1, packet.hops - 1))
            sender = self.draw.choices(self.sources, self.weights)[0]
        if self.draw.random() < 0.01:
            sender = self.draw.choice(self.sources)
        return self.padded(encode(packet, mid(sender.address), self.target()))

    def padded(self, frame: bytes) -> bytes:
        return frame.ljust(SHORTEST, b"\0") if self.draw.random() < 0.5 else frame

    def earlier(self) -> bytes:
        """Any of the last frames, or one that is just about to be forgotten: its source sent as many
        others for an area since as a duplicate packet list has."""
        if self.draw.random() < 0.5:
            return self.draw.choice(self.recent)
        lists = [own for own in self.own.values() if len(own) > REMEMBERED]
        if not lists:
            return self.recent[-1]
        return self.draw.choice(lists)[-REMEMBERED - self.draw.randrange(2)]

    def copy(self) -> bytes:
        """An earlier frame again, from any sender and with any hops left."""
        frame = bytearray(self.earlier())
        frame[:6] = self.target()
        if len(frame) > 70 and frame[19] >> 4 in (3, 4):
            frame[6:12] = mid(self.draw.choice(self.sources).address)
            frame[17] = self.draw.randint(1, frame[24])
        return bytes(frame)

    # ---- octets that are wrong

    def malformed(self) -> Frame:
        frame = self.frame()
        name = self.draw.choice(list(WRONG))
        return Frame(WRONG[name](self.draw, frame), name)

    # ---- what happens

    def scene(self, k: int) -> Iterator[Move]:
        """All go elsewhere."""
        self.region = REGIONS[k % len(REGIONS)]
        for s in self.sources:
            s.place = self.place()
        for station in (0, 1):
            self.places[station] = self.place()
            yield self.move(station)

    def move(self, station: int) -> Move:
        if self.draw.random() < 0.5:
            self.places[station] = self.place(self.places[station], 200)
        vector = Vector(
            self.addresses[station],
            0,
            *self.places[station],
            accurate=self.draw.random() < 0.7,
            speed=self.draw.randrange(-16_384, 16_384),
            heading=self.draw.randrange(3_601),
        )
        return Move(station, vector)

    def send(self, station: int) -> Send:
        kind = self.draw.choice(["shb", "gbc", "gac"])
        nothing = Vector(0, 0, 0, 0)
        if kind == "shb":
            return Send(station, Packet(kind, nothing, **{**self.message(), "lifetime": 0x1A}))
        hops = self.hops()
        return Send(station, Packet(kind, nothing, hops, area=self.area(), **self.message()))

    def event(self) -> Frame | Move | Send | Port:
        station = self.draw.randrange(2)
        kind = self.draw.choices(["frame", "copy", "wrong", "move", "send", "port"],
                                 [62, 18, 12, 2, 5, 1])[0]  # fmt: skip
        if kind == "wrong":
            return self.malformed()
        if kind == "copy" and self.recent:
            return Frame(self.copy())
        if kind == "move":
            return self.move(station)
        if kind == "send":
            return self.send(station)
        if kind == "port":
            return Port(station, self.draw.choice(PORTS))
        return Frame(self.frame())

    def wait(self) -> Wait:
        """Mostly short. A long one lets all entries end, or a beacon be due."""
        rare = self.draw.random()
        longest = 25_000 if rare < 0.001 else 4_000 if rare < 0.02 else 500
        return Wait(self.draw.randrange(longest + 1))

    def events(self, length: int) -> Iterator[Frame | Move | Send | Port | Wait]:
        """What happens in so many ms. The caller has to note each frame that is valid."""
        scene = -1
        while self.now < self.start + length:
            if (self.now - self.start) // SCENE != scene:
                scene += 1
                yield from self.scene(scene)
            wait = self.wait()
            self.now += wait.ms
            yield wait
            yield self.event()

    def note(self, frame: bytes) -> None:
        """A frame was on the wire: copies of it may follow."""
        self.recent.append(frame)
        if is_to_area(frame):
            own = self.own.setdefault(frame[SOURCE_AT : SOURCE_AT + 8], [])
            if all(number_of(other) != number_of(frame) for other in own[-REMEMBERED - 1 :]):
                own.append(frame)


# ---- what may be wrong with a frame, by its name


def put(frame: bytes, at: int, octets: bytes) -> bytes:
    """Octets in place of others, at an octet of the packet. A frame that is too short stays."""
    at += LINK
    return frame[:at] + octets + frame[at + len(octets) :] if len(frame) > at + 8 else frame


def is_to_area(frame: bytes) -> bool:
    return frame[19] >> 4 in (3, 4)


def number_of(frame: bytes) -> bytes:
    return frame[NUMBER_AT : NUMBER_AT + 2]


def vector_at(frame: bytes) -> int:
    return 16 if is_to_area(frame) else 12


def length_of(frame: bytes) -> int:
    return int.from_bytes(frame[22:24], "big")


def flipped(draw: random.Random, frame: bytes) -> bytes:
    """A few bits of the packet are others."""
    octets = bytearray(frame)
    for _ in range(draw.randint(1, 3)):
        octets[draw.randrange(LINK, len(octets))] ^= 1 << draw.randrange(8)
    return bytes(octets)


def of_kind(draw: random.Random, frame: bytes, kind: int) -> bytes:
    return put(frame, 5, bytes([kind]))


def longer(draw: random.Random, frame: bytes) -> bytes:
    end = LINK + 12 + HEADERS["gbc" if is_to_area(frame) else "shb"] + length_of(frame)
    return frame[: max(end, SHORTEST)] + bytes([draw.randrange(256)]) * draw.randint(1, 9)


def area_put(at: int, *choices: bytes):
    def wrong(draw: random.Random, frame: bytes) -> bytes:
        return put(frame, at, draw.choice(choices)) if is_to_area(frame) else frame

    return wrong


def plain_put(at: int, *choices: bytes):
    return lambda draw, frame: put(frame, at, draw.choice(choices))


def vector_put(at: int, *choices: bytes):
    return lambda draw, frame: put(frame, vector_at(frame) + at, draw.choice(choices))


def number(value: int) -> bytes:
    return (value % WRAP).to_bytes(4, "big")


WRONG = {
    "truncated": lambda draw, frame: frame[: draw.randrange(LINK, len(frame))],
    "octets after the packet": longer,
    "bits": flipped,
    "only random octets": lambda draw, frame: frame[:LINK] + draw.randbytes(draw.randrange(1, 90)),
    "version": plain_put(0, b"\x01", b"\x21", b"\xf1"),
    "next header of the Basic Header": plain_put(0, b"\x10", b"\x12", b"\x1f"),
    "reserved octet 1": plain_put(1, b"\x01", b"\x80"),
    "RHL 0": plain_put(3, b"\0"),
    "next header": plain_put(4, b"\x00", b"\x10", b"\x20", b"\x30"),
    "reserved bits of octet 4": plain_put(4, b"\x21", b"\x28"),
    "type": lambda draw, frame: of_kind(draw, frame, draw.randrange(256)),
    "GUC": lambda draw, frame: of_kind(draw, frame, 0x20),
    "multi-hop TSB": lambda draw, frame: of_kind(draw, frame, 0x51),
    "LS": lambda draw, frame: of_kind(draw, frame, draw.choice([0x60, 0x61])),
    "reserved flags": plain_put(7, b"\x81", b"\x40"),
    "payload length": plain_put(8, b"\0\0", b"\0\3", b"\0\5", b"\5\x77", b"\xff\xff"),
    "MHL": plain_put(10, b"\0", b"\1", b"\x02"),
    "reserved octet 11": plain_put(11, b"\x01", b"\xff"),
    "group address": vector_put(2, b"\x01", b"\xff"),
    "latitude": vector_put(12, number(900_000_001), number(-900_000_001), number(900_000_000)),
    "longitude": vector_put(16, number(1_800_000_001), number(-1_800_000_001)),
    "reserved octets 14 and 15": area_put(14, b"\0\1", b"\x80\0"),
    "centre": area_put(40, number(900_000_001), number(-1 << 31)),
    "no half length a": area_put(48, b"\0\0"),
    "no half length b": area_put(50, b"\0\0"),
    "angle": area_put(52, b"\1\x68", b"\xff\xff", b"\1\x67"),
    "reserved octets 54 and 55": area_put(54, b"\0\1", b"\x80\0"),
}
