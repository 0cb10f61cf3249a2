"""A second opinion of `geostation sim`, written from the rules and not from the program.

    python3 checks/lib/air.py SCENARIO.toml                 the lines of a run
    python3 checks/lib/air.py --notes SCENARIO.toml         its notes among them
    python3 checks/lib/air.py --summary SCENARIO.toml       its summary
    python3 checks/lib/air.py .. --moves FILE SCENARIO.toml the same of a run with moves

It prints what `geostation sim` prints of a scenario that isn't refused, with a table `air` or
without. On standard error it says which location tables were full, which events were not run, which
expectations are not met and which line of FILE is bad, and it ends with the status of a run without
`--strict`. Nothing is taken
from the program's sources: here a frame is a record without octets, a location table a dictionary,
a search a `min`. `checks/air` compares what the two print.
"""

from __future__ import annotations

import heapq
import itertools
import re
import sys
import tomllib
from collections import Counter
from dataclasses import dataclass, field
from decimal import ROUND_HALF_UP, Decimal
from math import inf
from typing import Iterator, NamedTuple

LAST_MOMENT, ENTRY_LIFE, BEACON_WAIT = 2**62, 20000, 3000
MOST_JITTER, MOST_PORTS, MOST_PAYLOAD = 750, 64, 1394
BROADCAST, U64 = 2**48 - 1, 2**64 - 1


class Xoshiro256PlusPlus:
    """Xoshiro256++; SplitMix64 makes its four words of a seed."""

    def __init__(self, seed: int):
        self.words, state = [], seed
        for _ in range(4):
            state = (state + 0x9E3779B97F4A7C15) & U64
            word = ((state ^ (state >> 30)) * 0xBF58476D1CE4E5B9) & U64
            word = ((word ^ (word >> 27)) * 0x94D049BB133111EB) & U64
            self.words.append(word ^ (word >> 31))

    def draw(self, below: int) -> int:
        """The next draw, modulo `below`."""
        a, b, c, d = self.words
        drawn = (rotate_left((a + d) & U64, 23) + a) & U64
        c ^= a
        d ^= b
        self.words = [a ^ d, b ^ c, c ^ ((b << 17) & U64), rotate_left(d, 45)]
        return drawn % below


def rotate_left(word: int, count: int) -> int:
    return ((word << count) | (word >> (64 - count))) & U64


# Sines of 0 to 90 degrees, times 10000.
QUADRANT = [
    0, 175, 349, 523, 698, 872, 1045, 1219, 1392, 1564,
    1736, 1908, 2079, 2250, 2419, 2588, 2756, 2924, 3090, 3256,
    3420, 3584, 3746, 3907, 4067, 4226, 4384, 4540, 4695, 4848,
    5000, 5150, 5299, 5446, 5592, 5736, 5878, 6018, 6157, 6293,
    6428, 6561, 6691, 6820, 6947, 7071, 7193, 7314, 7431, 7547,
    7660, 7771, 7880, 7986, 8090, 8192, 8290, 8387, 8480, 8572,
    8660, 8746, 8829, 8910, 8988, 9063, 9135, 9205, 9272, 9336,
    9397, 9455, 9511, 9563, 9613, 9659, 9703, 9744, 9781, 9816,
    9848, 9877, 9903, 9925, 9945, 9962, 9976, 9986, 9994, 9998, 10000,
]  # fmt: skip


def quot(a: int, b: int) -> int:
    """`a / b`, cut toward zero; `b` is above 0."""
    return a // b if a >= 0 else -(-a // b)


def sine(degrees: int) -> int:
    """Sine times 10000, for 0..=359 degrees."""
    if degrees > 180:
        return -sine(degrees - 180)
    return QUADRANT[min(degrees, 180 - degrees)]


class Place(NamedTuple):
    """Latitude and longitude in tenths of a microdegree."""

    lat: int
    lon: int


def longitude_scale(lat: int) -> int:
    """How long a degree of longitude is at a latitude, times 10000: 10000 at the equator."""
    degrees, rest = divmod(abs(lat), 10**7)
    if degrees == 90:
        return 0
    return quot(sine(90 - degrees) * (10**7 - rest) + sine(89 - degrees) * rest, 10**7)


def offset(centre: Place, place: Place) -> tuple[int, int]:
    """How many centimetres north and east of the centre a place is, the short way round."""
    across = place.lon - centre.lon
    if abs(across) > 1800000000:
        across += 3600000000 if across < 0 else -3600000000
    north = quot((place.lat - centre.lat) * 11132, 10000)
    return north, quot(across * 11132 * longitude_scale(centre.lat), 10**8)


def squared_distance(centre: Place, place: Place) -> int:
    return sum(x * x for x in offset(centre, place))


class Area(NamedTuple):
    """A shape round a centre; `a` and `b` are half lengths in metres."""

    shape: str
    centre: Place
    a: int
    b: int
    angle: int

    def holds(self, place: Place) -> bool:
        """Whether a place is in the area; its border is."""
        a, b = 100 * self.a, 100 * self.b
        north, east = offset(self.centre, place)
        if self.shape == "circle":
            return north * north + east * east <= a * a
        sin, cos = sine(self.angle), sine((self.angle + 90) % 360)
        along = quot(north * cos + east * sin, 10000)
        aside = quot(east * cos - north * sin, 10000)
        if self.shape == "rectangle":
            return abs(along) <= a and abs(aside) <= b
        return along * along * b * b + aside * aside * a * a <= a * a * b * b


class Vector(NamedTuple):
    """A source's address and what it said of its place."""

    address: int
    tst: int
    place: Place
    pai: bool

    @property
    def mid(self) -> int:
        return self.address & 0xFFFFFFFFFFFF


def newer(a: int, b: int) -> bool:
    """Whether timestamp `a` is after `b`, modulo 2^32."""
    return 1 <= (a - b) % 2**32 <= 2**31 - 1


class Message(NamedTuple):
    """A payload with the port that it is for."""

    port: int
    info: int
    payload: bytes


class Packet(NamedTuple):
    """A packet as its source sent it. A beacon or an shb has no number and no area, and nothing is
    said of its traffic class and its most hops."""

    kind: str
    source: Vector
    message: Message | None = None
    number: int | None = None
    area: Area | None = None
    tc: int | None = None
    most_hops: int | None = None


class Frame(NamedTuple):
    """A packet on the air, with the hops that it has left."""

    to: int
    sender: int
    hops: int
    packet: Packet

    def is_copy_of(self, held: Frame, own: int) -> bool:
        """Whether it is a held frame, sent to all by another station than this one."""
        same = self._replace(sender=held.sender) == held
        return same and self.to == BROADCAST and self.sender != own


MOST_HELD = 64


class Rule(NamedTuple):
    """How long a station waits that contends, in milliseconds; how many copies cancel a frame."""

    longest: int = 100
    shortest: int = 1
    metres: int = 1000
    copies: int = 2

    def wait(self, square: int | None, tie: int) -> int:
        """The wait by the square of the distance of the sender in centimetres, where it is known."""
        span = self.longest - self.shortest
        if square is None:
            return self.longest - tie % (quot(span, 2) + 1)
        reach = 100 * self.metres
        return self.longest - max(k for k in range(span + 1) if (k * reach) ** 2 <= span**2 * square)


@dataclass
class Held:
    """A frame that a station holds, by its number, and who sent copies of it."""

    station: int
    number: int
    frame: Frame
    due: int
    senders: set[int] = field(default_factory=set)


@dataclass
class Source:
    """What a station knows of a source until moment `end`."""

    vector: Vector
    neighbour: bool = False
    end: int = 0
    numbers: list[int] = field(default_factory=list)


@dataclass
class Table:
    """The sources of which packets were accepted, and the last numbers of each, `remember` many."""

    capacity: int
    remember: int
    sources: dict[int, Source] = field(default_factory=dict)

    def live(self, now: int) -> dict[int, Source]:
        """The sources that haven't expired, by address."""
        return {a: self.sources[a] for a in sorted(self.sources) if now < self.sources[a].end}

    def accept(self, now: int, packet: Packet) -> None:
        live, vector = self.live(now), packet.source
        if vector.address not in live and len(live) >= self.capacity:
            raise Refused("S4")
        source = live.get(vector.address, Source(vector))
        if newer(vector.tst, source.vector.tst):
            source.vector = vector
        if packet.number is None:
            source.neighbour = True
        else:
            source.numbers = (source.numbers + [packet.number])[-self.remember :]
        source.end = now + ENTRY_LIFE
        self.sources[vector.address] = source


def choose(table: Table, now: int, own: Place, area: Area, sender: int | None) -> int | None:
    """The MAC to which a packet for an area is sent on; None where it is dropped."""
    if area.holds(own):
        return BROADCAST
    live = table.live(now).values()
    known = next((s.vector for s in live if s.vector.mid == sender), None)
    if known is not None and known.pai and area.holds(known.place):
        return None
    neighbours = [s.vector for s in live if s.neighbour]
    ways = [(squared_distance(area.centre, v.place), v.address, v.mid) for v in neighbours]
    nearer = [way for way in ways if way[0] < squared_distance(area.centre, own)]
    return min(nearer)[2] if nearer else BROADCAST


class Refused(Exception):
    """Why an event changes nothing: the code that its line shows."""


@dataclass
class Entry:
    """The outcome of an event, with the message that a port got and the frame that was sent."""

    word: str
    handed: Message | None = None
    frame: Frame | None = None
    # Until when the frame waits, where it does, and the numbers of the frames that are cancelled.
    until: int | None = None
    cancels: list[int] = field(default_factory=list)


@dataclass
class Station:
    """A station, with a method for each word of an event but `deliver`."""

    vector: Vector
    table: Table
    clock: int = 0
    number: int = 0
    beacon_from: int = 0
    ports: set[int] = field(default_factory=set)
    contends: bool = False

    def due(self, rule: Rule, now: int, frame: Frame) -> int | None:
        """Until when it holds what it sends on of a frame that it accepted, where it contends and
        stands in the area of a geobroadcast."""
        packet, own = frame.packet, self.vector.place
        if not self.contends or packet.kind != "gbc" or not packet.area.holds(own):
            return None
        known = [s.vector for s in self.table.live(now).values() if s.vector.mid == frame.sender]
        is_known = known and known[0].pai
        square = squared_distance(own, known[0].place) if is_known else None
        return now + rule.wait(square, self.vector.mid + packet.number)

    def call(self, now: int, keys: dict, air: list[Frame]) -> Entry:
        """Does what an event says. Where it isn't refused it sets the clock."""
        if now < self.clock:
            raise Refused("S1")
        if now > LAST_MOMENT:
            raise Refused("S2")
        if keys["do"] == "deliver":
            entry = self.receive(now, air[keys["frame"]])
        else:
            entry = getattr(self, keys["do"])(now, keys)
        self.clock = now
        return entry

    def move(self, now: int, keys: dict) -> Entry:
        place = Place(keys["lat"], keys["lon"])
        self.vector = Vector(self.vector.address, now % 2**32, place, keys["pai"])
        return Entry("moved")

    def open(self, _now: int, keys: dict) -> Entry:
        if keys["port"] in self.ports:
            raise Refused("S8 B2")
        if len(self.ports) >= MOST_PORTS:
            raise Refused("S8 B3")
        self.ports.add(keys["port"])
        return Entry("opened")

    def close(self, _now: int, keys: dict) -> Entry:
        if keys["port"] not in self.ports:
            raise Refused("S8 B4")
        self.ports.remove(keys["port"])
        return Entry("closed")

    def restart(self, now: int, keys: dict) -> Entry:
        self.table.sources.clear()
        self.ports.clear()
        self.number, self.beacon_from = keys["number"], now
        return Entry("restarted")

    def tick(self, now: int, keys: dict) -> Entry:
        if keys["jitter"] > MOST_JITTER:
            raise Refused("S9")
        if now < self.beacon_from + keys["jitter"]:
            return Entry("quiet")
        return self.originate(now, BROADCAST, 1, Packet("beacon", self.vector))

    def shb(self, now: int, keys: dict) -> Entry:
        return self.originate(now, BROADCAST, 1, Packet("shb", self.vector, read_message(keys)))

    def gbc(self, now: int, keys: dict) -> Entry:
        message, area = read_message(keys), read_area(keys, self.vector.place)
        if keys["hops"] == 0:
            raise Refused("S7")
        to = choose(self.table, now, self.vector.place, area, None)
        packet = Packet(
            keys["do"], self.vector, message, self.number, area, keys["tc"], keys["hops"]
        )
        self.number = (self.number + 1) % 65536
        return self.originate(now, to, keys["hops"], packet)

    gac = gbc

    def originate(self, now: int, to: int, hops: int, packet: Packet) -> Entry:
        self.beacon_from = now + BEACON_WAIT
        return Entry("sent", frame=Frame(to, self.vector.mid, hops, packet))

    def receive(self, now: int, frame: Frame) -> Entry:
        if why := self.why_ignored(now, frame):
            return Entry(f"ignored {why}")
        packet = frame.packet
        self.table.accept(now, packet)
        entry, own = Entry("accepted"), self.vector.place
        inside = packet.area is None or packet.area.holds(own)
        if packet.message is not None and inside and packet.message.port in self.ports:
            entry.handed = packet.message
        goes_on = packet.kind == "gbc" or packet.kind == "gac" and not inside
        if goes_on and frame.hops > 1:
            to = choose(self.table, now, own, packet.area, frame.sender)
            if to is not None:
                entry.frame = Frame(to, self.vector.mid, frame.hops - 1, packet)
        return entry

    def why_ignored(self, now: int, frame: Frame) -> str | None:
        packet = frame.packet
        if frame.to not in (self.vector.mid, BROADCAST):
            return "not-for-me"
        if packet.source.address == self.vector.address:
            return "own-source"
        if packet.number is None and packet.source.mid != frame.sender:
            return "sender-mismatch"
        known = self.table.live(now).get(packet.source.address)
        return "duplicate" if known is not None and packet.number in known.numbers else None


def read_area(keys: dict, here: Place) -> Area:
    """The area of a geocast; without a centre it lies round where its station stands."""
    centre = Place(keys["alat"], keys["alon"]) if "alat" in keys else here
    return Area(keys["shape"], centre, keys["a"], keys["b"], keys["angle"])


def read_message(keys: dict) -> Message:
    payload = bytes.fromhex(keys["payload"])
    if len(payload) > MOST_PAYLOAD:
        raise Refused("S6")
    return Message(keys["port"], keys["info"], payload)


def read_station(keys: dict) -> Station:
    vector = Vector(int(keys["address"], 16), 0, Place(keys["lat"], keys["lon"]), pai=False)
    return Station(vector, Table(keys.get("capacity", 64), keys.get("remember", 8)))


class BadRow(Exception):
    """A line of a file of moves that ends the run: its number and what is wrong with it."""

    def __init__(self, line: int, word: str):
        super().__init__(f"moves: line {line}: {word}")


class Row(NamedTuple):
    """A move of a station that has an id, and the number of its line."""

    line: int
    at: int
    id: str
    keys: dict


class Column(NamedTuple):
    """A column of a file of moves: its names, the decimals of its unit, and its range."""

    own: bytes
    sumo: bytes
    places: int
    least: int
    most: int


NUMBERS = {
    "at": Column(b"at", b"timestep_time", 3, 0, 2**62),
    "lat": Column(b"lat", b"vehicle_y", 7, -900000000, 900000000),
    "lon": Column(b"lon", b"vehicle_x", 7, -1800000000, 1800000000),
    "speed": Column(b"speed", b"vehicle_speed", 2, -16384, 16383),
    "heading": Column(b"heading", b"vehicle_angle", 1, 0, 3600),
}
OWN = [b"id", *(column.own for column in NUMBERS.values())]
SUMO = [b"vehicle_id", *(column.sumo for column in NUMBERS.values())]
MAY_LACK = {b"speed", b"heading", b"vehicle_speed", b"vehicle_angle"}
MOST_OCTETS = 4096


def split_fields(line: bytes, separator: bytes) -> list[bytes]:
    """The fields of a line; one that begins with a quotation mark is quoted."""
    fields, rest = [], line
    while True:
        begin = b""
        if quoted := re.match(rb'"((?:[^"]|"")*)(?:"|$)', rest, re.DOTALL):
            begin, rest = quoted[1].replace(b'""', b'"'), rest[quoted.end() :]
        end, found, rest = rest.partition(separator)
        fields.append(begin + end)
        if not found:
            return fields


def read_number(column: Column, is_sumo: bool, text: bytes) -> int | None:
    """The number that a field writes, in the own unit; None where it is none in its range."""
    if is_sumo:
        digits = re.fullmatch(rb"-?([0-9]+)(?:\.([0-9]*))?", text)
        if digits is None or len(digits[1] + (digits[2] or b"")) > 18:
            return None
        exact = Decimal(text.decode()).scaleb(column.places)
        number = int(exact.to_integral_value(ROUND_HALF_UP))
    else:
        if re.fullmatch(rb"-?[0-9]{1,19}", text) is None:
            return None
        number = int(text)
    return number if column.least <= number <= column.most else None


def is_id(octets: bytes) -> bool:
    try:
        text = octets.decode()
    except UnicodeDecodeError:
        return False
    plain = all(not (ord(c) < 0x20 or 0x7F <= ord(c) < 0xA0) for c in text)
    return 1 <= len(octets) <= 64 and plain


class Moves:
    """The rows of a file of moves, read one by one."""

    def __init__(self, octets: bytes, begin: int):
        self.begin, self.before = begin, 0
        lines = octets.split(b"\n")
        self.lines = enumerate(lines if lines[-1] else lines[:-1], 1)
        first = self.cut(*next(self.lines, (1, b"")))
        first = first.removeprefix(b"\xef\xbb\xbf")
        self.separator = b";" if b";" in first else b","
        names = split_fields(first, self.separator)
        self.count = len(names)
        self.is_sumo = any(name in SUMO for name in names)
        known, others = (SUMO, OWN) if self.is_sumo else (OWN, SUMO)
        lacks = any(name not in names and name not in MAY_LACK for name in known)
        if lacks or any(name in names for name in others) or any(names.count(n) > 1 for n in known):
            raise BadRow(1, "header")
        self.places = {name: names.index(name) for name in known if name in names}

    def cut(self, number: int, line: bytes) -> bytes:
        if len(line) > MOST_OCTETS:
            raise BadRow(number, "length")
        return line.removesuffix(b"\r")

    def next(self) -> Row | None:
        """The next row that isn't passed over."""
        for number, line in self.lines:
            line = self.cut(number, line)
            if line and (row := self.read(number, split_fields(line, self.separator))):
                return row
        return None

    def read(self, number: int, fields: list[bytes]) -> Row | None:
        if len(fields) != self.count:
            raise BadRow(number, "fields")
        ident = fields[self.places[SUMO[0] if self.is_sumo else OWN[0]]]
        if self.is_sumo and not ident:
            return None
        keys = {"at": self.number(number, "at", fields)}
        if keys["at"] < self.before:
            raise BadRow(number, "at")
        if not is_id(ident):
            raise BadRow(number, "id")
        for word in ("lat", "lon", "speed", "heading"):
            keys[word] = self.number(number, word, fields)
        self.before = keys["at"]
        keys["heading"] %= 3600
        at = keys["at"] - self.begin
        return Row(number, at, ident.decode(), keys) if at >= 0 else None

    def number(self, line: int, word: str, fields: list[bytes]) -> int:
        """The number of a column, 0 where the file doesn't have it."""
        column = NUMBERS[word]
        place = self.places.get(column.sumo if self.is_sumo else column.own)
        if place is None:
            return 0
        number = read_number(column, self.is_sumo, fields[place])
        if number is None:
            raise BadRow(line, word)
        return number


class Done(NamedTuple):
    """An event that was run, and its outcome."""

    event: dict
    entry: Entry


class Note(NamedTuple):
    """What happened at a time besides the events."""

    moment: int
    station: int | str
    words: str


class Hidden(NamedTuple):
    """What no line has: a frame comes into the hearing of a station, or a row makes a station."""

    moment: int
    station: int
    heard: int | None = None
    made: str | None = None


# What a run yields.
Step = Done | Note | Hidden


class World:
    """The stations of a scenario, and all frames that they gave."""

    def __init__(self, scenario: dict, moves: bytes | None = None):
        self.stations = [read_station(keys) for keys in scenario.get("station", [])]
        self.frames: list[Frame] = []
        self.events: list[dict] = scenario.get("event", [])
        self.air: dict | None = scenario.get("air")
        # What the stations of an air send by themselves, and the stations that are present.
        self.every: list[dict] = scenario.get("every", [])
        self.present = {
            number
            for number, keys in enumerate(scenario.get("station", []))
            if self.air is None or not keys.get("absent", False)
        }
        self.making: dict = scenario.get("moves", {})
        # The rows; of each id the station and the moment of its last row.
        self.moves = None if moves is None else Moves(moves, self.making.get("begin", 0))
        self.known: dict[str, int] = {}
        self.last: dict[str, int] = {}
        # A frame for each of its deliveries that the end of the run cut off.
        self.undelivered: list[int] = []
        # What is said of each event of the scenario that isn't run or not sent, in order.
        self.failed: list[str] = []
        # The capacity of each full table that refused a packet.
        self.full: list[int] = []
        self.expected: list[dict] = scenario.get("expect", [])
        # Whether stations contend that say nothing of it, those of rows, and any station.
        contend = self.air is not None and self.air.get("contention", False)
        self.rows_contend = self.air is not None and self.making.get("contention", contend)
        for station, keys in zip(self.stations, scenario.get("station", [])):
            station.contends = self.air is not None and keys.get("contention", contend)
        self.has_contention = any(station.contends for station in self.stations)
        self.has_contention |= moves is not None and self.rows_contend

    def run(self) -> Iterator[Step]:
        """The events of the run, each with its entry, and its notes, done as they are asked for."""
        if self.air is None:
            return self.run_events()
        return AirRun(self, self.air).run()

    def run_events(self) -> Iterator[Step]:
        """A run of the events of the scenario alone."""
        for number, event in enumerate(self.events):
            entry = self.do(event)
            self.note_refusal(number, event, entry)
            yield Done(event, entry)

    def note_refusal(self, number: int, event: dict, entry: Entry) -> None:
        """An event of the scenario, of this number there, was done."""
        if event["do"] in ("shb", "gbc", "gac") and entry.word.startswith("refused"):
            self.failed.append(f"event {number}: {entry.word} at {event['at']} ms")

    def do(self, event: dict) -> Entry:
        if event["station"] >= len(self.stations):
            return Entry("refused M4")
        if event["do"] == "deliver" and event["frame"] >= len(self.frames):
            return Entry("refused M3")
        try:
            entry = self.stations[event["station"]].call(event["at"], event, self.frames)
        except Refused as refusal:
            if str(refusal) == "S4":
                self.full.append(self.stations[event["station"]].table.capacity)
            return Entry(f"refused {refusal}")
        if entry.frame is not None:
            self.frames.append(entry.frame)
        return entry

    def next_row(self) -> Row | None:
        """The next row of the file of moves; there has to be room for the station of a new id."""
        row = None if self.moves is None else self.moves.next()
        if row is not None and row.id not in self.known:
            mid, mids = self.next_mid(), [station.vector.mid for station in self.stations]
            if mid >> 40 & 1 or mid in mids or len(self.stations) >= 65535:
                raise BadRow(row.line, "too many stations")
        return row

    def next_mid(self) -> int:
        return int(self.making.get("mid", "020100000001"), 16) + len(self.known)

    def make(self, row: Row) -> None:
        """A new station, for a new id."""
        vector = Vector(
            0x1400 << 48 | self.next_mid(), 0, Place(row.keys["lat"], row.keys["lon"]), pai=False
        )
        table = Table(self.making.get("capacity", 1024), self.making.get("remember", 8))
        self.known[row.id] = len(self.stations)
        self.stations.append(Station(vector, table, contends=self.rows_contend))


# What comes first of one moment: rows, leaves, the scenario's events, then the air's own, and last
# the frames that are released.
ROWS, LEAVES, EVENTS, OWNS, RELEASES = range(5)


class AirRun:
    """A run in which each frame is delivered to those who hear it."""

    def __init__(self, world: World, air: dict):
        self.world, self.air = world, air
        self.draws = Xoshiro256PlusPlus(air.get("seed", 0))
        # Events by their moments, those of one moment in the order in which they were put. Beside an
        # event stands "tick" for a tick of the air's own, and for a send the number of its traffic.
        self.waiting: list[tuple[int, int, dict, str | int | None]] = []
        self.order = itertools.count()
        self.greatest = max((event["at"] for event in world.events), default=0)
        self.of_file = len(world.events)
        keys = ("contention_max", "contention_min", "contention_range", "contention_copies")
        usual = Rule()
        self.rule = Rule(*(air.get(key, number) for key, number in zip(keys, usual)))
        # In the order in which they were held.
        self.held: list[Held] = []

    def put(self, event: dict, own: str | int | None = None) -> None:
        heapq.heappush(self.waiting, (event["at"], next(self.order), event, own))

    def waits(self, station: int, own: str | int) -> bool:
        return any(w[3] == own and w[2]["station"] == station for w in self.waiting)

    def put_tick(self, station: int, earliest: int, due: int) -> None:
        jitter = self.draws.draw(MOST_JITTER + 1)
        moment = max(earliest, due + jitter)
        self.put({"station": station, "at": moment, "do": "tick", "jitter": jitter}, "tick")

    def put_send(self, station: int, moment: int, number: int) -> None:
        keys = self.world.every[number]
        message = {"port": keys["port"], "info": keys["info"], "tc": keys["tc"]}
        payload = "00" * keys["octets"]
        send = {"station": station, "at": moment, "do": "shb", "payload": payload, **message}
        self.put(send, number)

    def put_first(self) -> None:
        """What waits before anything is run."""
        world = self.world
        for event in world.events:
            self.put(event)
        if self.air.get("beacons", False):
            for station in sorted(world.present):
                self.put_tick(station, 0, world.stations[station].beacon_from)
        for number, keys in enumerate(world.every):
            for station in sorted(world.present):
                self.put_send(station, self.draws.draw(keys["period"]), number)

    def until(self, row: Row | None) -> float:
        """The last moment that is run, as far as it is known while this row waits."""
        if "until" in self.air:
            return self.air["until"]
        return inf if row is not None else self.greatest + 10000

    def undelivered(self) -> list[int]:
        """The frames whose deliveries still wait at `until`, a frame for each delivery. Without
        `until` a run with moves says nothing of them."""
        if "until" not in self.air and self.world.moves is not None:
            return []
        own = (event for _, place, event, _ in self.waiting if place >= self.of_file)
        return [event["frame"] for event in own if event["do"] == "deliver"]

    def next_leave(self) -> tuple[int, int] | None:
        """The moment and the station of the first leave that is due."""
        world, gone = self.world, self.world.making.get("gone", 1000)
        due = [(world.last[i] + gone, s) for i, s in world.known.items() if s in world.present]
        return min(due, default=None)

    def run(self) -> Iterator[Step]:
        """The run, and then which events of the scenario it didn't come to."""
        try:
            yield from self.run_all()
        except BadRow:
            self.note_late("the run was cut short")
            raise
        self.note_late("")

    def note_late(self, cut: str) -> None:
        """Those of the events that wait now, in the order of their moments."""
        for at, number, _, _ in sorted(w for w in self.waiting if w[1] < self.of_file):
            if at > self.air.get("until", inf):
                late = f"{at} ms is after the run, which ends at {self.air['until']} ms"
                self.world.failed.append(f"event {number}: {late}")
            elif cut:
                self.world.failed.append(f"event {number}: not run at {at} ms: {cut}")

    def run_all(self) -> Iterator[Step]:
        self.put_first()
        row = self.world.next_row()
        while True:
            leave, first = self.next_leave(), self.waiting[0] if self.waiting else None
            moments = []
            if row is not None:
                moments.append((row.at, ROWS))
            if leave is not None:
                moments.append((leave[0], LEAVES))
            if first is not None:
                moments.append((first[0], EVENTS if first[1] < self.of_file else OWNS))
            held = min(self.held, key=lambda held: held.due, default=None)
            if held is not None and held.due <= LAST_MOMENT:
                moments.append((held.due, RELEASES))
            if not moments or min(moments)[0] > self.until(row):
                self.world.undelivered = self.undelivered()
                return
            now, kind = min(moments)
            if kind == ROWS:
                yield from self.run_row(row)
                row = self.world.next_row()
            elif kind == LEAVES:
                yield from self.leave(now, leave[1])
            elif kind == RELEASES:
                self.held.remove(held)
                yield Note(now, held.station, f"released {held.number}")
                yield from self.spread(held.station, now, held.number)
            else:
                _, order, event, own = heapq.heappop(self.waiting)
                yield from self.run_event(now, event, own, order)

    def run_row(self, row: Row) -> Iterator[Step]:
        world, is_new = self.world, row.id not in self.world.known
        if is_new:
            world.make(row)
            yield Hidden(row.at, world.known[row.id], made=row.id)
        station = world.known[row.id]
        world.last[row.id] = row.at
        self.greatest = max(self.greatest, row.at)
        move = {**row.keys, "at": row.at, "station": station, "do": "move", "pai": True}
        yield from self.do(move)
        for port in world.making.get("ports", []) if is_new else []:
            yield from self.do({"at": row.at, "station": station, "do": "open", "port": port})
        if station not in world.present:
            yield from self.come(station, row.at)

    def run_event(
        self, now: int, event: dict, own: str | int | None, order: int
    ) -> Iterator[Step]:
        """An event of the scenario, whose number there is its order, or of the air's own."""
        world = self.world
        if world.moves is not None and "id" in event:
            station = world.known.get(event["id"])
            if station not in world.present:
                world.failed.append(f"event {order}: no vehicle '{event['id']}' at {now} ms")
                yield Note(now, "-", f"absent {event['id']}")
                return
            event = {**event, "station": station}
        station, is_present = event["station"], event["station"] in world.present
        if event["do"] == "leave":
            yield from self.leave(now, station)
            return
        if own is not None and not is_present:
            return
        refused = yield from self.do(event, order)
        if own == "tick" and not refused:
            self.put_tick(station, now, world.stations[station].beacon_from)
        if isinstance(own, int):
            self.put_send(station, now + world.every[own]["period"], own)
        if event["do"] == "move" and not refused and not is_present:
            yield from self.come(station, now)

    def do(self, event: dict, order: int | None = None) -> Iterator[Step]:
        """An event of the world, and who hears its frame. Returns whether it was refused. An event
        of the scenario has its number there as its order."""
        world, station, now = self.world, event["station"], event["at"]
        entry = world.do(event)
        dropped = self.contend(event, entry)
        if order is not None and order < self.of_file:
            world.note_refusal(order, event, entry)
        yield Done(event, entry)
        for number in dropped:
            yield Note(now, station, f"dropped {number}")
        if entry.frame is not None and entry.until is None:
            yield from self.spread(station, now, len(world.frames) - 1)
        return entry.word.startswith("refused")

    def spread(self, station: int, now: int, frame: int) -> Iterator[Step]:
        """Who hears a frame that goes out of a station. Of one that is absent nobody does."""
        if station not in self.world.present:
            return
        at = now + self.air.get("delay", 1)
        for hearer in self.hearers(station, self.air["range"]):
            if self.draws.draw(100) < self.air.get("loss", 0):
                yield Note(now, hearer, f"lost {frame}")
            else:
                yield Hidden(now, hearer, heard=frame)
                self.put({"station": hearer, "at": at, "do": "deliver", "frame": frame})

    def contend(self, event: dict, entry: Entry) -> list[int]:
        """What a station holds after an event. Returns the numbers of the frames that it drops."""
        world, number = self.world, event["station"]
        if entry.word.startswith("refused"):
            return []
        station, own = world.stations[number], [h for h in self.held if h.station == number]
        if entry.word == "restarted":
            self.held = [held for held in self.held if held.station != number]
            return [held.number for held in own]
        if event["do"] != "deliver":
            return []
        heard = world.frames[event["frame"]]
        if entry.word == "ignored duplicate":
            for held in own:
                if heard.is_copy_of(held.frame, station.vector.mid):
                    held.senders.add(heard.sender)
            entry.cancels = [h.number for h in own if len(h.senders) >= self.rule.copies]
            self.held = [held for held in self.held if held.number not in entry.cancels]
        elif entry.frame is not None and len(own) < MOST_HELD:
            entry.until = station.due(self.rule, event["at"], heard)
            if entry.until is not None:
                last = len(world.frames) - 1
                self.held.append(Held(number, last, entry.frame, entry.until))
        return []

    def come(self, station: int, now: int) -> Iterator[Note]:
        """A station is present from now on: its first tick and sends, where none waits."""
        self.world.present.add(station)
        yield Note(now, station, "came")
        if self.air.get("beacons", False) and not self.waits(station, "tick"):
            self.put_tick(station, now, now)
        for number, keys in enumerate(self.world.every):
            if not self.waits(station, number):
                self.put_send(station, now + self.draws.draw(keys["period"]), number)

    def leave(self, now: int, station: int) -> Iterator[Note]:
        """A station is absent from now on."""
        if station in self.world.present:
            self.world.present.remove(station)
            yield Note(now, station, "left")

    def hearers(self, giver: int, metres: int) -> list[int]:
        """The other stations that are present and at most so far from the giver of a frame."""
        places = [station.vector.place for station in self.world.stations]
        near = [squared_distance(places[giver], p) <= (100 * metres) ** 2 for p in places]
        return [number for number in sorted(self.world.present) if near[number] and number != giver]


@dataclass
class Send:
    """A geobroadcast or geoanycast that was sent, and its outcome."""

    head: str
    moment: int
    audience: list[int]
    frames: int = 0
    hops: int = 0
    first: dict[int, int] = field(default_factory=dict)  # the moment of a station's first handing

    def line(self) -> str:
        last = max([self.moment, *self.first.values()]) - self.moment
        reached = f"{self.head} inside {len(self.audience)} delivered {len(self.first)}"
        return f"{reached} frames {self.frames} hops {self.hops} last {last}"

    def reached(self, within: float) -> int:
        """How many of those that it is for it reached in so many milliseconds."""
        took = [self.first[n] - self.moment for n in self.audience if n in self.first]
        return sum(time <= within for time in took)


def audience(world: World, sender: int, port: int, area: Area) -> list[int]:
    """The other stations that are present and in an area, with a port open."""
    others = [(n, world.stations[n]) for n in sorted(world.present) if n != sender]
    return [n for n, s in others if port in s.ports and area.holds(s.vector.place)]


def watched(world: World, sends: list[Send]) -> Iterator[Step]:
    """The run, with what comes of each packet for an area."""
    # For each frame the send that it is of, None for a beacon or an shb, and its hops so far.
    origins: list[tuple[Send | None, int]] = []
    number = 0
    for step in world.run():
        yield step
        if isinstance(step, Note) and step.words.startswith("released "):
            send, _ = origins[int(step.words.split()[1])]
            send.frames += 1
        if not isinstance(step, Done):
            continue
        event, entry = step
        word, gave = entry.word.split()[0], entry.frame is not None
        send, hops = None, 0
        if word == "accepted":
            send, hops = origins[event["frame"]]
        elif word == "sent" and event["do"] in ("gbc", "gac"):
            at, station, do, port = (event[key] for key in ("at", "station", "do", "port"))
            area = read_area(event, world.stations[station].vector.place)
            head = f"send {number} {at} {station} {do} port {port}"
            send = Send(head, at, audience(world, station, port, area))
            sends.append(send)
        if gave:
            origins.append((send, hops + 1))
        if send is not None:
            send.frames += gave and entry.until is None
            if entry.handed is not None:
                send.hops = max(send.hops, hops)
                send.first.setdefault(event["station"], event["at"])
        number += 1


def lines(run: Iterator[Step], world: World, notes: bool) -> Iterator[str]:
    number = 0
    for step in run:
        if isinstance(step, Hidden):
            continue
        if isinstance(step, Note):
            if notes:
                yield f"- {step.moment} {step.station} {step.words}"
            continue
        event, entry = step
        words = [number, event["at"], event["station"]]
        number += 1
        if world.air is not None:
            words += ["deliver", event["frame"]] if event["do"] == "deliver" else [event["do"]]
        words.append(entry.word)
        if entry.handed is not None:
            port, info, payload = entry.handed
            words += ["port", port, "info", info, payload.hex() or "-"]
        if entry.frame is not None:
            sent = len(world.frames) - 1
            held = ["waits", sent, "until", entry.until]
            words += [sent] if entry.word == "sent" else ["sent", sent]
            words = words if entry.until is None else words[:-2] + held
        if entry.cancels:
            words += ["cancels", ",".join(map(str, entry.cancels))]
        yield " ".join(str(word) for word in words)


def summary(run: Iterator[Step], world: World, sends: list[Send]) -> Iterator[str]:
    total: Counter[str] = Counter()
    bad = None
    try:
        for step in run:
            if isinstance(step, Done):
                entry = step.entry
                gave, handed = entry.frame is not None, entry.handed is not None
                is_duplicate = entry.word == "ignored duplicate"
                word = "duplicates" if is_duplicate else entry.word.split()[0]
                total.update({"events": 1, "deliveries": handed, word: 1})
                total["frames"] += gave and entry.until is None
                total["held"] += entry.until is not None
                total["cancelled"] += len(entry.cancels)
            elif isinstance(step, Note):
                total["frames"] += step.words.startswith("released ")
    except BadRow as row:
        bad = row
    yield from (send.line() for send in sends)
    if bad is not None:
        raise bad
    names = ["events", "frames", "deliveries", "duplicates", "ignored", "refused"]
    names += ["held", "cancelled"] if world.has_contention else []
    counts = " ".join(f"{name} {total[name]}" for name in names)
    full = f" full {len(world.full)}" if world.air is not None and world.full else ""
    yield f"total {counts}{full}"


def unmet(world: World, sends: list[Send]) -> Iterator[str]:
    """What is said of each expectation that isn't met."""
    for number, keys in enumerate(world.expected):
        if keys["send"] >= len(sends):
            yield f"expect {number}: no such send"
            continue
        send = sends[keys["send"]]
        size, reached = len(send.audience), send.reached(keys.get("within", inf))
        if reached < (size if keys["reached"] == "all" else keys["reached"]):
            yield f"expect {number}: reached {reached} of {size}"


def messages(world: World) -> Iterator[str]:
    """What is said at the end of a run of full tables and of the first 20 events that weren't run
    or sent."""
    if world.air is not None and world.full:
        least = f"raise capacity (least {min(world.full)})"
        yield f"{len(world.full)} receptions met a full location table: {least}"
    yield from world.failed[:20]
    if len(world.failed) > 20:
        yield f"{len(world.failed) - 20} more events were not run or refused to send"


def show(world: World, options: list[str]) -> int:
    """Prints a run and what is said of it. Returns the status."""
    sends: list[Send] = []
    run = watched(world, sends)
    if "--summary" in options:
        printed = summary(run, world, sends)
    else:
        printed = lines(run, world, "--notes" in options)
    ended = []
    try:
        for text in printed:
            print(text)
        ended.extend(unmet(world, sends))
    except BadRow as row:
        ended.append(str(row))
    for text in (*messages(world), *ended):
        print(f"geostation: {text}", file=sys.stderr)
    return 1 if ended else 0


def main(arguments: list[str]) -> int:
    moves = None
    if "--moves" in arguments:
        place = arguments.index("--moves")
        with open(arguments[place + 1], "rb") as file:
            moves = file.read()
        del arguments[place : place + 2]
    *options, name = arguments
    with open(name, "rb") as file:
        scenario = tomllib.load(file)
    try:
        return show(World(scenario, moves), options)
    except BadRow as row:
        print(f"geostation: {row}", file=sys.stderr)
        return 1


if __name__ == "__main__":
    sys.exit(main(sys.argv[1:]))
