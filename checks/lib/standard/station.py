"""A station: its location table, duplicate packet lists, beacons, and what it sends, delivers and
forwards (EN 302 636-4-1 clauses 8 and 10, Annexes A, C, D, E.2 and F.2).

An item such as FUN-14 is a row of docs/PROFILE.md, of a station without limits. Each method is one
rule, so that a mistake can be planted in it.
"""

from __future__ import annotations

from dataclasses import dataclass, field, replace
from typing import NamedTuple

from .areas import Area, distance, is_close
from .packets import BROADCAST, LINK, Packet, Rejected, Vector, encode, mid, read

ENTRY_LIFE = 20_000  # ms, itsGnLifetimeLocTE, MIB-8
BEACON_INTERVAL, BEACON_JITTER = 3_000, 750  # ms, MIB-11, MIB-12
NUMBERS = 1 << 16  # FUN-12
HALF_OF_STAMPS = 1 << 31  # C.2
HOPS_AT = LINK + 3  # of RHL in a frame
OPEN_PORTS = 64  # CAP-4


@dataclass
class Entry:
    """A location table entry (8.1)."""

    vector: Vector
    heard: int  # when the last accepted packet of the source was received
    neighbour: bool = False
    numbers: list[int] = field(default_factory=list)  # the duplicate packet list, newest last


class Outcome(NamedTuple):
    """What a received frame causes. `why` is empty if it was accepted."""

    verdict: str  # accepted, ignored or rejected
    why: str = ""
    delivered: tuple[int, int, bytes] | None = None  # port, info, payload
    forwarded: bytes | None = None


class Station:
    def __init__(
        self,
        address: int,
        place: tuple[int, int],
        *,
        mobile: bool = True,
        capacity: int = 64,
        remember: int = 8,
    ):
        self.address, self.mobile = address, mobile
        self.capacity, self.remember = capacity, remember
        self.vector = Vector(address, 0, *place, accurate=False)
        self.number = 0  # FUN-12: the next one
        self.table: dict[int, Entry] = {}
        self.ports: set[int] = set()
        self.quiet_from = 0  # the last own packet, and the beacon interval

    # ---- its position and its ports

    def stamp(self, now: int) -> int:
        """TST (9.5.2): milliseconds of TAI since 2004."""
        return now % (1 << 32)

    def move(self, now: int, vector: Vector) -> None:
        """The vector gets its time stamp here."""
        self.vector = replace(vector, timestamp=self.stamp(now))

    def restart(self, now: int, number: int) -> None:
        """The initial state, with this number for the next packet. A beacon is due."""
        self.table.clear()
        self.ports.clear()
        self.number, self.quiet_from = number, now

    def open_port(self, port: int) -> None:
        self.ports.add(port)

    def close_port(self, port: int) -> None:
        self.ports.remove(port)

    # ---- what it knows of others (8.1, Annexes A and C)

    def life(self) -> int:
        return ENTRY_LIFE

    def live(self, now: int) -> dict[int, Entry]:
        return {a: e for a, e in self.table.items() if now - e.heard < self.life()}

    def entry(self, now: int, address: int) -> Entry | None:
        found = self.table.get(address)
        return found if found is not None and now - found.heard < self.life() else None

    def is_newer(self, stamp: int, other: int) -> bool:
        """C.2, FUN-10."""
        return 0 < (stamp - other) % (1 << 32) < HALF_OF_STAMPS

    def makes_neighbour(self, packet: Packet) -> bool:
        """FUN-8."""
        return packet.kind in ("beacon", "shb")

    def is_duplicate(self, now: int, packet: Packet) -> bool:
        """Annex A, FUN-13."""
        entry = self.entry(now, packet.source.address)
        return entry is not None and packet.number is not None and packet.number in entry.numbers

    def has_no_room(self, now: int, packet: Packet) -> bool:
        """FUN-11."""
        live = self.live(now)
        return packet.source.address not in live and len(live) >= self.capacity

    def learn(self, now: int, packet: Packet) -> None:
        address = packet.source.address
        entry = self.entry(now, address)
        if entry is None:
            entry = self.table[address] = Entry(packet.source, now)
        elif self.is_newer(packet.source.timestamp, entry.vector.timestamp):
            entry.vector = packet.source
        entry.heard = now
        entry.neighbour |= self.makes_neighbour(packet)
        if packet.number is not None:
            entry.numbers = [*entry.numbers, packet.number][-self.remember :]

    # ---- to whom a packet for an area goes (Annexes D, E.2 and F.2)

    def is_inside(self, area: Area) -> bool:
        return area.holds(self.vector.place)

    def is_sender_inside(self, now: int, area: Area, sender: bytes) -> bool:
        """Annex D, FUN-15: the sender of the frame is known to be inside."""
        known = [e.vector for a, e in self.live(now).items() if mid(a) == sender]
        return any(self.is_surely_in(area, vector) for vector in known)

    def is_surely_in(self, area: Area, vector: Vector) -> bool:
        return vector.accurate and area.holds(vector.place)

    def candidates(self, now: int) -> list[Vector]:
        """The position vectors of its neighbours, in the order of their addresses."""
        found = [e.vector for e in self.live(now).values() if e.neighbour]
        return sorted(found, key=lambda vector: vector.address)

    def progress(self, area: Area, vector: Vector) -> float:
        """The smaller, the better is the next hop: how far it is from the area's centre."""
        return distance(area.centre, vector.place)

    def next_hop(self, now: int, area: Area) -> bytes:
        """E.2, FUN-16."""
        own = distance(area.centre, self.vector.place)
        order = [
            (self.progress(area, vector), vector.address)
            for vector in self.candidates(now)
            if distance(area.centre, vector.place) < own
        ]
        return mid(min(order)[1]) if order else BROADCAST

    def target(self, now: int, area: Area) -> bytes:
        return BROADCAST if self.is_inside(area) else self.next_hop(now, area)

    # ---- a received frame (10.3.3 to 10.3.12)

    def reason_to_ignore(self, now: int, frame: bytes, packet: Packet) -> str:
        """FUN-14 has the order."""
        if frame[:6] not in (mid(self.address), BROADCAST):
            return "CAP-2, FUN-14: for another link address"
        if packet.source.address == self.address:
            return "FUN-2: its own packet"
        if packet.number is None and frame[6:12] != mid(packet.source.address):
            return "FUN-7: from another link address"
        return "FUN-13: a duplicate" if self.is_duplicate(now, packet) else ""

    def delivery(self, packet: Packet) -> tuple[int, int, bytes] | None:
        """The payload, if its port is open and the area holds the station."""
        if packet.port not in self.ports:
            return None
        if packet.area is not None and not self.is_inside(packet.area):
            return None
        return packet.port, packet.info, packet.payload

    def hops_after(self, packet: Packet) -> int:
        """FUN-19."""
        return packet.hops - 1

    def ends_inside(self, packet: Packet) -> bool:
        """10.3.12.3: a GAC is not forwarded inside its area."""
        return packet.kind == "gac"

    def forwarding(self, now: int, frame: bytes, packet: Packet) -> bytes | None:
        """The frame that is forwarded (10.3.11.3, 10.3.12.3)."""
        hops = self.hops_after(packet)
        if packet.area is None or hops == 0:
            return None
        if self.is_inside(packet.area):
            if self.ends_inside(packet):
                return None
        elif self.is_sender_inside(now, packet.area, frame[6:12]):
            return None
        return self.copy(frame, hops, self.target(now, packet.area))

    def copy(self, frame: bytes, hops: int, target: bytes) -> bytes:
        """The frame with other link addresses and another RHL."""
        whole = target + mid(self.address) + frame[12:]
        return whole[:HOPS_AT] + bytes([hops]) + whole[HOPS_AT + 1 :]

    def receive(self, now: int, frame: bytes) -> Outcome:
        try:
            packet = read(frame)
        except Rejected as reason:
            return Outcome("rejected", str(reason))
        why = self.reason_to_ignore(now, frame, packet)
        if why:
            return Outcome("ignored", why)
        if self.has_no_room(now, packet):
            return Outcome("rejected", "FUN-11: the location table is full")
        self.learn(now, packet)
        delivered = self.delivery(packet)
        return Outcome("accepted", "", delivered, self.forwarding(now, frame, packet))

    # ---- what it sends (10.3.6.2, 10.3.10.2, 10.3.11.2, 10.3.12.2)

    def sent(self, now: int, packet: Packet, target: bytes = BROADCAST) -> bytes:
        """FUN-6: each own packet delays the beacon."""
        self.quiet_from = now + BEACON_INTERVAL
        return encode(replace(packet, mobile=self.mobile), mid(self.address), target)

    def after(self, number: int) -> int:
        return (number + 1) % NUMBERS

    def send_shb(self, now: int, packet: Packet) -> bytes:
        return self.sent(now, replace(packet, kind="shb", source=self.vector))

    def send_to_area(self, now: int, packet: Packet) -> bytes:
        """A GBC or GAC. The packet has what is requested: kind, hops, lifetime, traffic class, area
        and payload."""
        full = replace(packet, source=self.vector, number=self.number, max_hops=packet.hops)
        self.number = self.after(self.number)
        return self.sent(now, full, self.target(now, packet.area))

    def beacon_wait(self) -> int:
        return 0

    def beacon(self) -> Packet:
        return Packet("beacon", self.vector)

    def tick(self, now: int, jitter: int) -> bytes | None:
        """The beacon, if one is due."""
        if now < self.quiet_from + self.beacon_wait() + jitter:
            return None
        return self.sent(now, self.beacon())

    # ---- where another arithmetic may decide otherwise

    def is_unsure(self, now: int, area: Area, frame: bytes, packet: Packet) -> bool:
        """Whether a decision on this area rests on a place near a border, on distances that are
        almost equal, or on an entry whose life ends just now."""
        if any(now - e.heard == ENTRY_LIFE for e in self.table.values()):
            return True
        if area.is_unsure(self.vector.place):
            return True
        vectors = self.vectors_after(now, packet)
        near = [v for v, _ in vectors if mid(v.address) == frame[6:12]]
        if any(area.is_unsure(v.place) for v in near):
            return True
        return self.is_unsure_of_next_hop(area, [v for v, neighbour in vectors if neighbour])

    def vectors_after(self, now: int, packet: Packet) -> list[tuple[Vector, bool]]:
        """What is known once a packet for an area is accepted, and whether of a neighbour."""
        found = {a: (e.vector, e.neighbour) for a, e in self.live(now).items()}
        source = packet.source
        if source.address not in found:
            found[source.address] = (source, False)
        elif self.is_newer(source.timestamp, found[source.address][0].timestamp):
            found[source.address] = (source, found[source.address][1])
        return list(found.values())

    def is_unsure_of_next_hop(self, area: Area, vectors: list[Vector]) -> bool:
        if area.holds(self.vector.place):
            return False
        own = distance(area.centre, self.vector.place)
        if any(is_close(distance(area.centre, v.place), own) for v in vectors):
            return True
        near = sorted({v.place for v in vectors}, key=lambda p: distance(area.centre, p))
        return len(near) > 1 and is_close(*(distance(area.centre, p) for p in near[:2]))
