"""Stations with one mistake each, by its name in `FAULTS`. A check that compares stations has to
see each of them."""

from __future__ import annotations

from dataclasses import replace

from . import areas
from .areas import Area, distance
from .packets import BROADCAST, Packet, Rejected, Vector, read
from .station import ENTRY_LIFE, Entry, Outcome, Station

LIFETIME_AT, CLASS_AT, PV_AT, PAYLOAD_AT = 16, 20, 30, 74  # octets of a frame for an area
FAULTS: dict[str, type[Station]] = {}


def fault(station: type[Station]) -> type[Station]:
    """The docstring of the class says what is wrong."""
    FAULTS[(station.__doc__ or "").rstrip(".")] = station
    return station


# ---- octets of forwarded frames


@fault
class HopsKept(Station):
    """hops not decremented."""

    def hops_after(self, packet: Packet) -> int:
        return packet.hops


@fault
class TwoHops(Station):
    """two hops at once."""

    def hops_after(self, packet: Packet) -> int:
        return max(packet.hops - 2, 0)


@fault
class LastHopForwarded(Station):
    """the last hop is forwarded with RHL 0."""

    def forwarding(self, now: int, frame: bytes, packet: Packet) -> bytes | None:
        if packet.hops > 1:
            return super().forwarding(now, frame, packet)
        found = super().forwarding(now, frame, replace(packet, hops=2))
        return found and self.copy(found, 0, found[:6])


class Changed(Station):
    """Forwards with other octets at a place."""

    at = LIFETIME_AT

    def changed(self, octets: int) -> int:
        return octets

    def copy(self, frame: bytes, hops: int, target: bytes) -> bytes:
        whole = super().copy(frame, hops, target)
        return whole[: self.at] + bytes([self.changed(whole[self.at])]) + whole[self.at + 1 :]


@fault
class LifetimeLowered(Changed):
    """the lifetime of a forwarded packet is lowered."""

    def changed(self, octet: int) -> int:
        return octet - 4 if octet >= 4 else octet


@fault
class ClassCleared(Changed):
    """the traffic class of a forwarded packet is cleared."""

    at = CLASS_AT

    def changed(self, octet: int) -> int:
        return 0


@fault
class SourceReplaced(Station):
    """its own position vector in forwarded packets."""

    def copy(self, frame: bytes, hops: int, target: bytes) -> bytes:
        whole = super().copy(frame, hops, target)
        return whole[:PV_AT] + self.vector.encode() + whole[PV_AT + 24 :]


@fault
class SenderKept(Station):
    """the link address of the last sender in forwarded frames."""

    def copy(self, frame: bytes, hops: int, target: bytes) -> bytes:
        whole = super().copy(frame, hops, target)
        return whole[:6] + frame[6:12] + whole[12:]


# ---- duplicates


@fault
class EachCopy(Station):
    """each copy is forwarded."""

    def is_duplicate(self, now: int, packet: Packet) -> bool:
        return False


@fault
class ShortList(Station):
    """a duplicate packet list with one number less."""

    def learn(self, now: int, packet: Packet) -> None:
        super().learn(now, packet)
        entry = self.table[packet.source.address]
        entry.numbers = entry.numbers[-(self.remember - 1) :]


@fault
class LongList(Station):
    """a duplicate packet list with one number more."""

    def learn(self, now: int, packet: Packet) -> None:
        self.remember += 1
        super().learn(now, packet)
        self.remember -= 1


@fault
class OneList(Station):
    """one duplicate packet list for all sources."""

    def is_duplicate(self, now: int, packet: Packet) -> bool:
        return any(packet.number in e.numbers for e in self.live(now).values())


@fault
class DuplicateRefreshes(Station):
    """a duplicate prolongs the life of its source's entry."""

    def reason_to_ignore(self, now: int, frame: bytes, packet: Packet) -> str:
        why = super().reason_to_ignore(now, frame, packet)
        if why.startswith("FUN-13"):
            self.table[packet.source.address].heard = now
        return why


# ---- kinds


@fault
class ShbForwarded(Station):
    """an SHB is forwarded."""

    def forwarding(self, now: int, frame: bytes, packet: Packet) -> bytes | None:
        if packet.kind == "shb":
            return self.copy(frame, packet.hops, BROADCAST)
        return super().forwarding(now, frame, packet)


@fault
class GacForwarded(Station):
    """a GAC is forwarded inside its area."""

    def ends_inside(self, packet: Packet) -> bool:
        return False


@fault
class GbcKept(Station):
    """a GBC is not forwarded inside its area."""

    def ends_inside(self, packet: Packet) -> bool:
        return True


@fault
class OwnForwarded(Station):
    """its own packets are forwarded."""

    def reason_to_ignore(self, now: int, frame: bytes, packet: Packet) -> str:
        why = super().reason_to_ignore(now, frame, packet)
        return "" if why.startswith("FUN-2:") else why


@fault
class OthersTaken(Station):
    """frames for other link addresses are processed."""

    def reason_to_ignore(self, now: int, frame: bytes, packet: Packet) -> str:
        return super().reason_to_ignore(now, BROADCAST + frame[6:], packet)


# ---- where a packet goes


@fault
class UnicastInside(Station):
    """the next hop is used inside the area."""

    def target(self, now: int, area: Area) -> bytes:
        return self.next_hop(now, area)


@fault
class NearestToItself(Station):
    """the next hop is the neighbour nearest to itself."""

    def progress(self, area: Area, vector: Vector) -> float:
        return distance(self.vector.place, vector.place)


@fault
class Farthest(Station):
    """the next hop is the one with the least progress."""

    def progress(self, area: Area, vector: Vector) -> float:
        return -super().progress(area, vector)


@fault
class AlwaysBroadcast(Station):
    """a next hop is never used."""

    def next_hop(self, now: int, area: Area) -> bytes:
        return BROADCAST


@fault
class GbcNeighbours(Station):
    """a GBC makes its source a neighbour."""

    def makes_neighbour(self, packet: Packet) -> bool:
        return True


@fault
class SenderIgnored(Station):
    """a sender inside the area does not matter."""

    def is_sender_inside(self, now: int, area: Area, sender: bytes) -> bool:
        return False


@fault
class InaccurateSender(Station):
    """a sender without PAI counts as inside."""

    def is_surely_in(self, area: Area, vector: Vector) -> bool:
        return area.holds(vector.place)


class OtherArea(Station):
    """Reads areas in another way."""

    def other(self, area: Area) -> Area:
        return area

    def is_inside(self, area: Area) -> bool:
        return super().is_inside(self.other(area))


@fault
class AxesSwapped(OtherArea):
    """the half lengths of an area are exchanged."""

    def other(self, area: Area) -> Area:
        return area if area.shape == "circle" else replace(area, a=area.b, b=area.a)


@fault
class OtherTurn(OtherArea):
    """the angle of an area counts counter-clockwise."""

    def other(self, area: Area) -> Area:
        return replace(area, angle=-area.angle % 360)


@fault
class FromEast(OtherArea):
    """the angle of an area counts from east."""

    def other(self, area: Area) -> Area:
        return area if area.shape == "circle" else replace(area, angle=area.angle + 90)


@fault
class EllipseAsRectangle(OtherArea):
    """an ellipse is taken for a rectangle."""

    def other(self, area: Area) -> Area:
        return replace(area, shape="rectangle") if area.shape == "ellipse" else area


@fault
class NoScale(OtherArea):
    """degrees of longitude are as long as those of latitude."""

    def is_inside(self, area: Area) -> bool:
        north, east = areas.offset((0, 0), self.vector.place)
        up, right = areas.offset((0, 0), area.centre)
        return area.holds_offset(north - up, east - right)


# ---- the location table


@fault
class LongLife(Station):
    """an entry lives for twice as long."""

    def life(self) -> int:
        return 2 * ENTRY_LIFE


@fault
class ShortLife(Station):
    """an entry lives for 1 s less."""

    def life(self) -> int:
        return ENTRY_LIFE - 1_000


@fault
class OlderReplaces(Station):
    """an older position vector replaces a newer one."""

    def is_newer(self, stamp: int, other: int) -> bool:
        return True


@fault
class NoWrap(Station):
    """time stamps are compared without the wrap."""

    def is_newer(self, stamp: int, other: int) -> bool:
        return stamp > other


@fault
class NeverFull(Station):
    """the location table is never full."""

    def has_no_room(self, now: int, packet: Packet) -> bool:
        return False


@fault
class AnySender(Station):
    """a BEACON or SHB is taken from any link address."""

    def reason_to_ignore(self, now: int, frame: bytes, packet: Packet) -> str:
        why = super().reason_to_ignore(now, frame, packet)
        return "" if why.startswith("FUN-7:") else why


# ---- own packets


@fault
class TwoNumbers(Station):
    """sequence numbers in steps of 2."""

    def after(self, number: int) -> int:
        return (number + 2) % (1 << 16)


@fault
class OneNumber(Station):
    """the same sequence number for all packets."""

    def after(self, number: int) -> int:
        return number


@fault
class OtherBase(Station):
    """the lifetime of a beacon is 60 times 50 ms."""

    def beacon(self) -> Packet:
        return replace(super().beacon(), lifetime=60 << 2)


@fault
class BeaconOfTen(Station):
    """a beacon with 10 hops."""

    def beacon(self) -> Packet:
        return replace(super().beacon(), hops=10, max_hops=10)


@fault
class EarlyBeacon(Station):
    """a beacon after 2.5 s."""

    def beacon_wait(self) -> int:
        return -500


@fault
class LateBeacon(Station):
    """a beacon after 5 s."""

    def beacon_wait(self) -> int:
        return 2_000


@fault
class StampInSeconds(Station):
    """time stamps in seconds."""

    def stamp(self, now: int) -> int:
        return now // 1_000 % (1 << 32)


@fault
class OtherMobile(Station):
    """the mobile bit of own packets is wrong."""

    def sent(self, now: int, packet: Packet, target: bytes = BROADCAST) -> bytes:
        self.mobile = not self.mobile
        frame = super().sent(now, packet, target)
        self.mobile = not self.mobile
        return frame


# ---- deliveries, and malformed frames


@fault
class DeliveredOutside(Station):
    """a payload is delivered outside of its area."""

    def delivery(self, packet: Packet) -> tuple[int, int, bytes] | None:
        return super().delivery(replace(packet, area=None))


@fault
class ClosedPorts(Station):
    """a payload for a closed port is delivered."""

    def delivery(self, packet: Packet) -> tuple[int, int, bytes] | None:
        kept, self.ports = self.ports, {packet.port}
        found = super().delivery(packet) if packet.port is not None else None
        self.ports = kept
        return found


@fault
class TenthLost(Station):
    """each tenth frame is not forwarded."""

    count = 0

    def copy(self, frame: bytes, hops: int, target: bytes) -> bytes | None:
        self.count += 1
        return None if self.count % 10 == 0 else super().copy(frame, hops, target)


@fault
class Mutilated(Station):
    """the last octet of a payload is lost."""

    def copy(self, frame: bytes, hops: int, target: bytes) -> bytes:
        return super().copy(frame[:-1] if len(frame) > PAYLOAD_AT else frame, hops, target)


@fault
class ReservedBits(Station):
    """a packet with a reserved bit is processed."""

    def receive(self, now: int, frame: bytes) -> Outcome:
        clean = frame[:15] + b"\0" + frame[16:] if len(frame) > 16 else frame
        return super().receive(now, clean)


@fault
class MoreHopsThanAtMost(Station):
    """a packet with more hops left than at most is processed."""

    def receive(self, now: int, frame: bytes) -> Outcome:
        raised = frame
        if len(frame) > 24 and frame[17] > frame[24]:
            raised = frame[:24] + frame[17:18] + frame[25:]
        return super().receive(now, raised)


@fault
class LearnsFromOthers(Station):
    """a frame for another link address makes an entry."""

    def receive(self, now: int, frame: bytes) -> Outcome:
        found = super().receive(now, frame)
        if found.why.startswith("CAP-2"):
            self.note(now, frame)
        return found

    def note(self, now: int, frame: bytes) -> None:
        packet = read(frame)
        if packet.source.address != self.address and self.entry(now, packet.source.address) is None:
            self.table[packet.source.address] = Entry(packet.source, now, True)


@fault
class StopsAfterMalformed(Station):
    """nothing is processed for 10 s after a truncated frame."""

    deaf_until = 0

    def receive(self, now: int, frame: bytes) -> Outcome:
        try:
            read(frame)
        except Rejected as reason:
            if str(reason) == "truncated":
                self.deaf_until = now + 10_000
        if now < self.deaf_until:
            return Outcome("rejected", "deaf")
        return super().receive(now, frame)
