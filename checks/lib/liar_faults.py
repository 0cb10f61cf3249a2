"""The mistakes that the tester has to find, each with the purpose and the duties that find it.

Those of `standard.faults` and some that only a station in real time can make. A duty in `proved` is
failed by `geostation verdict`, one in `checked` by the tester itself.
"""

from __future__ import annotations

from dataclasses import replace
from typing import NamedTuple

import liar_secured as secured
from standard import faults
from standard.areas import Area
from standard.packets import BROADCAST, LINK, Packet, Rejected, read
from standard.station import Outcome, Station

TYPE_AT, LENGTH_AT, RESERVED_AT = LINK + 5, LINK + 9, LINK + 11
BTP_AT = 70  # of a frame for an area


class Found(NamedTuple):
    """`purpose` finds the mistake of `station` by all these duties, and by no other."""

    station: type[Station]
    purpose: str
    proved: tuple[str, ...] = ()
    checked: tuple[str, ...] = ()


class OtherBeacon(Station):
    """Sends beacons with other octets."""

    def other(self, beacon: bytes) -> bytes:
        return beacon

    def tick(self, now: int, jitter: int) -> bytes | None:
        found = super().tick(now, jitter)
        return found and self.other(found)


class BeaconWithPayload(OtherBeacon):
    """a beacon with a payload of 4 octets."""

    def other(self, beacon: bytes) -> bytes:
        return beacon[: LENGTH_AT - 1] + b"\0\x04" + beacon[LENGTH_AT + 1 :] + bytes(4)


class BeaconReserved(OtherBeacon):
    """a beacon with a reserved octet that is not 0."""

    def other(self, beacon: bytes) -> bytes:
        return beacon[:RESERVED_AT] + b"\x01" + beacon[RESERVED_AT + 1 :]


class BeaconToOne(OtherBeacon):
    """a beacon to one link address."""

    def other(self, beacon: bytes) -> bytes:
        return bytes.fromhex("020000000999") + beacon[6:]


class LateRelay(Station):
    """forwards 0.8 s late."""

    delay = 800


class TwoRelays(Station):
    """sends each frame that it forwards twice."""

    copies = 2


class OctetChanged(faults.Changed):
    """an octet of a forwarded payload is changed."""

    at = BTP_AT + 4

    def copy(self, frame: bytes, hops: int, target: bytes) -> bytes:
        if len(frame) > self.at:
            return super().copy(frame, hops, target)
        return Station.copy(self, frame, hops, target)

    def changed(self, octet: int) -> int:
        return octet ^ 1


class LeastAddress(Station):
    """the next hop is the neighbour with the least address."""

    def progress(self, area: Area, vector) -> float:
        return 0


class WideBorder(faults.OtherArea):
    """an area is 2 m larger than it is."""

    def other(self, area: Area) -> Area:
        return replace(area, a=area.a + 2, b=area.b and area.b + 2)


class NarrowBorder(faults.OtherArea):
    """an area is 2 m smaller than it is."""

    def other(self, area: Area) -> Area:
        return replace(area, a=area.a - 2, b=area.b and area.b - 2)


class RelayPutsBeaconOff(Station):
    """a forwarded packet puts the beacon off."""

    def forwarding(self, now: int, frame: bytes, packet: Packet) -> bytes | None:
        found = super().forwarding(now, frame, packet)
        if found is not None:
            self.quiet_from = now + 3_000
        return found


class SmallTable(Station):
    """a location table with room for 8 sources."""

    def __init__(self, *arguments, **keys):
        super().__init__(*arguments, **keys)
        self.capacity = 8


class Forgets(Station):
    """nothing is learned from beacons."""

    def makes_neighbour(self, packet: Packet) -> bool:
        return packet.kind == "shb"


class DiesOfTruncated(Station):
    """it stops for ever after an area that is cut."""

    is_dead = False

    def receive(self, now: int, frame: bytes) -> Outcome:
        try:
            read(frame)
        except Rejected as why:
            self.is_dead |= str(why) == "truncated" and len(frame) > 52
        return Outcome("rejected", "dead") if self.is_dead else super().receive(now, frame)


class Mute(Station):
    """forwards nothing."""

    def forwarding(self, now: int, frame: bytes, packet: Packet) -> bytes | None:
        return None


class NearHops(Station):
    """a packet with other hops left is not a duplicate."""

    def is_duplicate(self, now: int, packet: Packet) -> bool:
        entry = self.entry(now, packet.source.address)
        seen = entry.__dict__.setdefault("seen", set()) if entry else set()
        return super().is_duplicate(now, packet) and (packet.number, packet.hops) in seen

    def learn(self, now: int, packet: Packet) -> None:
        super().learn(now, packet)
        entry = self.table[packet.source.address]
        entry.__dict__.setdefault("seen", set()).add((packet.number, packet.hops))


class OwnListOfGac(Station):
    """GACs have a duplicate packet list of their own."""

    def __init__(self, *arguments, **keys):
        super().__init__(*arguments, **keys)
        self.gacs: set[tuple[int, int | None]] = set()

    def is_duplicate(self, now: int, packet: Packet) -> bool:
        if packet.kind != "gac":
            return super().is_duplicate(now, packet)
        key = packet.source.address, packet.number
        is_known = key in self.gacs
        self.gacs.add(key)
        return is_known


class NumberReset(Station):
    """sequence numbers begin again after 8."""

    def after(self, number: int) -> int:
        return (number + 1) % 8


class BeaconsAfterShb(Station):
    """an SHB does not put the beacon off."""

    def send_shb(self, now: int, packet: Packet) -> bytes:
        kept = self.quiet_from
        frame = super().send_shb(now, packet)
        self.quiet_from = kept
        return frame


class OtherHops(Station):
    """own packets for an area have one hop less than at most."""

    def sent(self, now: int, packet: Packet, target: bytes = BROADCAST) -> bytes:
        if packet.area is not None:
            packet = replace(packet, hops=packet.hops - 1)
        return super().sent(now, packet, target)


class OtherAsked(Station):
    """own packets for an area have another angle than was asked for."""

    def send_to_area(self, now: int, packet: Packet) -> bytes:
        area = packet.area
        if area is not None and area.shape != "circle":
            packet = replace(packet, area=replace(area, angle=(area.angle + 90) % 360))
        return super().send_to_area(now, packet)


class GacAsGbc(Station):
    """a GBC is sent where a GAC is asked for."""

    def send_to_area(self, now: int, packet: Packet) -> bytes:
        return super().send_to_area(now, replace(packet, kind="gbc"))


class ShbOfTen(Station):
    """an SHB with 10 hops."""

    def send_shb(self, now: int, packet: Packet) -> bytes:
        return super().send_shb(now, replace(packet, hops=10, max_hops=10))


class StaysWhereItWas(Station):
    """a move is ignored."""

    def move(self, now: int, vector) -> None:
        super().move(now, replace(vector, latitude=self.vector.latitude))


class AnycastKept(Station):
    """a GAC is not delivered."""

    def delivery(self, packet: Packet) -> tuple[int, int, bytes] | None:
        return None if packet.kind == "gac" else super().delivery(packet)


class NumbersGoOn(Station):
    """sequence numbers go on after an initialization."""

    def restart(self, now: int, number: int) -> None:
        super().restart(now, self.number)


class FewPorts(Station):
    """it has room for 63 open ports."""

    def open_port(self, port: int) -> None:
        if len(self.ports) < 63:
            super().open_port(port)


class DoesNotContend(Station):
    """a station that says that it contends forwards at once."""


class ForwardsAtOnce(Station):
    """a station that says that it contends is not silenced."""


class OnlyHoldsAccurate(Station):
    """a station that says that it contends forwards at once what has no accurate position."""


class FullBuffer(Station):
    """a station that says that it contends loses what it can't hold."""

    held = 0

    def forwarding(self, now: int, frame: bytes, packet: Packet) -> bytes | None:
        self.held += 1
        return super().forwarding(now, frame, packet) if self.held <= 64 else None


class NotSilencedByTwo(Station):
    """a station that says that it contends is not silenced by two others."""


class HoldsTheLongest(Station):
    """a station that says that it contends holds each packet for 0.9 s."""

    delay = 900


class LostWithoutNextHop(Station):
    """outside the area a packet without a next hop is not forwarded."""

    def copy(self, frame: bytes, hops: int, target: bytes) -> bytes | None:
        is_lost = target == BROADCAST and not self.is_inside(read(frame).area)
        return None if is_lost else super().copy(frame, hops, target)


class DiesOfOtherKinds(Station):
    """it stops for ever after a packet of a kind that it does not have."""

    is_dead = False

    def receive(self, now: int, frame: bytes) -> Outcome:
        self.is_dead |= len(frame) > TYPE_AT and frame[TYPE_AT] >> 4 in (2, 6)
        return Outcome("rejected", "dead") if self.is_dead else super().receive(now, frame)


class EllipseAsked(Station):
    """a rectangle is sent where an ellipse is asked for."""

    def send_to_area(self, now: int, packet: Packet) -> bytes:
        if packet.area is not None and packet.area.shape == "ellipse":
            packet = replace(packet, area=replace(packet.area, shape="rectangle"))
        return super().send_to_area(now, packet)


class OtherClass(Station):
    """own packets for an area have traffic class 0."""

    def send_to_area(self, now: int, packet: Packet) -> bytes:
        return super().send_to_area(now, replace(packet, traffic_class=0))


class OtherLifetime(Station):
    """a GAC has another lifetime than was asked for."""

    def send_to_area(self, now: int, packet: Packet) -> bytes:
        lifetime = packet.lifetime ^ 4 if packet.kind == "gac" else packet.lifetime
        return super().send_to_area(now, replace(packet, lifetime=lifetime))


class NeverReleases(Station):
    """a station that says that it contends holds a packet for ever."""

    def forwarding(self, now: int, frame: bytes, packet: Packet) -> bytes | None:
        return None


class EarlyBeacon(Station):
    """a beacon after 1.5 s."""

    def beacon_wait(self) -> int:
        return -1_500


TABLE = [
    Found(faults.HopsKept, "GBC-01", ("D13",), ("D15",)),
    Found(faults.TwoHops, "GBC-01", ("D13",), ("D15",)),
    Found(faults.LastHopForwarded, "GBC-03", (), ("D21",)),
    Found(faults.LifetimeLowered, "GBC-12", ("D13",)),
    Found(faults.ClassCleared, "GBC-12", ("D13",)),
    Found(OctetChanged, "GBC-12", ("D13",)),
    Found(faults.Mutilated, "GBC-12", (), ("D13",)),
    Found(faults.SourceReplaced, "GBC-12", ("D3", "D4"), ("D20",)),
    Found(faults.SenderKept, "GBC-01", (), ("D20",)),
    Found(faults.EachCopy, "DPD-01", (), ("D15",)),
    Found(TwoRelays, "GBC-01", ("D15",), ("D15",)),
    Found(faults.ShortList, "DPD-02", (), ("D15",)),
    Found(faults.LongList, "DPD-02", (), ("D20",)),
    Found(faults.OneList, "DPD-03", (), ("D20",)),
    Found(OwnListOfGac, "DPD-04", (), ("D15",)),
    Found(NearHops, "DPD-05", (), ("D15",)),
    Found(faults.DuplicateRefreshes, "LOT-06", (), ("D19",)),
    Found(faults.ShbForwarded, "SHB-01", ("D14",)),
    Found(faults.GacForwarded, "GAC-01", ("D17",), ("D17",)),
    Found(faults.GbcKept, "GBC-01", (), ("D20",)),
    Found(Mute, "CAP-01", (), ("D20",)),
    Found(faults.OwnForwarded, "MGT-02", ("D3", "D4"), ("D21",)),
    Found(faults.OthersTaken, "GBC-13", ("D13",), ("D21", "D19")),
    Found(faults.LearnsFromOthers, "GBC-13", (), ("D19",)),
    Found(faults.UnicastInside, "GBC-01", ("D19",), ("D19",)),
    Found(faults.NearestToItself, "GBC-05", (), ("D19",)),
    Found(faults.Farthest, "GBC-05", (), ("D19",)),
    Found(LeastAddress, "GBC-05", (), ("D19",)),
    Found(faults.AlwaysBroadcast, "GAC-02", (), ("D19",)),
    Found(faults.GbcNeighbours, "LOT-02", (), ("D19",)),
    Found(Forgets, "LOT-01", (), ("D19",)),
    Found(faults.SenderIgnored, "GBC-08", (), ("D18",)),
    Found(faults.InaccurateSender, "GBC-08", (), ("D20",)),
    Found(faults.AxesSwapped, "GBC-04", ("D19",), ("D19",)),
    Found(faults.OtherTurn, "GBC-04", ("D19",), ("D19",)),
    Found(faults.FromEast, "GBC-04", ("D19",), ("D19",)),
    Found(faults.EllipseAsRectangle, "GBC-04", (), ("D19",)),
    Found(faults.NoScale, "GBC-04", ("D19",), ("D19",)),
    Found(WideBorder, "GBC-04", (), ("D19",)),
    Found(NarrowBorder, "GBC-04", ("D19",), ("D19",)),
    Found(faults.LongLife, "LOT-03", (), ("D19",)),
    Found(faults.ShortLife, "LOT-03", (), ("D19",)),
    Found(faults.OlderReplaces, "LOT-04", (), ("D19",)),
    Found(faults.NoWrap, "LOT-04", (), ("D19",)),
    Found(SmallTable, "LOT-05", (), ("D20",)),
    Found(faults.OtherBase, "FDV-01", ("D5",)),
    Found(faults.BeaconOfTen, "FDV-02", ("D4",)),
    Found(BeaconWithPayload, "FDV-02", ("D1",)),
    Found(BeaconReserved, "FDV-01", ("D1",)),
    Found(BeaconToOne, "FDV-02", ("D2",)),
    Found(faults.OtherMobile, "MGT-01", ("D3",)),
    Found(EarlyBeacon, "BEA-01", ("D10",)),
    Found(faults.LateBeacon, "BEA-01", (), ("D11",)),
    Found(RelayPutsBeaconOff, "BEA-03", (), ("D11",)),
    Found(faults.TenthLost, "CAP-01", (), ("D20",)),
    Found(LateRelay, "GBC-01", ("D16",)),
    Found(faults.TwoNumbers, "MGT-04", (), ("D6",)),
    Found(faults.OneNumber, "MGT-04", ("D6",), ("D6",)),
    Found(NumberReset, "MGT-04", ("D6",), ("D6",)),
    Found(BeaconsAfterShb, "BEA-02", ("D10",), ("D10",)),
    Found(OtherHops, "FDV-04", ("D4",), ("request",)),
    Found(OtherAsked, "FDV-05", (), ("request",)),
    Found(GacAsGbc, "FDV-07", (), ("request",)),
    Found(ShbOfTen, "FDV-03", ("D4",), ("request",)),
    Found(EllipseAsked, "FDV-06", (), ("request",)),
    Found(OtherClass, "FDV-08", (), ("request",)),
    Found(LostWithoutNextHop, "GBC-06", (), ("D20",)),
    Found(DiesOfOtherKinds, "OUT-01", (), ("D20",)),
    Found(StaysWhereItWas, "MGT-05", (), ("D9",)),
    Found(faults.DeliveredOutside, "GBC-02", (), ("delivery",)),
    Found(AnycastKept, "GBC-02", (), ("delivery",)),
    Found(faults.ClosedPorts, "FDV-13", (), ("delivery",)),
    Found(OtherLifetime, "FDV-09", (), ("request",)),
    Found(NeverReleases, "CBF-01", (), ("D20",)),
    Found(DoesNotContend, "CBF-03", (), ("D22",)),
    Found(ForwardsAtOnce, "CBF-02", (), ("D23",)),
    Found(OnlyHoldsAccurate, "CBF-04", (), ("D22",)),
    Found(FullBuffer, "CBF-05", (), ("D20",)),
    Found(NotSilencedByTwo, "CBF-06", (), ("D23",)),
    Found(HoldsTheLongest, "CBF-07", (), ("D22",)),
    Found(faults.MoreHopsThanAtMost, "FDV-11", ("D13",), ("D21",)),
    Found(faults.StopsAfterMalformed, "FDV-11", (), ("D20",)),
    Found(DiesOfTruncated, "FDV-11", (), ("D20",)),
    Found(NumbersGoOn, "MGT-03", (), ("D6",)),
    Found(FewPorts, "CAP-02", (), ("delivery",)),
    Found(secured.SignatureChanged, "SEC-01", (), ("D13",)),
    Found(secured.SignedAgain, "SEC-01", (), ("D13",)),
    Found(secured.Stripped, "SEC-01", (), ("D13",)),
    Found(secured.SecuredHopsKept, "SEC-01", (), ("D15",)),
    Found(secured.SignatureIgnored, "SEC-02", (), ("D21",)),
    Found(secured.AnyKey, "SEC-02", (), ("D21",)),
    Found(secured.UnsecuredTaken, "SEC-02", (), ("D21",)),
    Found(secured.LearnsUnsecured, "SEC-03", (), ("D19",)),
    Found(secured.LearnsRefused, "SEC-03", (), ("D19",)),
    Found(secured.BeaconUnsecured, "SEC-04", (), ("secured",)),
    Found(secured.SignedLongAgo, "SEC-04", (), ("secured",)),
    Found(secured.DeliversRefused, "SEC-05", (), ("delivery",)),
    Found(secured.ShbUnsecured, "SEC-06", (), ("secured",)),
]
FAULTS = {found.station.__doc__.rstrip("."): found for found in TABLE}
