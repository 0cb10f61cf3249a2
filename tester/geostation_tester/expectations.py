"""What `geostation verdict` does not judge yet: the frames that have to come, and those that may
not. The tester checks them itself. Nothing of it is proved.

Each function yields a line for each thing that is not as expected, with the duty in front.
"""

from __future__ import annotations

from collections import defaultdict
from collections.abc import Iterator
from itertools import zip_longest
from typing import NamedTuple

from .actions import Action
from .areas import moved
from .bench import Record
from .expected import (
    Asked,
    Deliveries,
    Expectation,
    Numbered,
    Numbers,
    Position,
    Quiet,
    Relays,
    Secured,
    Silence,
)
from .frames import (
    AREA_TYPES,
    BROADCAST,
    HOPS_AT,
    LIFETIME_AT,
    LINK,
    TYPE_AT,
    TYPES,
    Hops,
    Key,
    btp,
    headers,
    key_of,
    lifetime_of,
    place_of,
    source_of,
)
from .purposes import Purpose
from .secured import is_secured
from .station_file import StationFile
from .upper import Delivered

MILLISECOND = 1_000_000  # ns
# Octets of a frame. `AFTER_VECTOR` is the area, or the payload of an SHB.
FLAGS_AT, AFTER_VECTOR = LINK + 7, LINK + 40


class Observed:
    """The records of a purpose, as expectations look at them."""

    def __init__(
        self,
        purpose: Purpose,
        station: StationFile,
        records: list[Record],
        delivered: list[Delivered],
    ):
        self.purpose, self.station, self.records = purpose, station, records
        self.delivered = delivered
        self.macs = {n.name: n.mac for n in purpose.neighbours} | {"all": BROADCAST}
        self.names = {mac: name for name, mac in self.macs.items()}
        from_station = [r for r in records if r.frame[6:12] == station.mac]
        self.own = [r for r in from_station if source_of(r.packet_frame) == station.source]
        self.relays: dict[Key, list[Record]] = defaultdict(list)
        for r in from_station:
            if (key := key_of(r.packet_frame)) is not None:
                self.relays[key].append(r)

    def action(self, name: str) -> Action:
        return next(a for a in self.purpose.actions if a.name == name)

    def packets(self, name: str) -> dict[Key, Record]:
        """Those that an action sent, each once."""
        return {
            r.sent.key: r
            for r in self.records
            if r.sent and r.sent.key and r.sent.step.action.name == name
        }

    def target(self, r: Record) -> str:
        return self.names.get(r.frame[:6], r.frame[:6].hex())

    def own_of(self, kind: int) -> list[Record]:
        """Own packets of this header type, without its subtype."""
        return [r for r in self.own if type_of(r) == kind >> 4]

    def requested(self, action: Action) -> list[Record]:
        """Own packets of the kind and with the payload that an action asks for."""
        own = self.own_of(TYPES[action.ask])
        return [r for r in own if r.packet_frame.endswith(action.payload)]


def type_of(r: Record) -> int:
    """The header type of its packet, without the subtype."""
    return r.packet_frame[TYPE_AT] >> 4


def changed_octet(one: bytes, two: bytes) -> int | None:
    """The first octet of a packet, except that of RHL, that another frame has otherwise."""
    pairs = enumerate(zip_longest(one[LINK:], two[LINK:]))
    return next((at for at, (a, b) in pairs if a != b and at != HOPS_AT - LINK), None)


def of_relays(e: Relays, observed: Observed) -> Iterator[str]:
    for key, packet in observed.packets(e.of).items():
        yield from of_packet(e, observed, observed.relays[key], packet)


def of_packet(
    e: Relays, observed: Observed, relays: list[Record], packet: Record
) -> Iterator[str]:
    records = "".join(f" #{r.number}" for r in relays)
    if len(relays) != e.times:
        duty = e.duty if not e.times or len(relays) < e.times else "D15"
        yield f"{duty}: {e.of} was forwarded {len(relays)} times, not {e.times}{records}"
    for r in relays:
        if e.to and observed.target(r) != e.to:
            yield f"D19: {e.of} was forwarded to {observed.target(r)}, not to {e.to} #{r.number}"
        if e.hops is not None and r.frame[HOPS_AT] != e.hops:
            yield f"D15: {e.of} has {r.frame[HOPS_AT]} hops left, not {e.hops} #{r.number}"
        held = (r.stamp - packet.stamp) // MILLISECOND
        if held < e.after:
            yield f"D22: {e.of} was held for {held} ms, not {e.after} #{r.number}"
        if e.before is not None and held > e.before:
            yield f"D22: {e.of} was held for {held} ms, over {e.before} #{r.number}"
        if e.times and len(r.frame) < len(packet.frame):
            octets = f"{len(r.frame)} octets, not {len(packet.frame)}"
            yield f"D13: {e.of} has {octets} #{r.number}"
        elif is_secured(packet.frame) and e.times:
            yield from of_message(e, packet, r)


def of_message(e: Relays, packet: Record, relay: Record) -> Iterator[str]:
    """`geostation verdict` reads no secured frames."""
    if (at := changed_octet(packet.frame, relay.frame)) is not None:
        yield f"D13: octet {at} of {e.of} is changed #{relay.number}"


def of_silence(e: Silence, observed: Observed) -> Iterator[str]:
    last = observed.records[-1].stamp if observed.records else 0
    stamps = [r.stamp for r in observed.own] + [last]
    for one, two in zip(stamps, stamps[1:]):
        if (gap := (two - one) // MILLISECOND) > e.most:
            yield f"D11: {gap} ms without a packet of its own, not {e.most}"


def of_deliveries(e: Deliveries, observed: Observed) -> Iterator[str]:
    action = observed.action(e.of)
    for port in range(action.port, action.port + action.ports):
        times = observed.delivered.count(Delivered(port, action.payload))
        if times != e.times:
            yield f"delivery: {e.of} was delivered {times} times at port {port}, not {e.times}"


class Requested(NamedTuple):
    """What an upper tester asks for. `octets` is the packet without lifetime, mobile bit, number
    and position vector."""

    lifetime: int  # ms: two octets may say the same
    octets: bytes


def requested_in(frame: bytes) -> Requested:
    head = frame[LINK:LIFETIME_AT] + frame[LIFETIME_AT + 1 : FLAGS_AT]
    body = frame[FLAGS_AT + 1 : LINK + 12] + frame[AFTER_VECTOR:]
    return Requested(lifetime_of(frame[LIFETIME_AT]), head + body)


def requested_by(action: Action, observed: Observed) -> Requested:
    fields, body = action.fields, btp(action.port, action.payload)
    hops = fields.first_hops()
    area = action.area.encode(observed.station.place) if action.area else b""
    kind = TYPES[action.ask] | (action.area.shape if action.area else 0)
    left = Hops(hops, hops) if action.area else Hops(1, 1)
    head = headers(kind, len(body), left, fields.lifetime, fields.traffic_class)
    packet = head[:2] + head[3:7] + head[8:] + area + body
    return Requested(lifetime_of(fields.lifetime), packet)


def of_asked(e: Asked, observed: Observed) -> Iterator[str]:
    action = observed.action(e.of)
    wanted = requested_by(action, observed)
    found = observed.requested(action)
    if len(found) != 1:
        yield f"request: {e.of} was sent {len(found)} times, not once"
    for r in found:
        if requested_in(r.packet_frame) != wanted:
            yield f"request: {e.of} has other fields than were asked for #{r.number}"
        if e.to and observed.target(r) != e.to:
            yield f"D12: {e.of} was sent to {observed.target(r)}, not to {e.to} #{r.number}"


def of_numbers(e: Numbers, observed: Observed) -> Iterator[str]:
    """65535 may be left out."""
    found = [r for r in observed.own if type_of(r) in AREA_TYPES]
    if len(found) < e.least:
        yield f"request: {len(found)} own packets for areas, not {e.least}"
    numbers = [key_of(r.packet_frame).number for r in found]
    for one, two, r in zip(numbers, numbers[1:], found[1:]):
        if (two - one) % (1 << 16) != 1 and (two - one) % 65_535 != 1:
            yield f"D6: number {two} after {one} #{r.number}"


def of_numbered(e: Numbered, observed: Observed) -> Iterator[str]:
    found = observed.requested(observed.action(e.of))
    if not found:
        yield f"request: {e.of} was not sent"
    for r in found:
        if (number := key_of(r.packet_frame).number) != e.number:
            yield f"D6: {e.of} has number {number}, not {e.number} #{r.number}"


def of_quiet(e: Quiet, observed: Observed) -> Iterator[str]:
    """While own packets leave."""
    action = observed.action(e.of)
    others = observed.own_of(TYPES[action.ask])
    beacons = observed.own_of(TYPES["beacon"])
    between = [r for r in beacons if others and others[0].stamp < r.stamp < others[-1].stamp]
    if not others:
        yield f"request: {e.of} was not sent"
    for r in between:
        yield f"D10: a beacon between packets of {e.of} #{r.number}"


def of_position(e: Position, observed: Observed) -> Iterator[str]:
    fields = observed.action(e.of).fields
    place = moved(observed.station.place, fields.north or 0, fields.east or 0)
    if place not in map(place_of, (r.packet_frame for r in observed.own)):
        yield f"D9: no packet with the position of {e.of}"


def of_secured(e: Secured, observed: Observed) -> Iterator[str]:
    if len(observed.own) < e.least:
        yield f"secured: {len(observed.own)} own packets, not {e.least}"
    for r in observed.own:
        if not is_secured(r.frame):
            yield f"secured: an own packet is not secured #{r.number}"
        if r.refusal:
            yield f"secured: the security entity refuses an own packet: {r.refusal} #{r.number}"


def of_one(e: Expectation, observed: Observed) -> Iterator[str]:
    match e:
        case Relays():
            return of_relays(e, observed)
        case Silence():
            return of_silence(e, observed)
        case Deliveries():
            return of_deliveries(e, observed)
        case Asked():
            return of_asked(e, observed)
        case Numbers():
            return of_numbers(e, observed)
        case Numbered():
            return of_numbered(e, observed)
        case Quiet():
            return of_quiet(e, observed)
        case Position():
            return of_position(e, observed)
        case Secured():
            return of_secured(e, observed)


def differences(purpose: Purpose, observed: Observed) -> list[str]:
    return [line for e in purpose.expectations for line in of_one(e, observed)]
