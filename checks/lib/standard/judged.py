"""Stations that judge each other: what one did with a frame, and what another says that it should
have done."""

from __future__ import annotations

from dataclasses import replace
from typing import NamedTuple

import geostation
from geostation import NO_LIMITS, BadFrame, Refused

from .areas import Area
from .packets import Packet, Vector
from .station import Outcome, Station

REFRESH = 1_000  # ms: how old a position may be (10.2.2, MIB-5)


class Difference(NamedTuple):
    """What a station did, and what it should have done."""

    now: int
    what: str
    frame: bytes
    done: object
    owed: object

    def __str__(self) -> str:
        return (
            f"at {self.now}: {self.what}\n  frame {self.frame.hex()}\n"
            f"  done {show(self.done)}\n  owed {show(self.owed)}"
        )


def show(value: object) -> str:
    if isinstance(value, bytes):
        return value.hex()
    if isinstance(value, tuple):
        return ", ".join(show(part) for part in value)
    return str(value)


class Judged:
    """A station written from the standard, and the library, which says what it should do. Both get
    the same calls at the same times."""

    def __init__(self, station: Station, draw):
        self.station, self.draw = station, draw
        self.library = geostation.Station(
            station.address,
            latitude=station.vector.latitude,
            longitude=station.vector.longitude,
            capacity=station.capacity,
            remember=station.remember,
            mobile=station.mobile,
            limits=NO_LIMITS,
        )
        self.differences: list[Difference] = []
        self.fixed_at = -REFRESH
        self.jitter = self.draw_jitter()
        self.counts = {"received": 0, "sent": 0, "beacons": 0, "forwarded": 0, "delivered": 0}

    def draw_jitter(self) -> int:
        return self.draw.randrange(751)

    def compare(self, now: int, what: str, frame: bytes, done: object, owed: object) -> None:
        if done != owed:
            self.differences.append(Difference(now, what, frame, done, owed))

    def move(self, now: int, vector: Vector) -> None:
        """The vector gets its time stamp here."""
        self.fixed_at = now
        self.station.move(now, vector)
        self.library.move_at(
            now,
            now % (1 << 32),
            latitude=vector.latitude,
            longitude=vector.longitude,
            accurate=vector.accurate,
            speed=vector.speed,
            heading=vector.heading,
        )

    def port(self, now: int, port: int) -> None:
        if port in self.station.ports:
            self.station.close_port(port)
            self.library.close_port(now, port)
        else:
            self.station.open_port(port)
            self.library.open_port(now, port)

    def advance(self, now: int) -> list[bytes]:
        """A new time stamp for the position, and the beacon, if it is due."""
        if now - self.fixed_at >= REFRESH:
            self.move(now, self.station.vector)
        done = self.station.tick(now, self.jitter)
        owed = self.library.tick(now, self.jitter)
        self.compare(now, "a beacon", b"", done, owed)
        if done is None:
            return []
        self.jitter = self.draw_jitter()
        self.counts["beacons"] += 1
        return [done]

    def send(self, now: int, packet: Packet) -> list[bytes]:
        self.counts["sent"] += 1
        request = {
            "port": packet.port,
            "info": packet.info,
            "traffic_class": packet.traffic_class,
            "payload": packet.payload,
        }
        if packet.area is None:
            done, owed = self.station.send_shb(now, packet), self.library.send_shb(now, **request)
        else:
            done = self.station.send_to_area(now, packet)
            call = self.library.send_gbc if packet.kind == "gbc" else self.library.send_gac
            owed = call(
                now,
                area=area_of(packet.area),
                max_hops=packet.hops,
                lifetime=packet.lifetime,
                **request,
            )
        self.compare(now, f"an own {packet.kind}", b"", done, owed)
        return [done]

    def look(self, now: int) -> None:
        """The neighbours in the location table."""
        owed = [
            Vector(v.address, v.timestamp, v.latitude, v.longitude, v.accurate, v.speed, v.heading)
            for v in self.library.neighbours(now)
        ]
        self.compare(now, "the neighbours", b"", self.station.candidates(now), owed)

    def judgement(self, now: int, frame: bytes) -> Outcome:
        """What the library does with a frame."""
        try:
            got = self.library.receive(now, frame)
        except BadFrame as fault:
            return Outcome("rejected", str(fault))
        except Refused as fault:
            return Outcome("rejected", str(fault))
        if got.ignored is not None:
            return Outcome("ignored", str(got.ignored))
        message = got.delivered
        delivered = (message.port, message.info, message.payload) if message else None
        return Outcome("accepted", "", delivered, got.relay)

    def receive(self, now: int, frame: bytes) -> list[bytes]:
        done, owed = self.station.receive(now, frame), self.judgement(now, frame)
        reasons = f" ({done.why or 'accepted'}; the library: {owed.why or 'accepted'})"
        self.compare(now, "a received frame" + reasons, frame, without(done), without(owed))
        self.counts["received"] += 1
        self.counts["delivered"] += done.delivered is not None
        self.counts["forwarded"] += done.forwarded is not None
        return [done.forwarded] if done.forwarded else []


def without(outcome: Outcome) -> tuple:
    """An outcome without its reason, which each of them words by itself."""
    return outcome.verdict, outcome.delivered, outcome.forwarded


def area_of(area: Area) -> geostation.Area:
    shape = geostation.Shape[area.shape.upper()]
    return geostation.Area(shape, area.latitude, area.longitude, area.a, area.b, area.angle)
