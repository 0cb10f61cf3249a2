"""One wire: drawn traffic, and two parties that receive it and what the other one sends."""

from __future__ import annotations

from collections import Counter, deque

from .packets import Packet, Rejected, read
from .station import ENTRY_LIFE
from .traffic import Frame, Move, Port, Send, Traffic, Wait


LOOK_EACH = 20  # events


class Wire:
    """A party has `station`, which is written from the standard, and `advance`, `receive`, `send`,
    `move`, `port` and `look`. The first three return frames. `look` compares location tables."""

    def __init__(self, traffic: Traffic, parties: list):
        self.traffic, self.parties = traffic, parties
        self.counts: Counter[str] = Counter()

    def run(self, length: int) -> None:
        for event in self.traffic.events(length):
            self.do(event)

    def do(self, event) -> None:
        self.counts["events"] += 1
        if self.counts["events"] % LOOK_EACH == 0:
            for party in self.parties:
                party.look(self.traffic.now)
        if isinstance(event, Wait):
            self.wait()
        elif isinstance(event, Frame):
            self.put(event)
        elif event.station >= len(self.parties):
            return
        elif isinstance(event, Send):
            self.send(event)
        elif isinstance(event, Move):
            self.parties[event.station].move(self.traffic.now, event.vector)
        elif isinstance(event, Port):
            self.parties[event.station].port(self.traffic.now, event.port)

    def wait(self) -> None:
        """No entry is just as old as its life: the standard doesn't say on which side that is."""
        entries = [e for p in self.parties for e in p.station.table.values()]
        while any(self.traffic.now - e.heard == ENTRY_LIFE for e in entries):
            self.traffic.now += 1
        for k, party in enumerate(self.parties):
            self.spread(k, party.advance(self.traffic.now))

    def is_unsure(self, packet: Packet | None, frame: bytes) -> bool:
        """Whether another arithmetic may decide otherwise, in a party or in the one after it."""
        if packet is None or packet.area is None:
            return False
        area, now = packet.area, self.traffic.now
        places = {p.station.vector.place for p in self.parties}
        own = {p.station.address for p in self.parties}
        entries = [p.station.table[a] for p in self.parties for a in own if a in p.station.table]
        places |= {e.vector.place for e in entries}
        return any(area.is_unsure(place) for place in places) or any(
            p.station.is_unsure(now, area, frame, packet) for p in self.parties
        )

    def put(self, frame: Frame) -> None:
        """A frame that is not from a party."""
        self.counts["frames"] += 1
        self.counts["malformed"] += frame.wrong != ""
        try:
            packet = read(frame.octets)
        except Rejected:
            packet = None
        if self.is_unsure(packet, frame.octets):
            self.counts["unsure"] += 1
            return
        if packet is not None:
            self.traffic.note(frame.octets)
        for k, party in enumerate(self.parties):
            self.spread(k, party.receive(self.traffic.now, frame.octets))

    def send(self, event: Send) -> None:
        party = self.parties[event.station]
        packet = Packet(
            event.packet.kind, party.station.vector, event.packet.hops, area=event.packet.area
        )
        if self.is_unsure(packet, bytes(12)):
            self.counts["unsure"] += 1
            return
        self.counts["own"] += 1
        self.spread(event.station, party.send(self.traffic.now, event.packet))

    def spread(self, k: int, frames: list[bytes]) -> None:
        """What a party sent goes to the other one, and what that sends goes back."""
        waiting = deque((k, frame) for frame in frames)
        while waiting:
            k, frame = waiting.popleft()
            self.traffic.note(frame)
            self.counts["between"] += len(self.parties) - 1
            for other, party in enumerate(self.parties):
                if other != k:
                    found = party.receive(self.traffic.now, frame)
                    waiting.extend((other, more) for more in found)
