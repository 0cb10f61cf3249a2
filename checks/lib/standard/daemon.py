"""The daemon, and a station written from the standard that says what it should do."""

from __future__ import annotations

import time
from collections import Counter
from dataclasses import replace

from .judged import REFRESH, Difference, without
from .packets import Packet, Rejected, Vector, read
from .station import BEACON_JITTER, Station

PATIENCE = 120  # s, for what never comes
VECTOR_KEYS = ("tst", "lat", "lon", "pai", "speed", "heading")


class Seen:
    """What the daemon did in a call."""

    def __init__(self, frames: list[bytes], delivered: list[dict], verdict: str):
        self.frames, self.delivered, self.verdict = frames, delivered, verdict

    def outcome(self) -> tuple:
        """As `without` has it, if there is one of each at most."""
        messages = [(d["port"], d["info"], bytes.fromhex(d["payload"])) for d in self.delivered]
        one = messages[0] if len(messages) == 1 else messages or None
        frame = self.frames[0] if len(self.frames) == 1 else self.frames or None
        return self.verdict, one, frame


class UnderTest:
    """`station` says what the daemon should do. So do `faulty` stations, each of which has one
    mistake: each of them has to differ from the daemon once. Then it is moved to `found`."""

    def __init__(self, daemon, end, clock, now: int, station: Station, faulty: dict[str, Station]):
        self.daemon, self.end, self.clock, self.now = daemon, end, clock, now
        self.station, self.faulty = station, faulty
        self.found: dict[str, int] = {}
        self.differences: list[Difference] = []
        self.counts: Counter[str] = Counter()
        self.put = self.sent = 0
        self.before = self.verdicts(self.ask_counts())
        end.settimeout(PATIENCE)

    # ---- what it did

    def ask_counts(self) -> dict:
        """The counts, once the daemon has read all frames."""
        latest = time.monotonic() + PATIENCE
        while (counts := self.daemon.ask(do="counts"))["link"]["frames"] < self.put:
            assert time.monotonic() < latest, counts
        return counts

    @staticmethod
    def verdicts(counts: dict) -> Counter:
        parts = {"accepted": counts["accepted"]}
        parts["ignored"] = sum(counts["ignored"].values())
        parts["rejected"] = sum(counts["refused"].values())
        return Counter(parts)

    def see(self) -> Seen:
        counts = self.ask_counts()
        total = counts["relayed"] + sum(counts["sent"].values())
        frames = [self.end.recv(2048) for _ in range(total - self.sent)]
        self.sent = total
        after = self.verdicts(counts)
        verdict = " and ".join((after - self.before).elements())
        self.before = after
        events, self.daemon.events = self.daemon.events, []
        return Seen(frames, [e for e in events if e["event"] == "delivered"], verdict)

    # ---- comparisons

    def stations(self) -> list[tuple[str, Station]]:
        return [("", self.station), *self.faulty.items()]

    def differ(self, name: str, difference: Difference) -> None:
        if not name:
            self.differences.append(difference)
        elif name not in self.found:
            self.found[name] = self.put
            del self.faulty[name]

    def compare(self, name: str, now: int, what: str, frame: bytes, done, owed) -> None:
        if done != owed:
            self.differ(name, Difference(now, what, frame, done, owed))

    def stamp(self, now: int, station: Station, frames: list[bytes]) -> None:
        """The daemon may choose the time stamp of its position within `REFRESH`."""
        try:
            stamp = read(frames[0]).source.timestamp
        except (Rejected, IndexError):
            return
        if (station.stamp(now) - stamp) % (1 << 32) <= REFRESH:
            station.vector = replace(station.vector, timestamp=stamp)

    # ---- calls

    def advance(self, now: int) -> list[bytes]:
        """Sets the clock, after which a beacon may be due."""
        self.clock.wait(now - self.now)
        self.now = now
        frames = self.see().frames
        self.counts["beacons"] += len(frames)
        for name, station in self.stations():
            self.judge_beacon(name, station, now, frames)
        return frames

    def judge_beacon(self, name: str, station: Station, now: int, frames: list[bytes]) -> None:
        """Its jitter is the daemon's choice (MIB-12)."""
        earliest = station.quiet_from + station.beacon_wait()
        must = now >= earliest + BEACON_JITTER
        if not frames and not must:
            return
        self.stamp(now, station, frames)
        owed = [station.sent(now, station.beacon())] if now >= earliest else []
        self.compare(name, now, "a beacon", b"", frames, owed)

    def receive(self, now: int, frame: bytes) -> list[bytes]:
        self.end.send(frame)
        self.put += 1
        seen = self.see()
        self.counts["received"] += 1
        self.counts["delivered"] += len(seen.delivered)
        self.counts["forwarded"] += len(seen.frames)
        for name, station in self.stations():
            owed = station.receive(now, frame)
            what = f"a received frame ({owed.why or 'accepted'})"
            self.compare(name, now, what, frame, seen.outcome(), without(owed))
        self.judge_event(now, frame, seen)
        return seen.frames

    def judge_event(self, now: int, frame: bytes, seen: Seen) -> None:
        """The other keys of an event."""
        for event in seen.delivered:
            packet = read(frame)
            done = {"source": int(event["source"], 16), "tc": event["tc"], "at": event["at"]}
            owed = {"source": packet.source.address, "tc": packet.traffic_class, "at": now}
            self.compare("", now, "an event", frame, done, owed)

    def look(self, now: int) -> None:
        """The neighbours in the location table, of which an answer has 32."""
        done = [
            Vector(int(v["address"], 16), *(v[key] for key in VECTOR_KEYS))
            for v in self.daemon.ask(do="neighbours")["vectors"]
        ]
        for name, station in self.stations():
            owed = station.candidates(now)[:32]
            self.compare(name, now, "the neighbours", b"", done, owed)

    def send(self, now: int, packet: Packet) -> list[bytes]:
        answer = self.daemon.ask(**request_of(packet))
        seen = self.see()
        self.counts["sent"] += 1
        answered = bytes.fromhex(answer.get("frame", ""))
        self.compare("", now, "the answer", b"", [answered], seen.frames)
        for name, station in self.stations():
            self.stamp(now, station, seen.frames)
            call = station.send_shb if packet.area is None else station.send_to_area
            self.compare(name, now, f"an own {packet.kind}", b"", seen.frames, [call(now, packet)])
        return seen.frames

    def move(self, now: int, vector: Vector) -> None:
        answer = self.daemon.ask(
            do="move",
            lat=vector.latitude,
            lon=vector.longitude,
            pai=vector.accurate,
            speed=vector.speed,
            heading=vector.heading,
        )
        self.compare("", now, "a move", b"", answer["result"], "moved")
        for _, station in self.stations():
            station.move(now, vector)

    def port(self, now: int, port: int) -> None:
        is_open = port in self.station.ports
        answer = self.daemon.ask(do="close" if is_open else "open", port=port)
        self.compare("", now, "a port", b"", answer["result"], "closed" if is_open else "opened")
        for _, station in self.stations():
            (station.close_port if is_open else station.open_port)(port)


def request_of(packet: Packet) -> dict:
    keys = {
        "do": packet.kind,
        "port": packet.port,
        "info": packet.info,
        "tc": packet.traffic_class,
        "payload": packet.payload.hex(),
    }
    area = packet.area
    if area is not None:
        keys |= {"lt": packet.lifetime, "hops": packet.hops, "shape": area.shape}
        keys |= {"alat": area.latitude, "alon": area.longitude}
        keys |= {"a": area.a, "b": area.b, "angle": area.angle}
    return keys
