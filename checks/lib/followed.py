"""What `geostation follow` prints of several captures, computed from their frames alone, for
checks/follow.
"""

from __future__ import annotations

import json
from collections import Counter
from dataclasses import dataclass
from typing import Iterator

# How many frames are held at most, and how many of one packet.
MOST_HELD, MOST_OF_PACKET = 65_536, 1024
COLUMNS = "packet kind address number tst tap frames record moment delay path".split()
PAIRS = "from to packets received ratio delays least p50 p95 p99 greatest".split()


@dataclass(frozen=True)
class Frame:
    """A frame in a capture. Its time is in nanoseconds."""

    tap: int
    record: int
    stamp: int
    kind: str
    address: str
    number: int | None
    tst: int
    payload: bytes
    sender: str
    target: str
    hops: int
    most: int


class Packet:
    """The frames of a packet, in the order of their times."""

    def __init__(self, number: int, opened: int):
        self.number, self.opened, self.frames = number, opened, []

    def add(self, frame: Frame) -> None:
        self.frames.append(frame)
        if len(self.frames) > 1 and frame.stamp < self.frames[-2].stamp:
            # Sorting keeps the order of frames with the same time.
            self.frames.sort(key=lambda one: one.stamp)

    def at(self, tap: int) -> list[Frame]:
        return [frame for frame in self.frames if frame.tap == tap]


class Followed:
    """The packets of several captures. Each has a list of frames, with None for a rejected record.
    What a mistake of checks/follow may turn is a method of its own."""

    def __init__(self, taps: list[list], names: list[str], window: int, by: str):
        self.taps, self.names, self.window, self.by = taps, names, window * 1_000_000, by
        self.late = self.crowded = self.early = 0
        self.packets = list(self.followed())

    # ---- the packets

    def key(self, frame: Frame):
        if self.by == "payload":
            return (frame.address, frame.payload) if frame.payload else None
        return frame.address, frame.kind, frame.number, frame.tst

    def merged(self) -> Iterator[Frame]:
        """The frames of all captures: each time the earliest of those that are next in each."""
        rest = [[f for f in tap if f is not None and self.key(f) is not None] for tap in self.taps]
        heads = [0] * len(rest)
        while True:
            ready = [(rest[i][at].stamp, i) for i, at in enumerate(heads) if at < len(rest[i])]
            if not ready:
                return
            _, tap = min(ready)
            yield rest[tap][heads[tap]]
            heads[tap] += 1

    def is_over(self, packet: Packet, now: int) -> bool:
        return packet.opened + self.window < now

    def followed(self) -> Iterator[Packet]:
        """The packets in the order in which they are opened."""
        held: dict = {}
        now, count, frames = 0, 0, 0
        for frame in self.merged():
            now = max(now, frame.stamp)
            while held and self.is_over(next(iter(held.values())), now):
                packet = held.pop(next(iter(held)))
                frames -= len(packet.frames)
                yield packet
            if frames >= MOST_HELD:
                packet = held.pop(next(iter(held)))
                frames -= len(packet.frames)
                self.early += 1
                yield packet
            if frame.stamp + self.window < now:
                self.late += 1
                continue
            key = self.key(frame)
            if key not in held:
                held[key] = Packet(count, now)
                count += 1
            if len(held[key].frames) >= MOST_OF_PACKET:
                self.crowded += 1
                continue
            held[key].add(frame)
            frames += 1
        yield from held.values()

    # ---- rows

    def delay(self, packet: Packet, frame: Frame) -> int:
        return (frame.stamp - packet.frames[0].stamp) // 1000

    def rows(self) -> Iterator[dict]:
        for packet in self.packets:
            for tap, name in enumerate(self.names):
                first, seen = packet.frames[0], packet.at(tap)
                row = {
                    "packet": packet.number, "kind": first.kind, "address": first.address,
                    "number": first.number, "tst": first.tst, "tap": name,
                }  # fmt: skip
                if self.by == "payload":
                    # The fields are those of the frame that came first.
                    opener = self.opener(packet)
                    row |= {"kind": opener.kind, "number": opener.number, "tst": opener.tst}
                row["seen"] = [(frame, self.delay(packet, frame)) for frame in seen]
                yield row

    def opener(self, packet: Packet) -> Frame:
        """The frame of a packet that was read first."""
        return min(packet.frames, key=self.places().__getitem__)

    def places(self) -> dict:
        if not hasattr(self, "order"):
            self.order = {frame: place for place, frame in enumerate(self.merged())}
        return self.order

    def as_words(self) -> str:
        lines = [" ".join(COLUMNS)]
        for row in self.rows():
            number = "-" if row["number"] is None else row["number"]
            start = [row["packet"], row["kind"], row["address"], number, row["tst"], row["tap"]]
            lines.append(" ".join(map(str, start + (self.cells(row) or ["missing"]))))
        return "".join(f"{line}\n" for line in lines)

    def as_csv(self) -> str:
        lines = [",".join(COLUMNS)]
        for row in self.rows():
            number = "" if row["number"] is None else row["number"]
            start = [row["packet"], row["kind"], row["address"], number, row["tst"], row["tap"]]
            lines.append(",".join(map(str, start + (self.cells(row) or [0, "", "", "", ""]))))
        return "".join(f"{line}\n" for line in lines)

    def cells(self, row: dict) -> list:
        if not row["seen"]:
            return []
        (first, delay), path = row["seen"][0], []
        for frame, after in row["seen"]:
            path.append(f"{frame.sender}:{frame.hops}+{after}")
        moment = first.stamp // 1_000_000
        return [len(path), first.record, moment, delay, " ".join(path)]

    def as_json(self) -> str:
        lines = []
        for row in self.rows():
            keys = ("packet", "kind", "address", "number", "tst", "tap")
            whole = {key: row[key] for key in keys if row[key] is not None}
            if row["seen"]:
                whole["delay"] = row["seen"][0][1]
            whole["frames"] = [
                {
                    "record": frame.record, "moment": frame.stamp // 1_000_000, "delay": delay,
                    "from": frame.sender, "to": frame.target, "hops": frame.hops,
                }  # fmt: skip
                for frame, delay in row["seen"]
            ]
            lines.append(json.dumps(whole, separators=(",", ":")))
        return "".join(f"{line}\n" for line in lines)

    # ---- the summary

    def first(self, packet: Packet, tap: int) -> int | None:
        seen = packet.at(tap)
        return seen[0].stamp if seen else None

    def quantile(self, delays: list[int], percent: int) -> int:
        """The nearest rank, of which three digits are kept."""
        exact = sorted(delays)[-(-len(delays) * percent // 100) - 1]
        digits = str(exact)
        return max(min(delays), int(digits[:3] + "0" * (len(digits) - 3)))

    def tap_rows(self) -> list[dict]:
        rows = []
        for tap, name in enumerate(self.names):
            seen = sum(self.first(packet, tap) is not None for packet in self.packets)
            rejected = sum(frame is None for frame in self.taps[tap])
            rows.append({
                "tap": name, "records": len(self.taps[tap]), "rejected": rejected,
                "packets": seen, "missing": len(self.packets) - seen,
            })  # fmt: skip
        return rows

    def pair_rows(self) -> list[dict]:
        rows = []
        for one in range(len(self.names)):
            for other in range(len(self.names)):
                if one != other:
                    rows.append(self.pair_row(one, other))
        return rows

    def pair_row(self, one: int, other: int) -> dict:
        stamps = [(self.first(p, one), self.first(p, other)) for p in self.packets]
        sent = [(a, b) for a, b in stamps if a is not None]
        both = [(a, b) for a, b in sent if b is not None]
        delays = [(b - a) // 1000 for a, b in both if b >= a]
        row = {
            "from": self.names[one], "to": self.names[other],
            "packets": len(sent), "received": len(both), "delays": len(delays),
        }  # fmt: skip
        if delays:
            row["least"] = min(delays)
            row |= {f"p{percent}": self.quantile(delays, percent) for percent in (50, 95, 99)}
            row["greatest"] = max(delays)
        return row

    def ratio(self, row: dict) -> str:
        """In percent, with one decimal."""
        tenths = row["received"] * 1000 // row["packets"]
        return f"{tenths // 10}.{tenths % 10}"

    def forwarding(self) -> Counter:
        """How many frames were forwarded after each number of milliseconds."""
        count: Counter = Counter()
        for packet in self.packets:
            for tap in range(len(self.names)):
                seen = packet.at(tap)
                for place, frame in enumerate(seen):
                    delay = self.forwarding_delay(seen[:place], frame)
                    if delay is not None:
                        count[delay // 1_000_000] += 1
        return count

    def forwarding_delay(self, before: list[Frame], frame: Frame) -> int | None:
        if frame.hops >= frame.most:
            return None
        if any((one.sender, one.hops) == (frame.sender, frame.hops) for one in before):
            return None
        causes = [
            one.stamp
            for one in before
            if one.hops == frame.hops + 1 and one.sender != frame.sender
        ]
        return frame.stamp - causes[0] if causes else None

    def summary_words(self) -> str:
        taps = [list(row.values()) for row in self.tap_rows()]
        pairs = []
        for row in self.pair_rows():
            whole = row | {"ratio": self.ratio(row) if row["packets"] else "-"}
            pairs.append([whole.get(name, "-") for name in PAIRS])
        spread = sorted(self.forwarding().items())
        heads = ["tap", "records", "rejected", "packets", "missing"]
        tables = [table(heads, taps), table(PAIRS, pairs), table(["ms", "forwarded"], spread)]
        return "\n".join(tables)

    def summary_csv(self) -> str:
        lines = [",".join(PAIRS)]
        for row in self.pair_rows():
            whole = row | {"ratio": self.ratio(row) if row["packets"] else ""}
            lines.append(",".join(str(whole.get(name, "")) for name in PAIRS))
        return "".join(f"{line}\n" for line in lines)

    def summary_json(self) -> str:
        spread = [{"ms": ms, "forwarded": n} for ms, n in sorted(self.forwarding().items())]
        whole = {
            "packets": len(self.packets), "taps": self.tap_rows(), "pairs": self.pair_rows(),
            "forwarding": spread,
        }  # fmt: skip
        return json.dumps(whole, separators=(",", ":")) + "\n"

    # ---- warnings

    def warnings(self) -> str:
        lines = []
        for tap, name in enumerate(self.names):
            rejected = sum(frame is None for frame in self.taps[tap])
            if rejected:
                lines.append(f"{name}: {rejected} rejected {records(rejected)} not followed")
        if self.late:
            lines.append(
                f"{self.late} {records(self.late)} not followed: over {self.window // 1_000_000} ms"
                " before an earlier record (use a greater --window)"
            )
        if self.crowded:
            lines.append(
                f"{self.crowded} {records(self.crowded)} not followed: over {MOST_OF_PACKET} frames"
                " of a packet"
            )
        if self.early:
            noun = "packet" if self.early == 1 else "packets"
            lines.append(
                f"{self.early} {noun} not followed to the end: over {MOST_HELD} frames in the"
                " window (use a smaller --window)"
            )
        return "".join(f"geostation: {line}\n" for line in lines)


def records(count: int) -> str:
    return "record is" if count == 1 else "records are"


def table(heads: list[str], rows: list) -> str:
    """A table whose first column is aligned to the left, and the others to the right."""
    lines = [heads, *(list(map(str, row)) for row in rows)]
    widths = [max(len(line[column]) for line in lines) for column in range(len(heads))]
    text = ""
    for line in lines:
        first = line[0].ljust(widths[0])
        others = [cell.rjust(width) for cell, width in zip(line[1:], widths[1:])]
        text += "  ".join([first, *others]) + "\n"
    return text
