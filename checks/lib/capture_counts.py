"""What `geostation stats` says of a capture, computed from its frames alone, for checks/stats and
checks/tshark. The rules are those of docs/commands/stats.md.
"""

from __future__ import annotations

import json
from collections import Counter
from typing import NamedTuple

KINDS = ["beacon", "shb", "gbc", "gac"]
CODES = ["P3", "P4", "L1", "L2", "L3", "L4", *(f"L5 G{number}" for number in range(1, 13))]


class Seen(NamedTuple):
    """A frame of a capture. `number` is None for a beacon or an shb, `port` for a beacon."""

    moment: int
    kind: str
    address: str
    hops: int
    octets: int
    port: int | None = None
    number: int | None = None
    max_hops: int = 0
    retry: bool = False


def air_time(octets: int) -> int:
    """Microseconds of a frame at 6 Mbit/s in a channel of 10 MHz: 38 octets of IEEE 802.11 in place
    of Ethernet's 14, with 22 bits around them, in symbols of 48 bits."""
    return 40 + 8 * -(-(22 + 8 * (octets - 14 + 38)) // 48)


class Counts:
    """The tables of a capture. What a mistake of checks/stats may turn is a method of its own."""

    def __init__(self, frames: list[Seen], refused: list[str], fault: tuple[str, int] | None):
        self.frames, self.refused, self.fault = frames, refused, fault

    # ---- definitions

    def code(self, code: str) -> str:
        return code

    def greatest(self, moments: list[int]) -> int:
        """The most that a moment is above the one before."""
        return max([0, *(after - before for before, after in zip(moments, moments[1:]))])

    def places(self, numbers: list[int]) -> list[int]:
        """The numbers laid on a line: each at the one place that is the same modulo 65536, from
        32768 below the greatest so far to 32767 above it."""
        places: list[int] = []
        for number in numbers:
            least = max(places) - 32768 if places else number
            places.append(least + (number - least) % 65536)
        return places

    def repeated(self, places: list[int]) -> int:
        return len(places) - len(set(places))

    def busiest(self, busy: Counter) -> int:
        """The second with the most air time, the earliest of such."""
        return min(busy, key=lambda second: (-busy[second], second))

    def octets_of(self, frame: Seen) -> int:
        return frame.octets

    def top(self, rows: list[dict], most: int | None) -> list[dict]:
        return rows[:most]

    # ---- tables

    def records(self) -> dict[str, int]:
        counts = Counter(frame.kind for frame in self.frames)
        counts.update(self.code(code) for code in self.refused)
        return {name: counts[name] for name in KINDS + CODES if counts[name]}

    def sources(self, most: int | None = None) -> list[dict]:
        by_address: dict[str, list[Seen]] = {}
        for frame in self.frames:
            by_address.setdefault(frame.address, []).append(frame)
        order = sorted(by_address.items(), key=lambda item: (-len(item[1]), item[0]))
        return self.top([self.source(address, frames) for address, frames in order], most)

    def source(self, address: str, frames: list[Seen]) -> dict:
        moments = [frame.moment for frame in frames]
        hops = [frame.hops for frame in frames]
        places = self.places([frame.number for frame in frames if frame.number is not None])
        span = max(places) - min(places) + 1 if places else 0
        return {
            "address": address,
            "frames": len(frames),
            "octets": sum(self.octets_of(frame) for frame in frames),
            "first": min(moments),
            "last": max(moments),
            "mean": (max(moments) - min(moments)) // max(len(frames) - 1, 1),
            "greatest": self.greatest(moments),
            "missing": span - len(set(places)),
            "repeated": self.repeated(places),
            "hops": [min(hops), max(hops)],
        }

    def is_forwarded(self, frame: Seen) -> bool:
        return frame.hops < frame.max_hops

    def own(self, address: str) -> dict:
        """The columns of `--own`: frames without a hop used, apart from retries, and the times between
        each two that follow each other."""
        frames = [frame for frame in self.frames if frame.address == address]
        sent = [frame for frame in frames if not self.is_forwarded(frame)]
        moments = [frame.moment for frame in sent if not frame.retry]
        steps = [max(after - before, 0) for before, after in zip(moments, moments[1:])]
        columns = {
            "own": len(moments),
            "forwarded": len(frames) - len(sent),
            "retries": len(sent) - len(moments),
        }
        if steps:
            columns |= {
                "own_least": min(steps),
                "own_mean": (max(moments) - min(moments)) // len(steps),
                "own_greatest": max(steps),
            }
        return columns

    def ports(self) -> list[dict]:
        frames: Counter = Counter()
        octets: Counter = Counter()
        for frame in self.frames:
            if frame.port is not None:
                frames[frame.port] += 1
                octets[frame.port] += self.octets_of(frame)
        return [{"port": p, "frames": frames[p], "octets": octets[p]} for p in sorted(frames)]

    def load(self) -> dict | None:
        if not self.frames:
            return None
        busy: Counter = Counter()
        for frame in self.frames:
            busy[frame.moment // 1000] += air_time(self.octets_of(frame))
        second = self.busiest(busy)
        within = [frame for frame in self.frames if frame.moment // 1000 == second]
        octets = sum(self.octets_of(frame) for frame in within)
        return {"second": second, "frames": len(within), "octets": octets, "busy": busy[second]}

    def all(self, most: int | None = None, own: bool = False) -> dict:
        sources = self.sources(most)
        if own:
            sources = [{**row, **self.own(row["address"])} for row in sources]
        tables = {
            "records": self.records(),
            "sources": sources,
            "ports": self.ports(),
            "load": self.load(),
        }
        if self.fault is not None:
            tables |= {"capture": self.fault[0], "record": self.fault[1]}
        return tables


SOURCE = "address frames octets first last mean greatest missing repeated hops".split()
OWN = SOURCE + "own forwarded retries own_least own_mean own_greatest".split()


def as_json(tables: dict) -> str:
    return json.dumps(tables, separators=(",", ":")) + "\n"


def as_text(tables: dict, columns: list[str] = SOURCE) -> str:
    """Four tables, of which that of the sources has these columns, and the line of a fault."""
    load = tables["load"]
    parts = [
        table(["kind", "records"], tables["records"].items()),
        table(
            columns,
            ([source_cell(row.get(key, "-")) for key in columns] for row in tables["sources"]),
        ),
        table(["port", "frames", "octets"], (row.values() for row in tables["ports"])),
        table(["second", "frames", "octets", "busy"], [load.values()] if load else []),
    ]
    text = "\n".join(parts)
    if "capture" in tables:
        text += f"capture: {tables['capture']} at record {tables['record']}\n"
    return text


def source_cell(value) -> str:
    return "-".join(map(str, value)) if isinstance(value, list) else str(value)


def table(heads: list[str], rows) -> str:
    """Columns as wide as their widest word and two spaces between them, the first to the left."""
    lines = [heads, *([str(cell) for cell in row] for row in rows)]
    wide = [max(len(line[place]) for line in lines) for place in range(len(heads))]
    text = ""
    for first, *rest in lines:
        cells = [first.ljust(wide[0]), *(c.rjust(w) for c, w in zip(rest, wide[1:]))]
        text += "  ".join(cells) + "\n"
    return text
