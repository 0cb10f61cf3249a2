"""A second opinion of the numbers of `geostation sim`, from the events of checks/lib/air.py.

    python3 checks/lib/run_numbers.py FOLDER SCENARIO.toml [MOVES.csv]

FOLDER has what the program wrote of the scenario: `sends`, `stations` and `load` (no such file
without an air), `missed` and `missed.json` (the summary with `--explain`, as lines and as JSON),
`errors` (what it wrote on standard error beside `missed`) and `status` (of these two runs). This prints each number that differs
from the one that is computed here, and ends with status 1 if one does.

    python3 checks/lib/run_numbers.py --self-test FOLDER SCENARIO.toml [MOVES.csv]

Also prints what the scenario has in it, and the names of the mistakes below that these files
refute, a line each: such a mistake was put into the computation on purpose, and its numbers differ
from the program's. `checks/air` looks whether over all scenarios each of these lines was printed.

    python3 checks/lib/run_numbers.py --names

Prints all such lines.
"""

from __future__ import annotations

import json
import re
import sys
import tomllib
from collections import Counter
from dataclasses import dataclass, field
from pathlib import Path

import air

REASONS = ["unheard", "cut", "lost", "ignored", "refused", "full", "outside", "closed"]
# Of no station and of no frame: such an event is no delivery.
NO_DELIVERY = ("refused M3", "refused M4")
HEADS = {
    "sends": "send,moment,station,kind,port,inside,reached,delivered,frames,heard,lost,duplicates,"
    "full,hops,first,p50,p95,last",
    "stations": "station,id,address,from,to,away,sent,relayed,octets,heard,delivered,duplicates,"
    "ignored,refused,full,lost,busy,busiest",
    "load": "second,stations,frames,octets,busy_p50,busy_p95,busy_most,peak",
}
# Two more columns of a run in which any station contends.
MORE = {"sends": ",held,cancelled", "stations": ",held,cancelled", "load": ""}


def frame_octets(packet: air.Packet) -> int:
    """Ethernet (14), basic and common header (12), the header of the kind, BTP (4), the payload."""
    extended = {"beacon": 24, "shb": 28, "gbc": 44, "gac": 44}[packet.kind]
    message = 0 if packet.message is None else 4 + len(packet.message.payload)
    return 14 + 12 + extended + message


def air_time(octets: int) -> int:
    """Microseconds of a frame at 6 Mbit/s in a channel of 10 MHz (IEEE 802.11): a preamble and
    signal field of 40, then symbols of 48 bits in 8 each: 16 service bits, the frame with 38 octets
    of its own headers in place of Ethernet's 14, and 6 tail bits."""
    bits = 16 + 8 * (octets - 14 + 38) + 6
    return 40 + 8 * -(-bits // 48)


@dataclass
class Happened:
    """An event or a note of a run, with what the numbers need of the world after it."""

    word: str
    moment: int
    station: int | None
    number: int = 0
    do: str = ""
    entry: str = ""
    is_handed: bool = False
    # The frame that was given, delivered, heard or lost, and the octets of one that was given or
    # released.
    gave: int | None = None
    # Whether that is held, and which frames are cancelled.
    is_held: bool = False
    cancels: list[int] = field(default_factory=list)
    frame: int | None = None
    octets: int = 0
    # Whether the station is inside the area of the packet that was delivered.
    is_inside: bool = False
    port: int = 0
    audience: list[int] = field(default_factory=list)


@dataclass
class Run:
    """What happened in a run, and its stations: id, address, capacity, present at the start."""

    is_air: bool
    has_contention: bool = False
    happened: list[Happened] = field(default_factory=list)
    stations: list[tuple[str, int, int, bool]] = field(default_factory=list)
    is_whole: bool = True
    # A frame for each of its deliveries that the end of the run cut off.
    undelivered: list[int] = field(default_factory=list)
    expected: list[dict] = field(default_factory=list)

    def add_station(self, station: air.Station, ident: str, is_present: bool) -> None:
        self.stations.append((ident, station.vector.address, station.table.capacity, is_present))


def run_scenario(scenario: dict, moves: bytes | None) -> Run | None:
    """The run of a scenario; None where the first line of its moves is bad."""
    try:
        world = air.World(scenario, moves)
    except air.BadRow:
        return None
    expected = scenario.get("expect", [])
    run = Run(world.air is not None, world.has_contention, expected=expected)
    for number, station in enumerate(world.stations):
        run.add_station(station, "", number in world.present)
    count = 0
    try:
        for step in world.run():
            if isinstance(step, air.Done):
                run.happened.append(of_event(world, step, count))
                count += 1
            elif isinstance(step, air.Hidden) and step.made is not None:
                run.add_station(world.stations[step.station], step.made, False)
                run.happened.append(Happened("made", step.moment, step.station))
            elif isinstance(step, air.Hidden):
                run.happened.append(Happened("heard", step.moment, step.station, frame=step.heard))
            else:
                run.happened.append(of_note(world, step))
    except air.BadRow:
        run.is_whole = False
    run.undelivered = world.undelivered
    return run


def of_note(world: air.World, note: air.Note) -> Happened:
    word, *what = note.words.split(" ", 1)
    station = note.station if isinstance(note.station, int) else None
    one = Happened(word, note.moment, station)
    if word in ("lost", "released", "dropped"):
        one.frame = int(what[0])
        one.octets = frame_octets(world.frames[one.frame].packet)
    return one


def of_event(world: air.World, done: air.Done, number: int) -> Happened:
    event, entry = done
    one = Happened("event", event["at"], event["station"], number, event["do"], entry.word)
    one.is_handed = entry.handed is not None
    if entry.frame is not None:
        one.gave, one.octets = len(world.frames) - 1, frame_octets(entry.frame.packet)
    one.is_held, one.cancels = entry.until is not None, entry.cancels
    if one.do == "deliver" and entry.word not in NO_DELIVERY:
        one.frame = event["frame"]
        area = world.frames[one.frame].packet.area
        own = world.stations[one.station].vector.place
        one.is_inside = area is None or area.holds(own)
    if one.do in ("gbc", "gac") and one.gave is not None:
        one.port = event["port"]
        area = air.read_area(event, world.stations[one.station].vector.place)
        one.audience = air.audience(world, one.station, one.port, area)
    return one


@dataclass
class Send:
    """A geobroadcast or geoanycast, and the outcomes of its frames."""

    event: Happened
    frames: int = 1
    counts: Counter = field(default_factory=Counter)
    hops: int = 0
    # Milliseconds from the send to the first delivery at each station.
    firsts: dict[int, int] = field(default_factory=dict)
    # How far it came at each station of its audience.
    furthest: dict[int, str] = field(default_factory=dict)
    # How many of its deliveries the end of the run cut off.
    cut: int = 0

    def came(self, station: int, reason: str) -> None:
        known = self.furthest.get(station, "unheard")
        self.furthest[station] = max(known, reason, key=REASONS.index)

    def missed(self) -> list[list]:
        rest = [n for n in self.event.audience if n not in self.firsts]
        nowhere = "cut" if self.cut else "unheard"
        return [[n, self.furthest.get(n, nowhere)] for n in rest]


class Numbers:
    """The numbers of a run. What a mistake below may turn is a method of its own."""

    def __init__(self, run: Run):
        self.run = run

    # ---- definitions

    def place_of(self, hundredths: int, count: int) -> int:
        """The place, from 1, of a quantile among so many numbers."""
        return -(-hundredths * count // 100)

    def reason(self, one: Happened) -> str:
        """How far a delivery that handed nothing out came."""
        if one.entry == "accepted":
            return "closed" if one.is_inside else "outside"
        if one.entry == "refused S4":
            return "full"
        return one.entry.split()[0]

    def send_count(self, entry: str) -> list[str]:
        """The columns of `--sends` that a delivery counts in."""
        named = {"ignored duplicate": "duplicates", "refused S4": "full"}
        return ["heard", named[entry]] if entry in named else ["heard"]

    def station_count(self, one: Happened) -> list[str]:
        """The columns of `--stations` that an event counts in."""
        names = []
        if one.is_held:
            names.append("held")
        elif one.gave is not None:
            names.append("relayed" if one.do == "deliver" else "sent")
        if one.do == "deliver" and one.entry not in NO_DELIVERY:
            names.append("heard")
        if one.is_handed:
            names.append("delivered")
        if one.entry == "ignored duplicate":
            names.append("duplicates")
        elif one.entry.startswith("ignored"):
            names.append("ignored")
        elif one.entry.startswith("refused"):
            names.append("refused")
        if one.entry == "refused S4":
            names.append("full")
        return names

    def kind(self, do: str) -> str:
        return do

    def absences(self, gaps: list[int]) -> int:
        return sum(gaps)

    def end(self) -> int:
        """The moment of the last event or note."""
        return max((one.moment for one in self.run.happened), default=0)

    def least(self, capacities: list[int]) -> int:
        return min(capacities)

    def keeps_busy(self, one: Happened) -> bool:
        """Whether a frame in the hearing of a station keeps its channel busy."""
        return True

    def interval(self, moment: int) -> int:
        return moment // 100

    def is_counted(self, spans: list[list], end: int) -> bool:
        """Whether a station is present just before a moment."""
        return any(came < end and (left is None or left >= end) for came, left in spans)

    def reached(self, send: Send) -> int:
        return sum(station in send.firsts for station in send.event.audience)

    def depth(self, hops: int) -> int:
        """The hops of a handing that so many relays led to."""
        return hops + 1

    def cut_off(self) -> int:
        """How much a delivery counts that the end of the run cut off."""
        return 1

    def is_kept(self, one: Happened) -> bool:
        """Whether the frame that an event gave doesn't go out with it."""
        return one.is_held

    def released(self) -> int:
        """How much a frame counts that was held and goes out."""
        return 1

    # ---- rows

    def goes_out(self, one: Happened) -> bool:
        """Whether a frame goes out with an event or a note."""
        is_event = one.word == "event" and one.gave is not None and not self.is_kept(one)
        return is_event or one.word == "released"

    def more(self) -> list[str]:
        """The columns that a run has in which any station contends."""
        return ["held", "cancelled"] if self.run.has_contention else []

    def quantile(self, numbers: list[int], hundredths: int) -> int:
        place = self.place_of(hundredths, len(numbers))
        return sorted(numbers)[place - 1] if numbers else 0

    def spread(self, numbers: list[int]) -> list[int]:
        return [self.quantile(numbers, 50), self.quantile(numbers, 95), max(numbers, default=0)]

    def sends(self) -> list[Send]:
        sends: list[Send] = []
        # Of each frame of a packet for an area that packet, and how many relays led to it.
        carried: dict[int, tuple[Send, int]] = {}
        for one in self.run.happened:
            if one.word == "lost" and one.frame in carried:
                send, _ = carried[one.frame]
                send.counts["lost"] += 1
                send.came(one.station, "lost")
            if one.word == "released" and one.frame in carried:
                carried[one.frame][0].frames += self.released()
            for frame in one.cancels:
                carried[frame][0].counts["cancelled"] += 1
            if one.word != "event":
                continue
            if one.do in ("gbc", "gac") and one.gave is not None:
                sends.append(Send(one))
                carried[one.gave] = sends[-1], 0
            elif one.frame in carried:
                send, relays = carried[one.frame]
                send.counts.update(self.send_count(one.entry))
                if one.is_handed:
                    send.hops = max(send.hops, self.depth(relays))
                    send.firsts.setdefault(one.station, one.moment - send.event.moment)
                else:
                    send.came(one.station, self.reason(one))
                if one.gave is not None:
                    send.frames += not self.is_kept(one)
                    send.counts["held"] += one.is_held
                    carried[one.gave] = send, relays + 1
        for frame in self.run.undelivered:
            if frame in carried:
                carried[frame][0].cut += self.cut_off()
        return sends

    def send_rows(self) -> list[list]:
        rows = []
        for send in self.sends():
            one, times = send.event, list(send.firsts.values())
            counts = [send.counts[name] for name in ("heard", "lost", "duplicates", "full")]
            more = [send.counts[name] for name in self.more()]
            rows.append([
                one.number, one.moment, one.station, self.kind(one.do), one.port,
                len(one.audience), self.reached(send), len(times), send.frames, *counts,
                send.hops, min(times, default=0), *self.spread(times), *more,
            ])  # fmt: skip
        return rows

    def spans(self) -> list[list[list]]:
        """Of each station when it came and left, each time; None where it is still there."""
        spans: list[list[list]] = [[[0, None]] if s[3] else [] for s in self.run.stations]
        for one in self.run.happened:
            if one.word == "came":
                spans[one.station].append([one.moment, None])
            elif one.word == "left":
                spans[one.station][-1][1] = one.moment
        return spans

    def busy(self) -> list[tuple[int, int, int]]:
        """Each moment at which a frame keeps the channel busy at a station, and its air time."""
        times, busy = {}, []
        for one in self.run.happened:
            if one.word == "event" and one.gave is not None:
                times[one.gave] = air_time(one.octets)
            if self.goes_out(one):
                busy.append((one.station, one.moment, air_time(one.octets)))
            elif one.word in ("heard", "lost") and self.keeps_busy(one):
                busy.append((one.station, one.moment, times[one.frame]))
        return busy

    def station_rows(self) -> list[list]:
        counts = [Counter() for _ in self.run.stations]
        for one in self.run.happened:
            if one.word == "event" and one.entry != "refused M4":
                counts[one.station].update(self.station_count(one))
                counts[one.station]["cancelled"] += len(one.cancels)
            if self.goes_out(one):
                counts[one.station]["octets"] += one.octets
            if one.word == "released":
                counts[one.station]["relayed"] += 1
            if one.word == "lost":
                counts[one.station]["lost"] += 1
        intervals = [Counter() for _ in self.run.stations]
        for station, moment, time in self.busy():
            counts[station]["busy"] += time
            intervals[station][self.interval(moment)] += time
        names = HEADS["stations"].split(",")[6:-1]
        rows = []
        for number, (ident, address, _, _) in enumerate(self.run.stations):
            row = [counts[number][name] for name in names]
            row.append(max(intervals[number].values(), default=0))
            row += [counts[number][name] for name in self.more()]
            times = self.times(self.spans()[number])
            rows.append([number, quoted(ident), f"{address:016x}", *times, *row])
        return rows

    def times(self, spans: list[list]) -> list:
        """`from`, `to` and `away` of a station."""
        if not spans:
            return ["", "", 0]
        last = spans[-1][1]
        gaps = [after[0] - before[1] for before, after in zip(spans, spans[1:])]
        return [spans[0][0], self.end() if last is None else last, self.absences(gaps)]

    def load_rows(self) -> list[list]:
        given: dict[int, list[int]] = {}
        for one in self.run.happened:
            if self.goes_out(one):
                given.setdefault(one.moment // 1000, []).append(one.octets)
        busy: Counter = Counter()
        dense: dict[int, Counter] = {}
        for station, moment, time in self.busy():
            busy[station, moment // 1000] += time
            dense.setdefault(moment // 1000, Counter())[station, moment // 100] += time
        spans, rows = self.spans(), []
        for second, octets in sorted(given.items()):
            end = 1000 * (second + 1)
            present = [n for n, span in enumerate(spans) if self.is_counted(span, end)]
            loads = [busy[n, second] // 1000 for n in present]
            peak = max(dense[second].values()) // 1000
            rows.append([second, len(present), len(octets), sum(octets), *self.spread(loads), peak])
        return rows

    def full_tables(self) -> list[int]:
        """How many receptions met a full table, and the least capacity of one."""
        full = [one.station for one in self.run.happened if one.entry == "refused S4"]
        if not full or not self.run.is_air:
            return []
        return [len(full), self.least([self.run.stations[station][2] for station in full])]

    def is_met(self, keys: dict) -> bool:
        """Whether a run does what is expected of it."""
        sends = self.sends()
        if keys["send"] >= len(sends):
            return False
        send = sends[keys["send"]]
        limit = keys.get("within", float("inf"))
        took = [send.firsts[n] for n in send.event.audience if n in send.firsts]
        reached = sum(time <= limit for time in took)
        wanted = len(send.event.audience) if keys["reached"] == "all" else keys["reached"]
        return reached >= wanted

    def status(self) -> int:
        """The status of the run."""
        return int(not self.run.is_whole or not all(map(self.is_met, self.run.expected)))

    def all(self) -> dict[str, list]:
        numbers = {
            "status": [self.status(), self.status()],
            "missed": [send.missed() for send in self.sends()],
            "full tables": self.full_tables(),
            "cut off": [send.cut for send in self.sends() if send.cut],
        }
        if self.run.is_air:
            numbers["sends"] = self.send_rows()
            numbers["stations"] = self.station_rows()
            numbers["load"] = self.load_rows()
        return numbers


def quoted(ident: str) -> str:
    return '"' + ident.replace('"', '""') + '"' if "," in ident or '"' in ident else ident


# ---- mistakes, each of which some scenario refutes


class RefusedCountedAsIgnored(Numbers):
    def station_count(self, one):
        return ["ignored" if name == "refused" else name for name in super().station_count(one)]


class FullCountedAsLost(Numbers):
    def send_count(self, entry):
        return ["lost" if name == "full" else name for name in super().send_count(entry)]


class IgnoredTakenForUnheard(Numbers):
    def reason(self, one):
        reason = super().reason(one)
        return "unheard" if reason == "ignored" else reason


class ClosedTakenForOutside(Numbers):
    def reason(self, one):
        reason = super().reason(one)
        return "outside" if reason == "closed" else reason


class OutsideTakenForClosed(Numbers):
    def reason(self, one):
        reason = super().reason(one)
        return "closed" if reason == "outside" else reason


class RefusedTakenForFull(Numbers):
    def reason(self, one):
        reason = super().reason(one)
        return "full" if reason == "refused" else reason


class AbsenceNotCounted(Numbers):
    def absences(self, gaps):
        return 0


class LastAbsenceAlone(Numbers):
    def absences(self, gaps):
        return gaps[-1] if gaps else 0


class QuantileOneTooLow(Numbers):
    def place_of(self, hundredths, count):
        return max(hundredths * count // 100, 1)


class GeoanycastSaysGbc(Numbers):
    def kind(self, do):
        return "gbc"


class LastCapacityForTheLeast(Numbers):
    def least(self, capacities):
        return capacities[-1]


class EndWithoutTheLastNote(Numbers):
    def end(self):
        events = (one.moment for one in self.run.happened if one.word == "event")
        return max(events, default=0)


class MissingFrameHeard(Numbers):
    def station_count(self, one):
        names = super().station_count(one)
        return [*names, "heard"] if one.entry == "refused M3" else names


class LostFramesKeepNothingBusy(Numbers):
    def keeps_busy(self, one):
        return one.word == "heard"


class BusiestOfSeconds(Numbers):
    def interval(self, moment):
        return moment // 1000


class AbsentStationsLoaded(Numbers):
    def is_counted(self, spans, end):
        return any(came < end for came, _ in spans)


class ReachedBesideTheAudience(Numbers):
    def reached(self, send):
        return len(send.firsts)


class ExpectationsIgnored(Numbers):
    def is_met(self, keys):
        return True


class HopsFromNone(Numbers):
    def depth(self, hops):
        return hops


class HeldFramesSentAtOnce(Numbers):
    def is_kept(self, one):
        return False


class ReleasedFramesNotCounted(Numbers):
    def released(self):
        return 0


class CutOffTakenForUnheard(Numbers):
    def cut_off(self):
        return 0


MISTAKES = Numbers.__subclasses__()


# ---- comparison


def read_rows(folder: Path, name: str, has_contention: bool) -> list[list[str]] | None:
    """The rows of a file that the program wrote, without those of warnings that were not sent. None
    if the file isn't there or has another head."""
    file = folder / name
    if not file.exists():
        return None
    head, *lines = file.read_text().split("\n")
    rows = [line.split(",") for line in lines[:-1] if not line.startswith(",")]
    return rows if head == HEADS[name] + MORE[name] * has_contention else None


def read_missed(text: str) -> list[list]:
    """What each line of a summary says in its parentheses."""
    missed = []
    for line in text.splitlines():
        if line.startswith("send "):
            found = re.search(r" \(missed: (.*)\)$", line)
            pairs = found[1].split(", ") if found else []
            missed.append([[int(pair.split()[0]), pair.split()[1]] for pair in pairs])
    return missed


def read_full(errors: str) -> list[int]:
    found = re.search(r"(\d+) receptions met a full location table.*\(least (\d+)\)", errors)
    return [int(found[1]), int(found[2])] if found else []


def read_cut_off(objects: list[dict]) -> list[int]:
    """How many deliveries of each warning were not run, in order. Standard error names the first 20
    doubts, the total all of them."""
    doubts = [doubt for keys in objects for doubt in keys.get("total", {}).get("doubts", [])]
    cut = [doubt["reason"] for doubt in doubts if doubt["doubt"] == "cut-off"]
    return [int(re.search(r"(\d+) deliver", reason)[1]) for reason in cut]


def read_written(folder: Path, has_contention: bool) -> dict[str, list]:
    """The numbers that the program wrote."""
    objects = [json.loads(line) for line in (folder / "missed.json").read_text().splitlines()]
    written = {
        "status": [int(line) for line in (folder / "status").read_text().split()],
        "missed": read_missed((folder / "missed").read_text()),
        "missed.json": [keys["missed"] for keys in objects if "send" in keys],
        "full tables": read_full((folder / "errors").read_text()),
        "cut off": read_cut_off(objects),
        "table_full": [keys["total"].get("table_full", 0) for keys in objects if "total" in keys],
    }
    for name in HEADS:
        written[name] = read_rows(folder, name, has_contention)
    return written


def differences(numbers: dict[str, list], written: dict[str, list], is_whole: bool) -> list[str]:
    """A line for each number that isn't what the program wrote."""
    wanted = {**numbers, "missed.json": numbers["missed"]}
    if not is_whole:
        del wanted["cut off"]
    if is_whole:
        wanted["table_full"] = [numbers["full tables"][0] if numbers["full tables"] else 0]
    lines = []
    for name, rows in wanted.items():
        if name in HEADS:
            rows = [[str(cell) for cell in ",".join(map(str, row)).split(",")] for row in rows]
        if rows != written[name]:
            pairs = zip(rows, written[name] or [])
            first = next((pair for pair in pairs if pair[0] != pair[1]), (rows, written[name]))
            lines.append(f"{name}: {first[0]} is computed, {first[1]} was written")
    return lines


def features(run: Run, numbers: dict[str, list]) -> set[str]:
    """What a scenario has in it."""
    seen = {reason for missed in numbers["missed"] for _, reason in missed}
    if any(len(span) > 2 for span in Numbers(run).spans()):
        seen.add("absent and back twice")
    if any(len(send.firsts) >= 20 for send in Numbers(run).sends()):
        seen.add("20 receivers")
    full = {one.station for one in run.happened if one.entry == "refused S4"}
    if run.is_air and len({run.stations[station][2] for station in full}) > 1:
        seen.add("full tables of two capacities")
    return seen


FEATURES = [*REASONS, "absent and back twice", "20 receivers", "full tables of two capacities"]


def main(arguments: list[str]) -> int:
    if arguments == ["--names"]:
        print(*[mistake.__name__ for mistake in MISTAKES], *FEATURES, sep="\n")
        return 0
    is_tested = arguments[0] == "--self-test"
    folder, scenario, *moves = arguments[is_tested:]
    with open(scenario, "rb") as file:
        run = run_scenario(tomllib.load(file), Path(moves[0]).read_bytes() if moves else None)
    written = read_written(Path(folder), run is not None and run.has_contention)
    if run is None:
        return int(written.pop("status") != [1, 1] or any(rows for rows in written.values()))
    right = Numbers(run).all()
    lines = differences(right, written, run.is_whole)
    if lines:
        print(*lines, sep="\n")
        return 1
    if is_tested:
        print(*sorted(features(run, right)), sep="\n")
        for mistake in MISTAKES:
            if differences(mistake(run).all(), written, run.is_whole):
                print(mistake.__name__)
    return 0


if __name__ == "__main__":
    sys.exit(main(sys.argv[1:]))
