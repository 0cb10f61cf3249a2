"""Runs of `geostation sim`, in which each station is judged on the frames of the others.

Its stations obey. So with losses none may fail. And on a wire, of which all claims are true, nothing is
in doubt but what the first duties don't ask (`EXCEPTED`) and a beacon within a millisecond of its bound.
"""

from __future__ import annotations

import random
import re
import subprocess
import sys
from collections import Counter
from pathlib import Path

from obeying import replay
from program import PROGRAM
from verdict_frames import AROUND, CLAIMS, HOME, JUDGED, OUTSIDE, judge

MOST_LOSS = 80  # %
UNTIL = 40_000  # ms
NORTH, AWAY = 481000000, 482000000
INTERVAL, NEARLY = 3_000, 3  # of beacons, and the ms by which that isn't sure: Q + 2K
EXCEPTED = {OUTSIDE}
NUMBERS = re.compile(r"^(\d+) ms after #\d+$")


def head(seed: int, loss: int, delay: int, reach: int, beacons: bool = True) -> str:
    text = f"[air]\nrange = {reach}\ndelay = {delay}\nloss = {loss}\nseed = {seed}\n"
    return text + f"beacons = {str(beacons).lower()}\nuntil = {UNTIL}\n"


def stations(longitudes: dict[int, int]) -> str:
    return "".join(
        f'[[station]]\naddress = "{address:016x}"\nlat = {NORTH}\nlon = {lon}\n'
        for address, lon in longitudes.items()
    )


def event(draw: random.Random, at: int, kind: str, count: int, area: str = "") -> str:
    """What one of so many stations sends."""
    text = f'[[event]]\nstation = {draw.randrange(count)}\nat = {at}\ndo = "{kind}"\n'
    text += f'port = 2002\ninfo = 0\ntc = 0\npayload = "{draw.randrange(1 << 16):04x}"\n'
    if kind != "shb":
        text += f"lt = 26\nhops = {draw.randrange(1, 11)}\n{area}"
    return text


def circle(lat: int, lon: int, radius: int) -> str:
    return f'shape = "circle"\nalat = {lat}\nalon = {lon}\na = {radius}\nb = 0\nangle = 0\n'


def drawn_longitudes(draw: random.Random, least: int = 4) -> dict[int, int]:
    """Where the stations of a run are, by their addresses."""
    return {
        0x1400_0200_0000_0001 + n: HOME + 60000 * n + draw.randrange(20000)
        for n in range(draw.randrange(least, 9))
    }


def scenario(seed: int, draw: random.Random, longitudes: dict[int, int]) -> str:
    """A scenario whose stations, at these longitudes, receive from each other with losses."""
    text = head(seed, draw.randrange(MOST_LOSS + 1), draw.randrange(1, 6), 600) + stations(longitudes)
    events = []
    for _ in range(25):
        at = draw.randrange(1, 39) * 1000 + draw.randrange(1000)
        lon = HOME + 60000 * draw.randrange(len(longitudes))
        area = circle(NORTH, lon, draw.randrange(200, 3000))
        kind = draw.choice(["gbc", "gbc", "gac", "shb"])
        events.append((at, event(draw, at, kind, len(longitudes), area)))
    return text + "".join(text for _, text in sorted(events))


def wire(seed: int, draw: random.Random, longitudes: dict[int, int]) -> str:
    """A scenario on a wire: each frame reaches all, at once or after 1 ms, and what is sent is farther
    apart than any doubt on when a station did it. All are inside each area of a GBC."""
    text = head(seed, 0, draw.randrange(2), 60000, draw.random() < 0.7) + stations(longitudes)
    at, count = 1000, len(longitudes)
    text += event(draw, at, "shb", count)
    while at < UNTIL - 2000:
        at += 2 * AROUND + 1 + draw.randrange(3000)
        kind = draw.choice(["gbc", "gbc", "gbc", "gac", "shb"])
        lat = AWAY if kind == "gac" and draw.random() < 0.7 else NORTH
        text += event(draw, at, kind, count, circle(lat, HOME + 120000, 4000))
    for at in UNTIL - 200, UNTIL - 100:
        text += event(draw, at, "shb", count)
    return text


def run(folder: Path, text: str) -> Path:
    """The frames of all stations of a run."""
    path, capture = folder / "run.toml", folder / "run.pcapng"
    path.write_text(text)
    command = [PROGRAM, "sim", "--summary", "--frames", str(capture), str(path)]
    subprocess.run(command, check=True, capture_output=True, timeout=600)
    return capture


def claims_on(address: int, lon: int, **values: str) -> str:
    """The claims on a station of a run, with these values."""
    text = CLAIMS.format(station=address, lon=lon, mobile="true", age="", rate=100)
    for key, value in values.items():
        text = text.replace(f"{key} = true", f"{key} = {value}")
    return text


class Passes:
    """How many passes each duty has, and how many verdicts and stations there are."""

    def __init__(self) -> None:
        self.stations = self.verdicts = 0
        self.duties = dict.fromkeys(JUDGED, 0)

    def add(self, lines: list[dict], total: dict) -> None:
        """Adds the verdicts on a station, of which the last object has the counts."""
        self.stations, self.verdicts = self.stations + 1, self.verdicts + len(lines)
        counts = Counter((line["duty"], line["result"]) for line in lines)
        table = total["total"].items()
        summed = {(duty, it): n for duty, results in table for it, n in results.items() if n}
        if summed != dict(counts):
            sys.exit(f"the table {summed} of verdicts {dict(counts)}")
        for duty in JUDGED:
            self.duties[duty] += counts[duty, "pass"]

    def check(self, what: str) -> None:
        for duty, passed in self.duties.items():
            if not passed:
                sys.exit(f"no {what} has a pass of {duty}")


def check_runs(folder: Path, count: int) -> Passes:
    """Judges each station of COUNT runs with losses."""
    passes = Passes()
    for seed in range(1, count + 1):
        draw = random.Random(seed)
        longitudes = drawn_longitudes(draw)
        capture = run(folder, scenario(seed, draw, longitudes))
        for address, lon in longitudes.items():
            claims = claims_on(address, lon, delivered="false")
            _, *lines, total = judge(folder, capture, claims, (0, 1))
            fails = [line for line in lines if line["result"] == "fail"]
            if fails:
                sys.exit(f"seed {seed}, station {address:016x}: {fails[0]}")
            passes.add(lines, total)
    passes.check("run")
    return passes


def is_excepted(line: dict) -> bool:
    """Whether it may be inconclusive on a wire: what isn't judged yet, or a beacon at its bound."""
    after = NUMBERS.match(line["reason"])
    is_bound = after is not None and abs(int(after[1]) - INTERVAL) <= NEARLY
    return line["reason"] in EXCEPTED or (line["duty"] == "D10" and is_bound)


def check_wires(folder: Path, count: int) -> Passes:
    """Judges each station of COUNT runs on wires. Nothing is in doubt."""
    passes = Passes()
    for seed in range(1, count + 1):
        draw = random.Random(seed)
        longitudes = drawn_longitudes(draw, 2)
        capture = run(folder, wire(seed, draw, longitudes))
        for address, lon in longitudes.items():
            claims = claims_on(address, lon).replace("steady", "gapless = true\nsteady")
            claims = claims.replace("mobile", "accuracy = 0\ntolerance = 0\nmobile")
            _, *lines, total = judge(folder, capture, claims, (0, 1))
            wrong = [x for x in lines if x["result"] != "pass" and not is_excepted(x)]
            if wrong:
                sys.exit(f"seed {seed}, station {address:016x} on a wire: {wrong[0]}")
            passes.add(lines, total)
    passes.check("wire")
    return passes


def check_whole_runs(folder: Path, count: int) -> int:
    """Replays against each station of COUNT runs without losses. None may differ. Returns how many
    frames they forwarded."""
    forwarded = 0
    for seed in range(1, count + 1):
        draw = random.Random(seed)
        longitudes = drawn_longitudes(draw)
        text = re.sub(r"loss = \d+", "loss = 0", scenario(seed, draw, longitudes))
        capture = run(folder, text.replace("range = 600", "range = 60000"))
        for address, longitude in longitudes.items():
            judge(folder, capture, claims_on(address, longitude), (0,))
            end = replay(capture, address, (NORTH, longitude))
            if end["differing"]:
                sys.exit(f"seed {seed}, a replay against {address:016x}: {end}")
            forwarded += end["total"]["same"]
    return forwarded
