"""The capture of a station that obeys, made by `standard.packets`, which is written from the standard.
Its verdicts, and a replay against the station.
"""

from __future__ import annotations

import json
import subprocess
import sys
from dataclasses import replace
from pathlib import Path

from program import PROGRAM
from standard.packets import mid
from verdict_frames import (
    AWAY,
    CLAIMS,
    FAR,
    HOME,
    JUDGED,
    NEAR,
    OUTSIDE,
    STATION,
    Sent,
    beacon,
    gac,
    gbc,
    judge,
    records,
    relay,
    shb,
    write_pcap,
)

RATE, AGE = 1, 1000  # sequence numbers per second; ms
OBEYS = {"same": 7, "own": 7}  # the frames of `obeying`, by kinds of a replay


def obeying() -> dict[str, Sent]:
    """The frames of the capture, by name."""
    heard = [gbc(2000 + 1500 * n, NEAR, n) for n in range(6)]
    frames = {"first": beacon(0, NEAR), "beacon": beacon(3000, STATION), "shb": shb(4000, STATION)}
    frames |= {f"heard {n}": sent for n, sent in enumerate(heard)}
    frames |= {f"relay {n}": relay(sent, 2 + n) for n, sent in enumerate(heard)}
    frames |= {f"own {n}": gbc(11000 + 1000 * n, STATION, n) for n in range(4)}
    anycast = gac(16000, 20, AWAY)
    frames |= {"anycast": anycast, "anycast relay": relay(anycast, 3)}
    return frames | {"late beacon": beacon(18000, STATION), "last": beacon(20000, FAR)}


def changed(name: str, **values) -> dict[str, Sent]:
    """The frames, with other values of this one."""
    frames = obeying()
    return frames | {name: replace(frames[name], **values)}


def with_packet(name: str, **values) -> dict[str, Sent]:
    """The frames, with other values of the packet of this one."""
    return changed(name, packet=replace(obeying()[name].packet, **values))


def claims_on_station() -> str:
    """The claims on the station, which leave no doubt."""
    age = f"age = {AGE}\n"
    return CLAIMS.format(station=STATION, lon=HOME, mobile="false", age=age, rate=RATE)


def names_of(frames: dict[str, Sent]) -> list[str]:
    """The names of the frames, in the order of their records."""
    return [name for _, name, _ in records(frames)]


def judge_frames(folder: Path, frames: dict[str, Sent], status: tuple[int, ...]) -> list[dict]:
    """The verdicts on the station in a capture of these frames."""
    capture = folder / "faulty.pcap"
    write_pcap(capture, [(moment, frame) for moment, _, frame in records(frames)])
    return judge(folder, capture, claims_on_station(), status)[1:-1]


def check_obeying(folder: Path) -> list[dict]:
    """Judges the station. It fails no duty, and nothing is in doubt but what isn't judged yet. Returns
    the verdicts."""
    lines = judge_frames(folder, obeying(), (0,))
    wrong = [line for line in lines if line["result"] != "pass" and line["reason"] != OUTSIDE]
    if wrong or {line["duty"] for line in lines} != set(JUDGED):
        sys.exit(f"a station that obeys: {wrong or 'a duty has no verdict'}")
    return lines


def replay(capture: Path, address: int, place: tuple[int, int]) -> dict:
    """The last object of a replay against a station at a place, which has the counts."""
    command = [PROGRAM, "replay", "--json", str(capture), f"{address:016x}", *map(str, place)]
    command += ["--against", mid(address).hex(), "--within", "20"]
    done = subprocess.run(command, capture_output=True, text=True, timeout=600)
    if done.returncode or done.stderr:
        sys.exit(f"{' '.join(command)} ends with {done.returncode}: {done.stderr}")
    return json.loads(done.stdout.splitlines()[-1])


def check_kinds(folder: Path, what: str, more: dict[str, int]) -> None:
    """Replays the last capture that was judged. It has the kinds of `obeying`, and so many more."""
    total = replay(folder / "faulty.pcap", STATION, (481000000, 115000000))["total"]
    wanted = {kind: OBEYS.get(kind, 0) + more.get(kind, 0) for kind in total}
    if total != wanted or not more.keys() <= wanted.keys():
        sys.exit(f"a replay against {what}: expected {wanted}, got {total}")


def instead(*kinds: str) -> dict[str, int]:
    """A forwarded frame less that is the same, and one of each of these kinds."""
    return {"same": -1} | dict.fromkeys(kinds, 1)
