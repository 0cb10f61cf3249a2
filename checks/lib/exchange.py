"""An hour of drawn traffic on one wire, between the daemon and a station that is not ours.

    exchange.py DAEMON MINUTES

The station is `standard`, which is written from the standard's clauses. It says what the daemon
should send, deliver and ignore, and the library says that of the station. The minutes are of the
daemon's clock, which is set before each event. Two runs with one seed differ a little, since the
daemon chooses the jitter of its beacons. Each fault of `standard.faults` has to be seen: in a
station that the library judges, and in one that judges the daemon.
"""

import os
import random
import sys
import tempfile
import time
from pathlib import Path

TOP = Path(__file__).resolve().parents[2]
sys.path[1:1] = [str(TOP / "c/link/test"), str(TOP / "python")]

from common import PROGRAM, Clock
from net import Net
from standard import dissected
from standard.daemon import UnderTest
from standard.faults import FAULTS
from standard.judged import Judged
from standard.station import Station
from standard.traffic import Traffic
from standard.wire import Wire

MINUTE = 60_000  # ms
SEED = int(os.environ.get("EXCHANGE_SEED", "1"))
CAPACITY, REMEMBER = 16, 8
DAEMON, OTHER = 0x3C00_0200_0000_0100, 0x1400_0200_0000_0200
TAI = 5_000 - 1_072_915_200_000  # ms from 1970 in UTC to 2004 in TAI
SHOWN = 10  # differences
DISSECTED = 300  # frames
# Of how many frames at least each hour has some, so that a run which tests nothing fails.
LEAST = {"forwarded": 500, "delivered": 100, "beacons": 200}


def degrees(place):
    return ",".join(f"{part / 1e7:.7f}" for part in place)


def options(place):
    """A station without limits, with the numbers of the standard (PROFILE.md)."""
    return ["--station-type", 15, "--position", degrees(place), "--first-number", 0]


def of_standard(address, place, kind=Station, **more):
    return kind(address, place, capacity=CAPACITY, remember=REMEMBER, **more)


def faulty_judges(place):
    return {name: of_standard(DAEMON, place, kind, mobile=False) for name, kind in FAULTS.items()}


def under_test(net, clock, now, place):
    """The daemon on the wire, and the stations that judge it."""
    daemon = net.station(
        0,
        *options(place),
        *("--capacity", CAPACITY, "--remember", REMEMBER, "--forward-spread", 0),
        place=(),
        environment=clock.environment,
    )
    station = of_standard(DAEMON, place, mobile=False)
    party = UnderTest(daemon, net.ends()[0], clock, now, station, faulty_judges(place))
    for judge in (station, *party.faulty.values()):
        judge.quiet_from = now
    return party


def exchange(room, length):
    """The hour. Returns the two parties and the wire."""
    clock = Clock(room, at=int(time.time() * 1000) - length - 60 * MINUTE)
    now = clock.at + TAI
    traffic = Traffic(SEED, (DAEMON, OTHER), now)
    with Net(PROGRAM, 1) as net:
        daemon = under_test(net, clock, now, traffic.places[0])
        other = Judged(of_standard(OTHER, traffic.places[1]), random.Random(SEED))
        wire = Wire(traffic, [daemon, other])
        wire.run(length)
        status, _, said = daemon.daemon.end()
        assert status == 0, said
    return daemon, other, wire


def is_seen(kind, length):
    """Whether the library finds a mistake in a station, and after how many frames."""
    traffic = Traffic(SEED, (DAEMON, OTHER), 10**12)
    party = Judged(of_standard(DAEMON, traffic.places[0], kind), random.Random(SEED))
    wire = Wire(traffic, [party])
    for event in traffic.events(length):
        wire.do(event)
        if party.differences:
            return party.counts["received"] + 1
    return 0


def show(name, differences):
    for difference in differences[:SHOWN]:
        print(f"{name}: {difference}")
    if len(differences) > SHOWN:
        print(f"{name}: {len(differences) - SHOWN} more differences")


def unseen(daemon, length):
    """The faults that nobody saw, and the most frames that one took."""
    missing = [f"{name}: not in the daemon's judge" for name in daemon.faulty]
    most = max(daemon.found.values(), default=0)
    for name, kind in FAULTS.items():
        frames = is_seen(kind, length)
        most = max(most, frames)
        missing += [] if frames else [f"{name}: not in the station"]
    return missing, most


def compare_with_wireshark(room):
    """Frames of drawn traffic, before they are received. Returns what is wrong, and a text."""
    traffic = Traffic(SEED, (DAEMON, OTHER), 10**12)
    frames = [traffic.frame() for _ in range(DISSECTED)]
    wrong = dissected.differences(frames, Path(room) / "frames.pcap")
    if wrong is None:
        return [], "tshark isn't installed: no frame was dissected"
    return wrong, f"{DISSECTED} frames read as by Wireshark"


def too_few(party, name, hours):
    wanted = {key: round(least * hours) for key, least in LEAST.items()}
    return [
        f"{name}: only {party.counts[key]} {key}, not {least}"
        for key, least in wanted.items()
        if party.counts[key] < least
    ]


def main():
    length = int(sys.argv[2]) * MINUTE
    with tempfile.TemporaryDirectory() as room:
        wrong, text = compare_with_wireshark(room)
        daemon, other, wire = exchange(room, length)
    show("the daemon", daemon.differences)
    show("the other station", other.differences)
    wrong += [f"{len(p.differences)} differences" for p in (daemon, other) if p.differences]
    hours = length / (60 * MINUTE)
    wrong += too_few(daemon, "the daemon", hours) + too_few(other, "the other station", hours)
    missing, most = unseen(daemon, length)
    for line in wrong + missing:
        print(line)
    n = daemon.counts
    print(
        f"{sys.argv[2]} minutes of drawn traffic, seed {SEED}: {n['received']} frames at the daemon,"
        f" {wire.counts['malformed']} of them malformed, {n['delivered']} delivered,"
        f" {n['forwarded']} forwarded, {n['sent'] + n['beacons']} own;"
        f" {other.counts['received']} at the other station; {wire.counts['unsure']} left out;"
        f" {len(FAULTS)} faults seen twice each, after at most {most} frames; {text}"
    )
    return 1 if wrong or missing else 0


if __name__ == "__main__":
    sys.exit(main())
