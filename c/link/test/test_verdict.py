"""`geostation verdict` on the wire of a station that has limits or contends: no fail by claims that are
true, and fails by a claim that is not."""

import json
import os
import subprocess
import tempfile
import time
from collections import Counter

import frames
from air import Air
from common import GEOSTATION, PROGRAM, has, notes, write
from frames import GBC
from net import NO_LIMITS, PATIENCE, Net
from tap import Tap
from test_contention import CONTENDS, NORTH

WITHIN = 500  # ms, beyond the longest wait of the daemon and of a busy machine
WARNINGS = 128  # more at once than the default limits let through
FILE = """[station]
address = "{address}"
lat = {lat}
lon = {lon}
mobile = false
[claims]
area = "{area}"
elsewhere = "greedy"
capacity = 4096
remember = 64
profile = true
steady = true
fresh = true
unlimited = {unlimited}
unbuffered = {unbuffered}
[capture]
sent = true
received = true
delivered = true
within = {within}
queue = {within}
skew = 5
until = {until}
"""


def has_no_program():
    if not os.access(GEOSTATION, os.X_OK):
        notes.append("the program geostation isn't built: no station was judged")
        return True
    return False


class Wire:
    """Three stations 300 m apart, of which the first sends warnings, and the wire of the second."""

    def __init__(self, net, *options):
        self.tap, self.air = Tap(net.air, "a1"), Air(net.ends())
        self.places = [(frames.LAT + round(k * NORTH * 1e7), frames.LON) for k in range(3)]
        self.stations = [
            net.station(k, "--port", 2002, "--own-rate", 0, *options, limits=True,
                        place=("--position", f"{lat / 1e7:.7f},{lon / 1e7:.7f}"))
            for k, (lat, lon) in enumerate(self.places)
        ]

    def warn(self, count, pause):
        """Sends so many warnings, some time after the capture begins, and then waits until each verdict
        on them is due. Returns the counts of the station."""
        has({"result": "sent"}, self.stations[0].ask(do="shb", port=1, info=0, tc=0, payload=""))
        self.air.run(0.1)
        for k in range(count):
            has({"result": "sent"}, self.stations[0].ask(**{**GBC, "a": 2000}, payload=f"{k:04x}"))
            self.air.run(pause)
        self.air.run(3 * WITHIN / 1000)
        counts = self.stations[1].counts()
        assert counts["link"]["kernel_dropped"] == 0, counts
        self.until = int(time.time() * 1000)
        self.tap.end()
        return counts

    def judge(self, room, area="simple", unlimited="true", unbuffered="true"):
        """The verdicts on the station by these claims: how many of each result of each duty."""
        lat, lon = self.places[1]
        text = FILE.format(address=self.stations[1].ready["address"], lat=lat, lon=lon, area=area,
                           unlimited=unlimited, unbuffered=unbuffered, within=WITHIN,
                           until=self.until)
        file, capture = write(f"{room}/iut.toml", text), self.tap.write(f"{room}/wire.pcap")
        p = subprocess.run([GEOSTATION, "verdict", "--json", "--all", file, capture],
                           capture_output=True, text=True, timeout=PATIENCE, check=False)
        assert p.stderr == "", p.stderr
        lines = [json.loads(line) for line in p.stdout.splitlines()[1:-1]]
        found = Counter((line["duty"], line["result"]) for line in lines)
        fails = [line for line in lines if line["result"] == "fail"]
        assert p.returncode == bool(fails), (p.returncode, fails)
        return found, fails


def test_verdict_without_limits():
    """A station that forwards all obeys by all claims."""
    if has_no_program():
        return
    with Net(PROGRAM, 3) as net, tempfile.TemporaryDirectory() as room:
        wire = Wire(net, *NO_LIMITS)
        wire.warn(20, 0.05)
        found, fails = wire.judge(room)
        assert not fails and found["D20", "pass"] == 20, (found, fails)
        assert found["D13", "pass"] == found["D15", "pass"] == found["D19", "pass"] == 20, found


def test_verdict_on_limits():
    """A station with the default limits does not forward all of a flood. That is no fault, unless it is
    said to have none."""
    if has_no_program():
        return
    with Net(PROGRAM, 3) as net, tempfile.TemporaryDirectory() as room:
        wire = Wire(net)
        forwarded = wire.warn(WARNINGS, 0)["relayed"]
        assert 0 < forwarded < WARNINGS, forwarded
        found, fails = wire.judge(room, unlimited="false")
        assert not fails, fails
        assert found["D13", "pass"] == found["D20", "pass"] == forwarded, found
        _, fails = wire.judge(room)
        left = WARNINGS - forwarded
        assert {line["duty"] for line in fails} == {"D20"} and len(fails) == left, fails
        notes.append(f"{left} of {WARNINGS} warnings over the limits of a station: no fail, and as "
                     "many of D20 if it is said to have none")


def test_verdict_on_contention():
    """A station that contends does not forward what it receives twice. That is no fault, unless it is
    said to forward simply and to store nothing."""
    if has_no_program():
        return
    with Net(PROGRAM, 3) as net, tempfile.TemporaryDirectory() as room:
        wire = Wire(net, *NO_LIMITS, *CONTENDS, "--contention-copies", 1)
        counts = wire.warn(5, 0.3)
        cancelled = counts["contention"]["cancelled"]
        assert cancelled > 0, counts
        found, fails = wire.judge(room, area="other", unbuffered="false")
        assert not fails and found["D1", "fail"] == 0 < found["D20", "inconclusive"], (found, fails)
        _, fails = wire.judge(room, area="other")
        assert not fails, fails
        _, fails = wire.judge(room)
        assert {line["duty"] for line in fails} == {"D20"} and len(fails) == cancelled, fails
        notes.append(f"{cancelled} warnings cancelled by copies: no fail, and as many of D20 if the "
                     "station is said to forward simply")
