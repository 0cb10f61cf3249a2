"""Own packets that are refused: they put off no beacon, and nothing counts as sent."""

import shutil
import subprocess
import tempfile
import threading
import time

import frames
from common import PROGRAM, has, notes
from entity import Entity
from frames import GBC
from net import Net, ip, wait_for_link
from test_security import is_beacon

SECONDS = 20
LONG = {**GBC, "payload": "00" * 1000}
SHORT = {"do": "shb", "port": 1, "info": 0, "tc": 0, "payload": ""}
INTERVAL = range(2000, 9000)  # ms between two beacons; a time stamp may be a second old


class Refuser(threading.Thread):
    """An entity that signs beacons, and no packet of an application."""

    def __init__(self, path):
        super().__init__(daemon=True)
        self.entity = Entity(path)

    def run(self):
        self.entity.accept()
        try:
            while True:
                request = self.entity.any_request()
                if request.get("kind") == "beacon":
                    self.entity.sign(request)
                else:
                    self.entity.say(id=request["id"], error="no")
        except (AssertionError, OSError):
            pass


class Row:
    """A station whose requests are refused with this code."""

    def __init__(self, net, k, code, request, *options):
        self.code, self.request, self.end = code, request, net.ends()[k]
        self.station = net.station(k, *options, limits=True)
        self.refused, self.sent = 0, []

    def ask(self):
        answer = self.station.ask(**self.request)
        if answer["result"] == "sent":
            self.sent.append(answer["frame"])
        else:
            has({"result": "refused", "code": self.code}, answer)
            self.refused += 1

    def on_the_air(self):
        self.end.settimeout(0.3)
        found = []
        try:
            while True:
                found.append(self.end.recv(4096))
        except TimeoutError:
            return found

    def judge(self):
        """What was on the air is what was counted. Returns the times of beacons."""
        found = self.on_the_air()
        counts = self.station.counts()["sent"]
        if sum(counts.values()) != len(found):  # a beacon was sent meanwhile
            found += self.on_the_air()
        beacons = [f for f in found if frames.kind_of(f) == "beacon" or is_beacon(f)]
        others = [f.hex() for f in found if f not in beacons]
        assert others == self.sent, (self.code, len(others), len(self.sent))
        assert counts["beacons"] == len(beacons), (self.code, counts, len(beacons))
        assert sum(counts.values()) == len(found), (self.code, counts, len(found))
        return [int.from_bytes(f[34:38], "big") for f in beacons if f[14] == 0x11]


def make_slow(net, k):
    """A queue that takes short frames alone."""
    command = net.enter(k, "tc", "qdisc", "add", "dev", "v", "root", "bfifo", "limit", "500")
    return shutil.which("tc") and subprocess.run(command, capture_output=True).returncode == 0


def test_refused_requests_put_off_no_beacon():
    """Each second a request that is refused, for 20 s; over the rate, half of them."""
    with Net(PROGRAM, 5) as net, tempfile.TemporaryDirectory() as room:
        refuser = Refuser(f"{room}/entity")
        refuser.start()
        ip("-n", net.names[1], "link", "set", "v", "mtu", "600")
        rows = [Row(net, 0, "not signed", LONG, "--security", f"{room}/entity"),
                Row(net, 1, "too long", LONG)]
        if make_slow(net, 2):
            rows.append(Row(net, 2, "queue full", LONG))
        else:
            notes.append("this kernel has no bfifo queue")
        down = Row(net, 3, "link down", LONG)
        over = Row(net, 4, "over rate", SHORT, "--own-rate", 1, "--own-burst", 1)
        ip("-n", net.names[3], "link", "set", "v", "down")
        assert down.station.event("link")["up"] is False
        down.on_the_air()
        before = down.station.counts()["sent"]
        for _ in range(SECONDS):
            started = time.monotonic()
            for row in (*rows, down, over, over):
                row.ask()
            time.sleep(max(0, started + 1 - time.monotonic()))
        for row in rows:
            times = row.judge()
            gaps = [b - a for a, b in zip(times, times[1:])]
            assert row.refused == SECONDS and not row.sent, (row.code, row.refused)
            assert row.code == "not signed" or len(times) >= 3, (row.code, times)
            assert all(gap in INTERVAL for gap in gaps), (row.code, gaps)
        assert rows[0].station.counts()["sent"]["beacons"] >= 3
        over.judge()
        assert over.refused >= SECONDS // 2 and len(over.sent) >= SECONDS // 2, over.refused
        down.ask()  # it would put a beacon off by 3 s
        assert down.station.counts()["sent"] == before and down.refused == SECONDS + 1
        ip("-n", net.names[3], "link", "set", "v", "up")
        up = down.station.event("link")
        wait_for_link(net.names[3], "v")
        down.end.settimeout(20)
        beacon = down.end.recv(4096)
        assert frames.kind_of(beacon) == "beacon", beacon.hex()
        waited = frames.vector_of(beacon)["stamp"] - up["at"] % (1 << 32)
        assert waited < 2900, f"a beacon {waited} ms after the link was up"
        notes.append(f"{len(rows) + 2} kinds of refused requests, each second for {SECONDS} s")


def test_numbers():
    """A request that is refused before the station is asked uses up no sequence number."""
    with Net(PROGRAM, 1) as net:
        ip("-n", net.names[0], "link", "set", "v", "mtu", "600")
        d = net.station(0, "--own-rate", 1, "--own-burst", 4, limits=True)
        numbers = []
        for keys in (GBC, {**GBC, "payload": "00" * 1000}, GBC, GBC):
            answer = d.ask(**{"payload": "00", **keys})
            if answer["result"] == "sent":
                numbers.append(int(answer["frame"][52:56], 16))
            else:
                has({"code": "too long"}, answer)
        assert [n - numbers[0] & 0xFFFF for n in numbers] == [0, 1, 2], numbers
        has({"dropped": 1}, d.counts()["link"])


def test_beacons_of_requests():
    """`tick` and `next_beacon` agree with the beacons that the program sends by itself."""
    with Net(PROGRAM, 1) as net:
        d, (end,) = net.station(0), net.ends()
        end.settimeout(10)
        first = frames.vector_of(end.recv(2048))["stamp"]
        answer = d.ask(do="next_beacon", jitter=0)
        age = (answer["moment"] - 3000 - first) % (1 << 32)  # of the position in it
        assert age <= 1000, (answer, first)
        has({"result": "quiet"}, d.ask(do="tick", jitter=0))
        sent = d.ask(**SHORT)
        answer = d.ask(do="next_beacon", jitter=750)
        assert answer["moment"] == sent["at"] + 3750, (answer, sent)
        has({"result": "refused", "code": "S9"}, d.ask(do="tick", jitter=751))
        has({"result": "restarted"}, d.ask(do="restart", number=9))
        while (answer := d.ask(do="tick", jitter=0))["result"] == "quiet":
            time.sleep(0.01)
        assert frames.kind_of(bytes.fromhex(answer["frame"])) == "beacon", answer
        counts = d.counts()  # the program's own beacon may have come first
        assert counts["sent"]["beacons"] in (2, 3) and counts["sent"]["single_hop"] == 1, counts
        has({"other": 1}, counts["refused"])
