"""Three stations with the example of a security entity: signed.py PROGRAM [FLOOD SECONDS]

West and east hear only the middle one. With FLOOD (flood.c), secured junk comes to the middle one
for so many seconds, beside a warning a second, and times are printed.
"""

import json
import shutil
import statistics
import subprocess
import sys
import tempfile
import threading
import time
from pathlib import Path

from common import PROGRAM, has, now_ms, until
from frames import GBC
from net import PATIENCE, Net, raw

TOP = Path(__file__).resolve().parent.parent.parent.parent
ENTITY = TOP / "examples/security/entity.py"
sys.path.append(str(TOP / "checks/lib"))

from secured import Key, Message, message_of, plain_part, secured  # noqa: E402

NAMES = ("west", "middle", "east")
WEST, MIDDLE, EAST = range(3)
OUTGOING = 4  # PACKET_OUTGOING


class Trio:
    """The three stations, each with an entity, and a socket that hears all frames."""

    def __init__(self, net, room):
        self.net, self.room, self.frames = net, room, []
        net.join()
        self.wire = raw(net.air, "br0")
        self.wire.settimeout(0.05)
        for name in NAMES:
            subprocess.run([sys.executable, ENTITY, "--new", f"{room}/{name}"], check=True)
        self.entities = [self.entity(name) for name in NAMES]
        self.stations = [net.station(k, "--port", 2002, "--security", f"{room}/{name}.sock",
                                     "--security-timeout", 10000)  # other work may run here
                         for k, name in enumerate(NAMES)]

    def entity(self, name):
        trusted = [x for other in NAMES for x in ("--trust", f"{self.room}/{other}.pub")]
        path = f"{self.room}/{name}.sock"
        process = subprocess.Popen([sys.executable, ENTITY, "--key", f"{self.room}/{name}",
                                    *trusted, path])
        self.net.callback(process.wait)
        self.net.callback(process.terminate)
        until(lambda: Path(path).exists(), "no entity")
        time.sleep(0.2)
        return process

    def hear(self):
        """Reads what is on the wire."""
        while True:
            try:
                self.frames.append(self.wire.recv(4096))
            except TimeoutError:
                return

    def to_east(self, frame):
        """A frame that only the east one receives."""
        with raw(self.net.air, "a2") as s:
            s.send(frame)

    def counts(self, k):
        return self.stations[k].counts()


def warn(trio, payload):
    """West warns, until east has the warning. Returns its frame."""
    d = trio.stations[WEST]
    limit = time.monotonic() + PATIENCE
    while time.monotonic() < limit:
        answer = d.ask(**GBC, payload=payload.hex())
        has({"result": "sent"}, answer)
        event = trio.stations[EAST].line(2)
        while event is not None and event.get("payload") != payload.hex():
            event = trio.stations[EAST].line(2)
        if event is not None:
            has({"event": "delivered", "source": d.ready["address"], "psid": 37}, event)
            assert abs(event["generated"] / 1000 - now_ms()) < 60000, event
            return bytes.fromhex(answer["frame"])
    raise AssertionError("the warning does not arrive")


def with_flipped_bits(frame):
    """The frame with one bit of its message flipped, in each eighth of it."""
    for place in range(18, len(frame), max(1, (len(frame) - 18) // 8)):
        yield frame[:place] + bytes([frame[place] ^ 0x10]) + frame[place + 1 :]


def unsecured_of(frame):
    """The frame without its message: the plain part is behind its length."""
    message = message_of(frame)
    length, start = (message[7], 8) if message[6] == 0x81 else (message[6], 7)
    return frame[:14] + b"\x11" + frame[15:18] + message[start : start + length]


def refuse_all(trio, frame):
    """Frames that no station gets, each with the count that it raises."""
    plain = unsecured_of(frame)
    stranger = Message(plain_part(plain), 37, now_ms() * 1000, Key(77)).encode()
    wrong = [(each, "rejected") for each in with_flipped_bits(frame)]
    wrong += [(secured(plain, stranger), "rejected"), (plain, "unsecured"), (frame, "rejected")]
    before = trio.counts(EAST)
    for each, kind in wrong:
        counted = trio.counts(EAST)["link"][kind]
        trio.to_east(each)
        trio.stations[EAST].until(lambda n: n["link"][kind] == counted + 1)
    after = trio.counts(EAST)
    assert after["delivered"] == before["delivered"], (before, after)
    copies = after["received"] - before["received"]
    assert copies == after["link"]["verified"] - before["link"]["verified"]
    events = [e for e in trio.stations[EAST].seen() if e["event"] == "delivered"]
    assert not events, events
    return len(wrong)


def dissect(frames, path):
    """How many frames tshark reads as signed ones."""
    with open(path, "wb") as file:
        file.write(bytes.fromhex("d4c3b2a1020004000000000000000000ffff000001000000"))
        for frame in frames:
            file.write(bytes(8) + len(frame).to_bytes(4, "little") * 2 + frame)
    command = ["tshark", "-r", path, "--disable-protocol", "its"]
    wanted = "geonw.bh.nh == 2 && ieee1609dot2.signature && geonw.ch.htype && !_ws.malformed"
    read = subprocess.run([*command, "-Y", wanted], capture_output=True, text=True, check=True)
    return read.stdout.count("\n")


def test_row():
    """A warning over one that forwards; and what reaches no station."""
    with Net(PROGRAM, 3) as net, tempfile.TemporaryDirectory() as room:
        trio = Trio(net, room)
        frame = warn(trio, b"ice")
        trio.hear()
        forwarded = [f for f in trio.frames if message_of(f) == message_of(frame) and f != frame]
        assert [f[17] for f in forwarded] in ([9], [9, 8]) and frame[17] == 10, trio.frames
        time.sleep(1.2)  # so the answer to its message is no longer kept
        count = refuse_all(trio, frame)
        trio.entities[EAST].terminate()
        assert trio.stations[EAST].event("security")["up"] is False
        trio.entities[EAST].wait()
        trio.entities[EAST] = trio.entity("east")
        assert trio.stations[EAST].event("security")["up"] is True
        warn(trio, b"snow")
        until(lambda: trio.hear() or len({f[6:12] for f in trio.frames}) == 3, "no beacons")
        seen = "tshark isn't installed"
        if shutil.which("tshark"):
            assert dissect(trio.frames, f"{room}/wire.pcap") == len(trio.frames)
            seen = f"{len(trio.frames)} frames on the wire, all signed to tshark"
        return f"signed warnings over one that forwards; {count} frames reach no station; {seen}"


class Sends:
    """Own packets of a station, five a second, and how long each answer took."""

    def __init__(self, station):
        self.station, self.took, self.refused, self.going = station, [], 0, True
        self.thread = threading.Thread(target=self.run)
        self.thread.start()

    def run(self):
        while self.going:
            started = time.monotonic()
            self.station.put(do="shb", port=2001, info=0, tc=0, payload="00")
            answer = self.station.answer()
            if answer["result"] == "sent":
                self.took.append(time.monotonic() - started)
            else:
                self.refused += 1
            time.sleep(0.2)

    def end(self):
        self.going = False
        self.thread.join()


def milliseconds(values):
    if not values:
        return "none"
    return f"{1000 * statistics.median(values):.1f} ms, at most {1000 * max(values):.1f} ms"


def flood_once(trio, program, seconds, changes, junk):
    """Warnings of west at the middle one, a second each, and its own packets, under a flood."""
    middle, before = trio.stations[MIDDLE], trio.counts(MIDDLE)["link"]
    middle.seen()
    sends, sent = Sends(middle), {}
    command = trio.net.enter(EAST, program, "v", 20000, seconds, changes, junk.hex())
    flood = subprocess.Popen(command, stdout=subprocess.PIPE) if changes else None
    for k in range(seconds):
        started, sent[f"{k:04x}"] = time.monotonic(), now_ms()
        trio.stations[WEST].ask(**GBC, payload=f"{k:04x}")
        time.sleep(max(0, started + 1 - time.monotonic()))
    count = int(flood.communicate()[0]) if flood else 0
    sends.end()
    took = [(e["at"] - sent[e["payload"]]) / 1000 for e in middle.seen()
            if e["event"] == "delivered" and e["payload"] in sent]
    after = trio.counts(MIDDLE)["link"]
    keys = ("frames", "kernel_dropped", "verified", "rejected", "unanswered", "overrun",
            "dropped_early")
    shares = {key: after[key] - before[key] for key in keys}
    return count, took, sends, shares


def run_floods(program, seconds):
    """Prints a row for each kind of junk. The warnings still arrive."""
    with Net(PROGRAM, 3) as net, tempfile.TemporaryDirectory() as room:
        trio = Trio(net, room)
        of_west = warn(trio, b"ice")
        other = of_west[:6] + bytes.fromhex("02aa00000001") + of_west[12:]
        for name, changes, frame in (
                ("none", "", other), ("random messages", "m", other),
                ("wrong signatures", "g", other),
                ("wrong signatures under the address of west", "g", of_west)):
            count, took, sends, shares = flood_once(trio, program, seconds, changes, frame)
            print(f"flood of {name}: {count / seconds:.0f} frames a second; {len(took)} of "
                  f"{seconds} warnings arrived, median {milliseconds(took)}; own packets "
                  f"{len(sends.took)} sent, {sends.refused} refused, median "
                  f"{milliseconds(sends.took)}; {json.dumps(shares)}", flush=True)
            assert took, "no warning arrived"


if __name__ == "__main__":
    if len(sys.argv) > 2:
        run_floods(sys.argv[2], int(sys.argv[3]))
    else:
        print(test_row())
