"""A clock that is wrong at the start, and one that is set later."""

import tempfile
import time

import frames
from common import (OTHER, PLACE, Clock, connect, has, has_no_clock, now_ms, stamp, udp_command,
                    until)
from frames import GBC
from net import Daemon
from test_faults import read_metrics
from test_fixes import PLACED, Gpsd, report, until_sent

HOUR = 3600000
SHB = {"do": "shb", "port": 1, "info": 0, "tc": 0, "payload": ""}


def station(clock, number, *more, place=PLACE):
    port = 48000 + 2 * number
    command = udp_command(number, port, f"127.0.0.1:{port + 1}", place=place)
    return Daemon([*command, *more], env=clock.environment)


def stamp_of(answer):
    has({"result": "sent"}, answer)
    return frames.vector_of(bytes.fromhex(answer["frame"]))["stamp"]


def is_now(time_stamp, off=0):
    """Within a second, and what a busy machine needs."""
    return abs((time_stamp - stamp() - off + (1 << 31)) % (1 << 32) - (1 << 31)) < 20000


def metrics(path):
    s, lines = connect(path)
    found = read_metrics(lines.read().decode())
    s.close()
    return {k: v for k, v in found.items() if "clock" in k}


def test_late_clock_and_gpsd():
    """The clock is an hour behind until after the start: then the fixes are taken."""
    if has_no_clock():
        return
    with tempfile.TemporaryDirectory() as room:
        clock = Clock(room, -HOUR, synchronised=False)
        gpsd = Gpsd(7, "--metrics", f"{room}/m", environment=clock.environment)
        d = gpsd.station
        gpsd.link.sendall(report())
        has({"code": "no place"}, d.ask(**GBC, payload="00"))
        found = metrics(f"{room}/m")
        assert found.pop("geostation_clock_synchronised") == 0, found
        assert abs(found["geostation_clock_offset_seconds"]) < 0.1, found
        clock.set(0)
        event = d.event("clock")
        assert list(event) == ["at", "event", "synchronised", "step", "offset"], event
        assert abs(event["step"] - HOUR) < 100 and event["offset"] == 0, event
        assert abs(event["at"] - now_ms()) < 20000, event
        gpsd.link.sendall(report())
        assert is_now(until_sent(d, **PLACED, pai=1)["stamp"])
        until(lambda: metrics(f"{room}/m")["geostation_clock_synchronised"] == 1, "no metric")
        status, _, said = gpsd.end()
        assert status == 0 and b"the clock was set by +3" in said, said


def test_clock_before_2004():
    """Nothing is sent before it is set."""
    if has_no_clock():
        return
    with tempfile.TemporaryDirectory() as room:
        clock = Clock(room, -int(time.time() * 1000))
        d = station(clock, 4)
        has({"code": "no clock"}, d.ask(**SHB))
        clock.set(0)
        assert d.event("clock")["step"] > 20 * 365 * 24 * HOUR
        assert is_now(stamp_of(d.ask(**SHB)))
        status, _, said = d.end()
        assert status == 0 and b"before 2004: nothing is sent until it is set" in said, said


def test_clock_that_has_to_be_synchronised():
    """Nothing is sent before it is; then it goes back, and ports, counts and numbers stay."""
    if has_no_clock():
        return
    with tempfile.TemporaryDirectory() as room:
        clock = Clock(room, HOUR, synchronised=False)
        d = station(clock, 1, "--clock-synchronised", "--metrics", f"{room}/m")
        has({"result": "opened"}, d.ask(do="open", port=7))
        for keys in (SHB, {"do": "tick", "jitter": 0}, {**GBC, "payload": "00"}):
            has({"result": "refused", "code": "no clock"}, d.ask(id=1, **keys))
        frame = frames.gbc(OTHER, stamp(), 1, b"a")
        has({"result": "accepted"}, d.ask(do="receive", frame=frame.hex()))
        time.sleep(1)  # a beacon would come after 0.75 s
        assert sum(d.counts()["sent"].values()) == 0
        clock.set(0)
        event = d.event("clock")
        assert abs(event["step"] + HOUR) < 100 and event["synchronised"] is False, event
        has({"step": 0, "synchronised": True}, d.event("clock"))
        answer = d.ask(**SHB)
        assert is_now(stamp_of(answer)) and abs(answer["at"] - now_ms()) < 20000, answer
        for port in (7, 2002):
            has({"code": "S8 B2"}, d.ask(do="open", port=port))
        counts = d.counts()
        assert counts["received"] == counts["accepted"] == 1, counts
        has({"geostation_clock_synchronised": 1}, metrics(f"{room}/m"))
        clock.set(0, synchronised=False)
        has({"synchronised": False}, d.event("clock"))
        has({"code": "no clock"}, d.ask(**SHB))
        assert d.end()[0] == 0


def test_later_steps():
    """They change nothing, and are reported."""
    if has_no_clock():
        return
    with tempfile.TemporaryDirectory() as room:
        clock = Clock(room, 0)
        d = station(clock, 2, "--metrics", f"{room}/m")
        first = stamp_of(d.ask(**SHB))
        for off in (HOUR, -HOUR):
            clock.set(off)
            event = d.event("clock")
            assert event["step"] == 0 and abs(event["offset"] - off) < 100, event
            assert is_now(stamp_of(d.ask(**SHB)))
            offset = metrics(f"{room}/m")["geostation_clock_offset_seconds"]
            assert abs(offset - off / 1000) < 20, offset
        assert first <= stamp_of(d.ask(**SHB))
        status, _, said = d.end()
        assert status == 0 and said.count(b"until the station is restarted") == 2, said


def test_steps_that_are_followed():
    """With --clock-follow: forward at once, back after a silence, so that no time falls."""
    if has_no_clock():
        return
    with tempfile.TemporaryDirectory() as room:
        clock = Clock(room, 0)
        d = station(clock, 3, "--clock-follow")
        last = stamp_of(d.ask(**SHB))
        clock.set(HOUR)
        assert abs(d.event("clock")["step"] - HOUR) < 100
        answer = d.ask(**SHB)
        assert is_now(stamp_of(answer), HOUR) and stamp_of(answer) > last
        last, at = stamp_of(answer), answer["at"]
        clock.set(HOUR - 3000)
        until(lambda: d.ask(**SHB).get("code") == "no clock", "it isn't silent")
        while (answer := d.ask(**SHB))["result"] == "refused":
            has({"code": "no clock"}, answer)
            time.sleep(0.02)
        steps = [e["step"] for e in d.seen() if e["event"] == "clock"]
        assert steps[0] == 0 and -3200 < steps[1] < -2800, steps
        assert stamp_of(answer) > last and answer["at"] > at, (answer, last)
        assert is_now(stamp_of(answer), HOUR - 3000)
        assert d.end()[0] == 0
