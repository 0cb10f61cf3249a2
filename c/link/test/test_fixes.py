"""Fixes of gpsd: what the station makes of each report, of none, and of junk."""

import json
import shutil
import socket
import subprocess
import tempfile
import time
from datetime import datetime, timedelta, timezone

import frames
from common import (OTHER, PROGRAM, has, has_no_clock, notes, now_ms, stamp, stopped_clock, udp,
                    udp_command)
from frames import GBC
from net import PATIENCE, Daemon, Net


def test_no_place():
    """Before a fix nothing is sent, and requests that would send are refused."""
    d = udp(1, 47301, "127.0.0.1:47302", place=("--gpsd", "127.0.0.1:1"))
    for keys in ({**GBC, "payload": "00"}, {"do": "tick", "jitter": 0},
                 {"do": "shb", "port": 1, "info": 0, "tc": 0, "payload": ""},
                 {"do": "receive", "frame": frames.beacon(OTHER, stamp()).hex()}):
        answer = d.ask(id="x", **keys)
        has({"id": "x", "result": "refused", "code": "no place"}, answer)
        assert list(answer)[:3] == ["id", "at", "result"]
    has({"result": "opened"}, d.ask(do="open", port=1))
    has({"result": "refused", "code": "S8 B2"}, d.ask(do="open", port=1))
    has({"line": 7, "error": "jitter"}, d.ask(do="tick"))
    counts = d.counts()
    assert counts["received"] == 0 and counts["link"]["frames"] == 0, counts
    has({"result": "moved"}, d.ask(do="move", lat=1, lon=-2, pai=True, speed=0, heading=0))
    told = frames.vector_of(bytes.fromhex(d.ask(**GBC, payload="")["frame"]))
    has({"lat": 1, "lon": -2}, told)
    assert d.end()[0] == 0


def utc(ahead=0.0):
    """The time of day as gpsd writes it, and in ms of TAI since 2004-01-01."""
    moment = now_ms() + int(ahead * 1000)
    day = datetime(2004, 1, 1, tzinfo=timezone.utc) + timedelta(milliseconds=moment - 5000)
    return day.strftime("%Y-%m-%dT%H:%M:%S.") + f"{day.microsecond // 1000:03d}Z", moment


FIX = {"mode": 3, "lat": -33.8567844, "lon": 151.2152967, "speed": 13.886, "track": 359.96,
       "eph": 10.0}
PLACED = {"lat": -338567844, "lon": 1512152967}


def report(ahead=0.0, **keys):
    return json.dumps({"class": "TPV", "time": utc(ahead)[0], **FIX, **keys},
                      separators=(",", ":")).encode() + b"\r\n"


def report_at(ms):
    """With this time, in ms since 1970."""
    day = datetime.fromtimestamp(ms / 1000, timezone.utc)
    return report(time=day.strftime("%Y-%m-%dT%H:%M:%S.") + f"{ms % 1000:03d}Z")


def until_sent(d, **wanted):
    """What a packet says of its source, once it is as wanted."""
    limit = time.monotonic() + PATIENCE
    while True:
        answer = d.ask(**GBC, payload="00")
        told = {}
        if answer["result"] == "sent":
            told = frames.vector_of(bytes.fromhex(answer["frame"]))
        if wanted.items() <= told.items():
            return told
        assert time.monotonic() < limit, (wanted, answer, told)
        time.sleep(0.02)


class Gpsd:
    """A gpsd that sends what the test has it send, and a station that asks it."""

    def __init__(self, number, *more, host="127.0.0.1", environment=None):
        family = socket.AF_INET6 if ":" in host else socket.AF_INET
        self.server = socket.create_server((host, 0), family=family)
        self.server.settimeout(PATIENCE)
        port = self.server.getsockname()[1]
        at = f"[{host}]:{port}" if ":" in host else f"{host}:{port}"
        command = udp_command(number, 47600 + 2 * number, f"127.0.0.1:{47601 + 2 * number}",
                              place=("--gpsd", at, *more))
        self.station = Daemon(command, env=environment)
        self.accept()

    def accept(self):
        self.link, _ = self.server.accept()
        self.asked = self.link.makefile("rb").readline()

    def end(self):
        self.link.close()
        self.server.close()
        return self.station.end()


def test_fixes():
    """Each report of a gpsd: its place, moment, motion and accuracy; and a connection that ends."""
    gpsd = Gpsd(1)
    d = gpsd.station
    assert gpsd.asked.startswith(b'?WATCH={"enable":true')
    text, moment = utc()
    first = {**PLACED, "speed": 1389, "heading": 0, "pai": 1, "stamp": moment % (1 << 32)}
    send = gpsd.link.sendall
    send(b'{"class":"VERSION","release":"3.22"}\r\n' + report(mode=1))
    send(b'{"class":"TPV",' + b" " * 20000 + b"}\r\n" + report(time=text)[:40])
    time.sleep(0.05)
    send(report(time=text)[40:])
    until_sent(d, **first)
    assert d.event("fix")["state"] == "current"
    near = PLACED["lat"] + 5000  # 56 m
    send(report(eph=10.1, lat=near / 1e7))
    until_sent(d, lat=near, pai=0)
    send(report())
    until_sent(d, **PLACED, pai=1)
    send(report(mode=2, lat=near / 1e7))
    until_sent(d, lat=near, pai=0)
    text, moment = utc()
    send(report(time=text))
    until_sent(d, **{**first, "stamp": moment % (1 << 32)})
    send(b'{"class":"TPV","mode":1}\r\n')
    until_sent(d, **{**first, "stamp": moment % (1 << 32), "pai": 0})
    gpsd.link.close()
    gpsd.accept()
    send = gpsd.link.sendall
    send(report(lat=91) + report(lat=near / 1e7, track=90.04))
    until_sent(d, lat=near, heading=900, pai=1)
    status, _, said = gpsd.end()
    assert status == 0 and b"gpsd: the connection ended" in said, said


def test_reports_that_are_no_fix():
    """What is not JSON, has no position, or has a time that can't be, changes no position."""
    gpsd = Gpsd(2)
    d = gpsd.station
    lats = [PLACED["lat"] + k * 1000 for k in range(4)]  # 11 m each
    one, two = (report(lat=lat / 1e7) for lat in lats[1:3])
    nested = b'{"class":"TPV","a":' + b"[" * 15 + b"]" * 15 + b"," + one[15:]
    for good, lat in ((report(), lats[0]), (nested, lats[1]),
                      (b' { "x" : {"lat":9,"y":[1,-2.5e3,null]} , ' + two[1:], lats[2]),
                      (report(lat=lats[3] / 1e7, note="a\u00e9\\\"").strip(), None)):
        gpsd.link.sendall(good)
        if lat is not None:
            until_sent(d, lat=lat, pai=1)
    gpsd.link.sendall(b"\n" + report())
    until_sent(d, **PLACED, pai=1)
    far = b'{"class":"TPV"}}{"class":"TPV"}\n'
    for bad in (far, report(lat=9)[:-3] + b"}}\n", report(lat=9).replace(b"9", b"NaN"),
                report(lat=9).replace(b":9,", b":09,"), report(lat=9).replace(b":9,", b":+9,"),
                report(lat=9).replace(b":9,", b":9.,"), report(lat=9).replace(b":9,", b":9e,"),
                report(lat=9).replace(b'"lat":9', b'"lat":"9'), report(lat="9"),
                report(lat=9).replace(b"TPV", b"SKY"), b'{"class":"TPV","mode":3,"lat":9\n',
                b'{"class":"TPV","a":' + b"[" * 40 + b"]" * 40 + b',"mode":3,"lat":9,"lon":9}\n',
                b'{"class":"TPV","a":"\\x","mode":3,"lat":9,"lon":9}\n', b"[]\n", b"{}\n", b"\n",
                report(lat=0, lon=0), report(lat=91), report(lon=-180.1), report(mode=1, lat=9),
                report(time="2040-01-01T00:00:00.000Z", lat=9), report(ahead=-70, lat=9),
                report(ahead=10, lat=9), report(lat=1e999)):
        gpsd.link.sendall(bad + b'{"class":"TPV","mode":1}\n')
        has(PLACED, until_sent(d, pai=0))
        gpsd.link.sendall(report())
        until_sent(d, **PLACED, pai=1)
    status, _, said = gpsd.end()
    assert status == 0 and b"ahead of the clock" in said and b"behind the clock" in said, said


def test_fixes_that_are_not_accurate():
    """A report without a time, and one that is farther off than a station moves."""
    gpsd = Gpsd(6)
    d = gpsd.station
    gpsd.link.sendall(report())
    until_sent(d, **PLACED, pai=1)
    near = PLACED["lat"] + 1000
    for wrong in ({"time": None}, {"time": "now"}, {"time": 5}):
        bad = report(lat=near / 1e7, **wrong)
        gpsd.link.sendall(bad if wrong["time"] else bad.replace(b'"time":null,', b""))
        until_sent(d, lat=near, pai=0)
        gpsd.link.sendall(report())
        until_sent(d, **PLACED, pai=1)
    jumped = time.monotonic()
    gpsd.link.sendall(report(lon=-179.9999999))
    gpsd.link.sendall(report(lon=179.9999999))  # 2 cm from there, and 2700 km from the last one
    until_sent(d, lon=1799999999, pai=0)
    while frames.vector_of(bytes.fromhex(d.ask(**GBC, payload="00")["frame"]))["pai"] == 0:
        assert time.monotonic() < jumped + PATIENCE, "it stays in doubt"
        gpsd.link.sendall(report(lon=179.9999999))
        time.sleep(0.2)
    assert time.monotonic() - jumped > 4.9
    status, _, said = gpsd.end()
    assert status == 0 and said.count(b"m from the last one") == 1, said


def test_junk():
    """A stream of junk: the station answers meanwhile, memory stays, and the next fix is taken."""
    gpsd = Gpsd(3)
    d = gpsd.station
    gpsd.link.sendall(report())
    until_sent(d, **PLACED)
    before, total = d.memory(), 0
    pieces = (b'{"class":"TPV"}}{"class":"TPV"}' * 3000 + b"\n", b"{" * 100000,
              b"\0" * 50000 + b"\n", b'{"class":"TPV","x":"' + b"\xff" * 9000 + b'"}\n',
              b'{"class":"TPV","a":[' * 400 + b"\n")
    for _ in range(60):
        for piece in pieces:
            gpsd.link.sendall(piece)
            total += len(piece)
        has({"result": "counts"}, d.ask(do="counts"))
    gpsd.link.sendall(b"\n" + report(lat=PLACED["lat"] / 1e7 + 0.0001))
    until_sent(d, lat=PLACED["lat"] + 1000, pai=1)
    assert d.memory() == before, (before, d.memory())
    assert gpsd.end()[0] == 0
    notes.append(f"{total >> 20} MiB of junk in place of reports")


def test_fix_grows_old():
    """After 5 s a fix isn't accurate, and after --gps-timeout nothing is sent; both are reported."""
    if has_no_clock():
        return
    with tempfile.TemporaryDirectory() as room:
        check_old_fix(stopped_clock(room))


def check_old_fix(clock):
    gpsd = Gpsd(4, "--gps-timeout", "7", environment=clock.environment)
    d = gpsd.station

    def wait(ms):
        clock.wait(ms)
        d.counts()  # it looks at its clock

    def pai():
        return frames.vector_of(bytes.fromhex(d.ask(**GBC, payload="00")["frame"]))["pai"]

    gpsd.link.sendall(report_at(clock.at))
    until_sent(d, **PLACED, pai=1)
    assert d.event("fix")["state"] == "current"
    wait(4999)
    assert pai() == 1
    wait(1)
    assert d.event("fix")["state"] == "old" and pai() == 0
    wait(1999)
    assert pai() == 0
    wait(1)
    assert d.event("fix")["state"] == "lost"
    answer = d.ask(**GBC, payload="00")
    has({"code": "no place", "reason": "the last fix is too old"}, answer)
    gpsd.link.sendall(report_at(clock.at))
    assert d.event("fix")["state"] == "current"
    has({"result": "sent"}, d.ask(**GBC, payload="00"))
    status, _, said = gpsd.end()
    assert status == 0 and b"nothing is sent" in said, said


def test_lost_fix_and_frames():
    """While the fix is lost frames are received and delivered, and none is forwarded."""
    with Net(PROGRAM, 1) as net:
        d, (end,) = net.station(0, "--port", 2002, "--gps-timeout", 1,
                                place=("--gpsd", "127.0.0.1:1")), net.ends()
        has({"result": "moved"}, d.ask(do="move", lat=frames.LAT, lon=frames.LON, pai=True, speed=0,
                                       heading=0))
        end.send(frames.gbc(OTHER, stamp(), 1, b"a"))
        d.event("delivered")
        assert d.event("fix")["state"] == "lost"
        end.send(frames.gbc(OTHER, stamp(), 2, b"b"))
        assert d.event("delivered")["payload"] == b"b".hex()
        assert d.counts()["link"]["dropped"] == 1


def test_no_gpsd():
    """A gpsd that isn't there is reported once, and so is that there is no fix."""
    d = udp(1, 47301, "127.0.0.1:47302", place=("--gpsd", "127.0.0.1:1", "--gps-timeout", "1"))
    assert d.event("fix")["state"] == "lost"
    said = d.end()[2]
    assert said.count(b"gpsd: Connection refused") == 1 and b"position: " in said, said


def test_ipv6():
    """gpsd at an address of IPv6."""
    gpsd = Gpsd(5, host="::1")
    gpsd.link.sendall(report())
    until_sent(gpsd.station, **PLACED)
    assert gpsd.end()[0] == 0


def sentence(text):
    total = 0
    for octet in text.encode():
        total ^= octet
    return f"${text}*{total:02X}\r\n"


def write_track(path):
    """A receiver that moves north-east, as NMEA."""
    with open(path, "w", encoding="ascii") as f:
        for k in range(60):
            lat, lon = 51.47765 + k * 1e-4, 0.001 + k * 2e-4
            la = f"{int(lat):02d}{lat % 1 * 60:08.5f},N"
            lo = f"{int(lon):03d}{lon % 1 * 60:08.5f},E"
            now = datetime.now(timezone.utc) + timedelta(seconds=k / 5)
            t = now.strftime("%H%M%S.") + f"{now.microsecond // 10000:02d}"
            day = now.strftime("%d%m%y")
            f.write(sentence(f"GPRMC,{t},A,{la},{lo},27.21,049.3,{day},,,A"))
            f.write(sentence(f"GPGGA,{t},{la},{lo},1,08,0.9,10.0,M,47.0,M,,"))
            f.write(sentence("GPGSA,A,3,01,02,03,04,05,06,07,08,,,,,1.5,0.9,1.2"))


def gpsfake_is_there():
    """It needs gpsd and Python's gps too."""
    if not shutil.which("gpsfake") or not shutil.which("gpsd"):
        return False
    return subprocess.run(["gpsfake", "-V"], capture_output=True).returncode == 0


def test_gpsd():
    """gpsfake moves a station; it connects again where gpsd comes late."""
    if not gpsfake_is_there():
        notes.append("gpsfake isn't installed: apt-get install gpsd gpsd-clients")
        return
    with Net(PROGRAM, 1) as net, tempfile.TemporaryDirectory() as room:
        write_track(f"{room}/track.nmea")
        d = net.station(0, place=("--gpsd",))
        has({"code": "no place"}, d.ask(**GBC, payload="00"))
        fake = subprocess.Popen(net.enter(0, "gpsfake", "-q", "-c", "0.2", "-P", "2947",
                                          f"{room}/track.nmea"),
                                stdout=subprocess.DEVNULL, stderr=subprocess.DEVNULL)
        seen, limit = [], time.monotonic() + PATIENCE
        while len({v["lat"] for v in seen}) < 3 and time.monotonic() < limit:
            answer = d.ask(**GBC, payload="00")
            if answer["result"] == "sent":
                seen.append(frames.vector_of(bytes.fromhex(answer["frame"])))
            time.sleep(0.1)
        fake.terminate()
        fake.wait(PATIENCE)
        assert len({v["lat"] for v in seen}) >= 3, seen[:5]
        last = seen[-1]
        assert 514776500 <= last["lat"] <= 514836500 and last["speed"] in range(1390, 1410), last
        assert last["heading"] == 493 and len({v["stamp"] for v in seen}) >= 3, last
        notes.append("gpsfake moved a station")
