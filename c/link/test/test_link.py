"""geostation-link on links of its own: test_link.py PROGRAM [TEST..]"""

import json
import os
import random
import shutil
import signal
import socket
import struct
import subprocess
import sys
import tempfile
import time
import traceback
from pathlib import Path

import frames
import test_client_rights
import test_clock
import test_contention
import test_faults
import test_fixes
import test_forger
import test_limits
import test_own
import test_security
import test_service
import test_standard
import test_verdict
from air import Air
from common import (OTHER, PROGRAM, connect, connect_once_it_listens, has, notes, stamp,
                    udp)
from frames import GBC
from net import PATIENCE, Daemon, Net, ip


def write_pcap(found, path):
    with open(path, "wb") as f:
        f.write(struct.pack("<IHHiIII", 0xA1B2C3D4, 2, 4, 0, 0, 65535, 1))
        for frame in found:
            f.write(struct.pack("<IIII", 0, 0, len(frame), len(frame)) + frame)


def dissect(path):
    """Wireshark takes these ports for CAM and DENM, which the payloads aren't."""
    tshark = ["tshark", "-r", path, "--disable-protocol", "its"]
    read = subprocess.run([*tshark, "-Y", "geonw.bh.rhl"], capture_output=True, text=True)
    bad = subprocess.run([*tshark, "-Y", "_ws.malformed || _ws.expert"], capture_output=True,
                         text=True)
    assert read.returncode == 0 and bad.returncode == 0, (read.stderr, bad.stderr)
    assert bad.stdout == "", bad.stdout
    return read.stdout.count("\n")


def test_three():
    """All hear each other, each delivery has its keys; and the frames as tshark reads them."""
    with Net(PROGRAM, 3) as net, tempfile.TemporaryDirectory() as room:
        air = Air(net.ends())
        a, b, c = (net.station(k, "--port", 2002) for k in range(3))
        assert [d.ready["address"][-4:] for d in (a, b, c)] == ["0100", "0101", "0102"]
        has({"id": 4, "result": "opened"}, a.ask(id=4, do="open", port=7))
        has({"result": "refused", "code": "S8 B2"}, a.ask(do="open", port=2002))
        has({"line": 3, "error": "port"}, a.ask(do="open"))
        for k in range(20):
            has({"result": "sent"}, a.ask(**GBC, payload=f"{k:04x}"))
        has({"result": "sent"}, b.ask(do="shb", port=7, info=1, tc=3, payload="abcd"))
        measured = {"do": "shb", "port": 7, "info": 1, "tc": 3, "payload": "ef"}
        has({"result": "sent"}, b.ask(**measured, media="4D5A00ff"))
        has({"error": "media"}, b.ask(**measured, media="4d5a00f"))
        has({"result": "sent"}, c.ask(**{**GBC, "do": "gac"}, payload=""))
        wanted, limit = 20 * 3 + 3, time.monotonic() + PATIENCE  # two forward each GBC
        while len(air.frames) < wanted:
            assert time.monotonic() < limit, len(air.frames)
            air.run(0.1)
        for d in (b, c):
            got = [e for e in d.seen() if e["source"] == a.ready["address"]]
            assert sorted(e["payload"] for e in got) == [f"{k:04x}" for k in range(20)], got
        plain, heard = (e for e in a.seen() if e["port"] == 7)
        keys = ["at", "event", "source", "port", "info", "tc", "payload"]
        assert (list(plain), list(heard)) == (keys, [*keys[:-1], "media", "payload"]), heard
        has({"source": b.ready["address"], "info": 1, "tc": 3, "payload": "abcd"}, plain)
        has({"source": b.ready["address"], "media": "4d5a00ff", "payload": "ef"}, heard)
        single = [f for f in air.frames if frames.kind_of(f) == "shb"]
        assert [f[50:54].hex() for f in single] == ["00000000", "4d5a00ff"], single
        if shutil.which("tshark"):
            write_pcap(air.frames, f"{room}/air.pcap")
            assert dissect(f"{room}/air.pcap") == len(air.frames)
            notes.append(f"{len(air.frames)} frames read by tshark, none malformed")
        else:
            notes.append("tshark isn't installed")


def test_exactly_once():
    """Over a bad air: a frame is on it again until the air notes that a copy came to each."""
    with Net(PROGRAM, 3) as net:
        air = Air(net.ends(), loss=30, doubles=20, latest=30)
        a, b, c = (net.station(k, "--port", 2002) for k in range(3))
        for k in range(60):
            sent = bytes.fromhex(a.ask(**GBC, payload=f"{k:04x}")["frame"])
            air.run(0.01)
            while not (air.came(1, sent) and air.came(2, sent)):
                air.spread(0, sent)
                air.run(0.01)
        air.run(0.3)
        wanted = [f"{k:04x}" for k in range(60)]
        for d in (b, c):
            got = [e["payload"] for e in d.seen()]
            assert sorted(got) == wanted, [x for x in wanted if got.count(x) != 1]
        assert air.counts["lost"] and air.counts["twice"] and air.counts["overtaken"]
        notes.append(f"60 sends delivered once to each of two, over an air of {air.counts}")


def test_padded():
    with Net(PROGRAM, 1) as net:
        d, (end,) = net.station(0), net.ends()
        beacon = frames.beacon(OTHER, stamp())
        assert len(beacon) == frames.BEACON_LENGTH
        for frame in (beacon.ljust(60, b"\0"), beacon, beacon.ljust(60, b"\1"),
                      beacon.ljust(61, b"\0")):
            end.send(frame)
        counts = d.until(lambda n: n["link"]["frames"] == 4)
        assert counts["link"] == {"frames": 4, "padded": 1, "tagged": 0, "dropped": 0,
                                  "expired": 0, "kernel_dropped": 0, "forward_dropped": 0,
                                  "suppressed": 0, "repeated": 0, "over_rate": 0,
                                  "events_lost": 0}, counts
        assert (counts["accepted"], counts["refused"]["frame"]) == (2, 2), counts


def test_vlan():
    """Frames of another network aren't taken, to a group or to the MAC, nor those of its device."""
    tag = b"\x81\x00\x00\x05"
    with Net(PROGRAM, 1) as net:
        d, (end,) = net.station(0), net.ends()
        plain = frames.beacon(OTHER, stamp())
        for target in (b"\xff" * 6, bytes.fromhex("020000000100")):
            end.send(target + plain[6:12] + tag + plain[12:])
        count = 2
        try:
            ip("-n", net.names[0], "link", "add", "link", "v", "name", "v5", "type", "vlan", "id",
               "5")
            ip("-n", net.names[0], "link", "set", "v5", "up")
            end.send(plain[:12] + tag + plain[12:])
            count = 3
        except subprocess.CalledProcessError:
            notes.append("this kernel has no VLAN devices")
        end.send(plain)
        counts = d.until(lambda n: n["link"]["frames"] == count + 1)
        assert counts["link"]["tagged"] == count and counts["accepted"] == 1, counts
        assert counts["received"] == 1, counts


def test_starts_down():
    with Net(PROGRAM, 1) as net:
        ip("-n", net.names[0], "link", "set", "v", "down")
        d = net.station(0)
        assert d.event("link")["up"] is False
        ip("-n", net.names[0], "link", "set", "v", "up")
        assert d.event("link")["up"] is True


def test_clients():
    """One that reads has all; one that doesn't learns how many it lost; one asks without end."""
    with Net(PROGRAM, 1) as net, tempfile.TemporaryDirectory() as room:
        path = f"{room}/s"
        d, (end,) = net.station(0, "--port", 2002, "--listen", path), net.ends()
        assert os.stat(path).st_mode & 0o777 == 0o660
        (_, quick), (_, slow), (busy, _) = (connect(path) for _ in range(3))
        # (who isn't taken in yet has nothing of what comes)
        has({"event": "ready"}, json.loads(quick.readline()))
        has({"event": "ready"}, json.loads(slow.readline()))
        for k in range(2000):
            end.send(frames.gbc(OTHER, stamp(), k, struct.pack(">H", k) * 100))
            line = json.loads(quick.readline())
            assert line["payload"][:4] == f"{k:04x}", line
            d.event("delivered")
        read, lost = 0, 0
        while read + lost < 2000:
            found = json.loads(slow.readline())
            read += found["event"] == "delivered"
            lost += found.get("count", 0) if found["event"] == "lost" else 0
        assert lost > 0 and read + lost == 2000, (read, lost)
        assert d.counts()["link"]["events_lost"] >= lost
        end.send(frames.gbc(OTHER, stamp(), 2000, b"last"))
        has({"event": "delivered", "payload": b"last".hex()}, json.loads(slow.readline()))
        ask = b'{"do":"shb","port":1,"info":0,"tc":0,"payload":"' + b"00" * 1000 + b'"}\n'
        busy.setblocking(False)
        sent = 0
        try:
            while sent < 4 << 20:
                sent += busy.send(ask[sent % len(ask):])
        except BlockingIOError:
            pass
        has({"result": "counts"}, d.ask(do="counts"))
        assert sent < 4 << 20, "requests were read though no answer was"
        notes.append(f"a client that didn't read lost {lost} of 2000 events, and was told so")


def test_closed_output():
    """Standard output ends, and its place is no one else's; nor are closed files'."""
    with Net(PROGRAM, 1) as net, tempfile.TemporaryDirectory() as room:
        d = net.station(0, "--listen", f"{room}/s")
        d.process.stdout.close()
        d.put(do="counts")
        for k in range(20):
            s, lines = connect(f"{room}/s")
            s.sendall(b'{"id":%d,"do":"counts"}\n' % k)
            s.shutdown(socket.SHUT_WR)
            found = [json.loads(line) for line in lines]
            assert len(found) == 2 and found[1]["id"] == k, found
        has({"event": "ready"}, json.loads(connect(f"{room}/s")[1].readline()))
        d.process.send_signal(signal.SIGTERM)
        assert d.process.wait(PATIENCE) == 0
        shell = f'exec "$@" <&- >&- --listen {room}/s'
        p = subprocess.Popen(["sh", "-c", shell, "sh", *net.enter(0, PROGRAM, "--interface", "v",
                                                                  "--position", "0,0")])
        _, lines = connect_once_it_listens(f"{room}/s")
        has({"event": "ready"}, json.loads(lines.readline()))
        for number in (0, 1):
            assert os.readlink(f"/proc/{p.pid}/fd/{number}") == "/dev/null"
        p.terminate()
        assert p.wait(PATIENCE) == 0


def test_answers_wait():
    """Requests that are sent without reading: none is lost, they wait until answers have room."""
    with Net(PROGRAM, 1) as net, tempfile.TemporaryDirectory() as room:
        net.station(0, "--listen", f"{room}/s")
        s, lines = connect(f"{room}/s")
        sent, many = 0, b"{}\n" * 100000
        s.setblocking(False)
        try:
            while sent < len(many):
                sent += s.send(many[sent:])
        except BlockingIOError:
            pass
        s.settimeout(PATIENCE)
        s.shutdown(socket.SHUT_WR)
        found = [json.loads(line).get("line") for line in lines][1:]
        assert sent < len(many) and found == list(range(1, -(-sent // 3) + 1)), (sent, len(found))


def test_answers_in_order():
    """Many requests at once, each with its answer in its order; and the end of a client's input."""
    with Net(PROGRAM, 1) as net, tempfile.TemporaryDirectory() as room:
        net.station(0, "--listen", f"{room}/s")
        s, lines = connect(f"{room}/s")
        s.sendall(b"".join(b'{"id":%d,"do":"counts"}\n' % k for k in range(500)) + b" \r\n{}")
        s.shutdown(socket.SHUT_WR)
        found = [json.loads(line) for line in lines]
        assert [a.get("id") for a in found[1:501]] == list(range(500))
        assert found[501]["line"] == 502 and "error" in found[501], found[501:]
        assert len(found) == 502


def test_end():
    """SIGTERM and SIGINT: status 0, counts, no socket left; an old socket is replaced."""
    with Net(PROGRAM, 1) as net, tempfile.TemporaryDirectory() as room:
        path = f"{room}/s"
        for kind in (signal.SIGTERM, signal.SIGINT):
            d = net.station(0, "--listen", path)
            status, _, said = d.end(kind)
            counts = json.loads(said.splitlines()[-1])
            assert status == 0 and not os.path.exists(path), (status, said)
            assert list(counts)[-1] == "link" and counts["result"] == "counts", counts
        d = net.station(0, "--listen", path)
        d.end(signal.SIGKILL)
        assert os.path.exists(path)
        d = net.station(0, "--listen", path)
        d.process.stdin.close()
        has({"event": "ready"}, json.loads(connect(path)[1].readline()))
        assert d.process.poll() is None
        d.process.send_signal(signal.SIGTERM)
        assert d.process.wait(PATIENCE) == 0
        d = net.station(0)
        d.process.stdin.close()
        assert d.process.wait(PATIENCE) == 0


def flood(draws, beacon, gbc):
    """20,000 frames: of chance, nearly right, and of 5,000 sources."""
    for _ in range(5000):
        yield b"\xff" * 6 + draws.randbytes(6) + b"\x89\x47" + draws.randbytes(draws.randrange(400))
    for _ in range(5000):
        frame = bytearray(draws.choice((beacon, gbc)))
        for _ in range(draws.randrange(1, 4)):
            frame[draws.randrange(14, len(frame))] = draws.randrange(256)
        yield bytes(frame)
    for k in range(5000):
        yield frames.beacon(OTHER + 16 + k, stamp())
        yield frames.gbc(OTHER + 16 + k, stamp(), k, b"x" * 20)


def test_flood():
    """Memory afterwards is as after the first frames, and the station receives as before."""
    with Net(PROGRAM, 1) as net:
        d, (end,) = net.station(0, "--port", 2002), net.ends()
        made = frames.beacon(OTHER, stamp()), frames.gbc(OTHER, stamp(), 7, b"x" * 20)
        for k in range(100):
            end.send(frames.gbc(OTHER, stamp(), k, b"x" * 20))
            d.event("delivered")
        d.until(lambda n: n["link"]["frames"] >= 100)
        before = d.memory()
        sent = 100
        for frame in flood(random.Random(7), *made):
            end.send(frame)
            sent += 1
            if sent % 50 == 0:
                d.seen()
                d.until(lambda n: n["link"]["frames"] >= sent)
        counts = d.until(lambda n: n["link"]["frames"] >= sent)
        assert counts["refused"]["table_full"] > 0 and counts["refused"]["frame"] > 0, counts
        assert d.memory() == before, (before, d.memory())
        end.send(frames.gbc(OTHER, stamp(), 999, b"after"))
        while d.event("delivered")["payload"] != b"after".hex():
            pass
        notes.append(f"{sent} frames of a flood, and {before} kB of data before and after")


def test_busy():
    """Beacons go out though a frame comes each 5 ms."""
    with Net(PROGRAM, 1) as net:
        net.station(0)
        (end,) = net.ends()
        end.setblocking(False)
        limit, beacons = time.monotonic() + PATIENCE, 0
        while beacons < 2:
            assert time.monotonic() < limit, "no beacon"
            end.send(frames.shb(OTHER, stamp(), 1, b""))
            time.sleep(0.005)
            try:
                beacons += frames.kind_of(end.recv(2048)) == "beacon"
            except BlockingIOError:
                pass


def test_start_again():
    """A unit that starts anew isn't taken for its old self: its numbers begin elsewhere."""
    with Net(PROGRAM, 2) as net:
        air, numbers = Air(net.ends()), []
        b = net.station(1, "--port", 2002)
        for _ in range(3):
            a = net.station(0)
            sent = a.ask(**GBC, payload="aa")["frame"]
            numbers.append(sent[52:56])
            air.run(0.1)
            a.end()
        heard = [e for e in b.seen() if e["event"] == "delivered"]
        assert len(set(numbers)) > 1 and len(heard) == len(set(numbers)), (numbers, heard)


def test_clock_and_flags():
    """TST is TAI since 2004, PAI set; a fixed station tells a new TST; the flag of a mobile one."""
    for flag, mobile in ((("--mobile",), 1), (("--stationary",), 0)):
        with Net(PROGRAM, 1) as net:
            d, (end,) = net.station(0, *flag), net.ends()
            sent = bytes.fromhex(d.ask(**GBC, payload="")["frame"])
            told = frames.vector_of(sent)
            assert abs(told["stamp"] - stamp() % (1 << 32)) < 60000, (told, stamp())
            has({"pai": 1, "lat": frames.LAT, "lon": frames.LON, "speed": 0}, told)
            assert frames.mobile_of(sent) == mobile
            moved = d.ask(do="move", lat=1, lon=-2, pai=False, speed=-5, heading=9)
            has({"result": "moved"}, moved)
            first = frames.vector_of(bytes.fromhex(d.ask(**GBC, payload="")["frame"]))
            has({"lat": 1, "lon": -2, "pai": 0, "speed": -5, "heading": 9}, first)
            later = first
            while later["stamp"] == first["stamp"]:
                time.sleep(0.2)
                later = frames.vector_of(bytes.fromhex(d.ask(**GBC, payload="")["frame"]))
            assert {**later, "stamp": 0} == {**first, "stamp": 0}


def test_udp():
    a, b = udp(1, 47101, "127.0.0.1:47102"), udp(2, 47102, "127.0.0.1:47101")
    a.ask(**GBC, payload="01")
    assert b.event("delivered")["payload"] == "01"
    ip("route", "add", "239.0.0.0/8", "dev", "lo")
    group = "239.118.122.97:48947"
    trio = [udp(k, 48947, group) for k in (3, 4, 5)]
    trio[0].ask(**GBC, payload="02")
    assert [d.event("delivered")["payload"] for d in trio[1:]] == ["02", "02"]
    assert all(d.end()[0] == 0 for d in (a, b, *trio))


def test_rights():
    """CAP_NET_RAW alone is enough, and needed."""
    with Net(PROGRAM, 1) as net:
        place = ("--interface", "v", "--position", "0,0")
        alone = net.enter(0, "setpriv", "--bounding-set", "-all,+net_raw", PROGRAM, *place)
        d = Daemon(alone)
        has({"result": "sent"}, d.ask(**GBC, payload="00"))
        status = Path(f"/proc/{d.process.pid}/status").read_text()
        assert "CapEff:\t0000000000002000" in status, status
        assert d.end()[0] == 0
        none = net.enter(0, "setpriv", "--bounding-set", "-all", PROGRAM, *place)
        p = subprocess.run(none, stdin=subprocess.DEVNULL, capture_output=True, text=True)
        assert p.returncode == 3 and "CAP_NET_RAW" in p.stderr, p


def test_arguments():
    """What is wrong is said in a sentence, with status 2, or 3 where the system refused it."""
    place, address = ["--position", "0,0"], ["--address", "3c00020000000001"]
    to = ["--udp", "127.0.0.1:0", "--to", "127.0.0.1:9"]
    wrong = [
        [], ["--nonsense"], ["--interface", "lo"], [*to, *place],
        ["--interface", "lo", *place, "x"],
        [*to, *address], [*to, *address, *place, "--station-type", "1"],
        [*to[:2], *address, *place], [*to[2:], "--interface", "lo", *place],
        ["--udp", "127.0.0.1:0", "--to", "127.0.0.1", *place, *address],
        ["--interface", "lo", "--udp", "127.0.0.1:0", *place],
        ["--interface", "lo", *place, "--port", "1", "--port", "1"],
        *(["--interface", "lo", *place, *more.split()] for more in (
            "--station-type 32", "--capacity 4097", "--capacity 0", "--remember 65",
            "--port 65536", "--forward-spread 1001", "--gps-timeout 0", "--client-timeout 86401",
            "--forward-rate 1000001", "--source-burst -1", "--hop-cap 256", "--deliver-once 2",
            "--first-number 65536", "--pai-metres 0", "--pai-metres 1001", "--stationary --mobile",
            "--config /nosuch", "--address 3c00030000000000", "--address 3c0002000000000")),
        *(["--interface", "lo", "--position", p] for p in
          ("91,0", "x", "1,2x", "1", "0,180.0000001", "1.12345678,0", "1.,0", "+1,0", "-,0")),
    ]
    refused = [["--interface", "nosuch0", *place],
               ["--udp", "10.99.99.99:5", *to[2:], *place, *address],
               ["--interface", "lo", *place, "--listen", "/nosuch/folder"]]
    for status, cases in ((2, wrong), (3, refused)):
        for case in cases:
            p = subprocess.run([PROGRAM, *case], stdin=subprocess.DEVNULL, capture_output=True,
                               text=True, timeout=PATIENCE)
            assert p.returncode == status and "geostation-link: " in p.stderr, (case, p)
    for option, said in (("--help", "geostation-link: one"), ("--version", "geostation-link 0")):
        p = subprocess.run([PROGRAM, option], capture_output=True, text=True, timeout=PATIENCE)
        assert p.returncode == 0 and p.stdout.startswith(said), p
    far = udp(1, 47501, "127.0.0.1:47502", place=("--position", "-90,-180.0000000"))
    told = frames.vector_of(bytes.fromhex(far.ask(do="shb", port=1, info=0, tc=0, payload="")
                                          ["frame"]))
    has({"lat": -900000000, "lon": -1800000000}, told)
    far.end()


def main():
    tests = {}
    for module in (sys.modules[__name__], test_client_rights, test_clock, test_contention,
                   test_faults, test_fixes, test_forger, test_limits, test_own, test_security,
                   test_service, test_standard, test_verdict):
        named = ((k, v) for k, v in vars(module).items() if k.startswith("test_"))
        found = {k: v for k, v in named if callable(v)}
        assert not tests.keys() & found.keys(), tests.keys() & found.keys()
        tests.update(found)
    failed = []
    for name in sys.argv[2:] or tests:
        started = time.monotonic()
        try:
            tests[name]()
            print(f"{name} passed, {time.monotonic() - started:.1f} s", flush=True)
        except Exception:
            traceback.print_exc()
            failed.append(name)
    if failed:
        print("failed:", *failed)
        return 1
    print(f"{len(sys.argv[2:]) or len(tests)} tests on links: {'; '.join(notes)}")
    return 0


if __name__ == "__main__":
    sys.exit(main())
