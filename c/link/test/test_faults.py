"""What goes wrong around the daemon: clients, the link, its output, its limits."""

import json
import os
import resource
import shutil
import signal
import socket
import subprocess
import tempfile
import time
from contextlib import ExitStack
from pathlib import Path

import frames
from common import (OTHER, PLACE, PROGRAM, connect, gbc, has, has_no_clock, notes, now_ms, run,
                    stamp, stopped_clock, udp, until)
from frames import GBC
from net import PATIENCE, Daemon, Net, ip, wait_for_link

REQUEST = json.dumps({**GBC, "payload": "00"}).encode() + b"\n"


def descriptors(d):
    return len(os.listdir(f"/proc/{d.process.pid}/fd"))


def test_descriptors_stay():
    """Clients that end while something waits for them leave no descriptor open."""
    with Net(PROGRAM, 1) as net, tempfile.TemporaryDirectory() as room:
        path = f"{room}/s"
        d, (end,) = net.station(0, "--port", 2002, "--listen", path), net.ends()
        d.seen()
        before = descriptors(d)
        for k in range(60):
            s, lines = connect(path)
            lines.readline()
            s.sendall(b'{"do":"counts"}\n{"do":' if k % 2 else b'{"do":')
            end.send(gbc(k))
            d.event("delivered")
            lines.close()
            s.close()
        until(lambda: descriptors(d) == before, "descriptors are left open")
        _, lines = connect(path)
        has({"event": "ready"}, json.loads(lines.readline()))


def test_request_then_close():
    """A client that sends one request and closes at once is served."""
    with Net(PROGRAM, 1) as net, tempfile.TemporaryDirectory() as room:
        d = net.station(0, "--listen", f"{room}/s")
        for _ in range(200):
            s, lines = connect(f"{room}/s")
            s.sendall(REQUEST)
            lines.close()
            s.close()
        counts = d.until(lambda n: n["sent"]["geobroadcasts"] == 200)
        assert counts["link"]["dropped"] == 0, counts


def limited(kind, amount):
    return lambda: resource.setrlimit(kind, (amount, amount))


def test_no_descriptor():
    """Without a free descriptor who connects is hung up on, and the process doesn't spin."""
    with Net(PROGRAM, 1) as net, tempfile.TemporaryDirectory() as room, ExitStack() as held:
        few = 64
        taken = [held.enter_context(open(os.devnull, "rb")).fileno() for _ in range(few)]
        d = Daemon(net.enter(0, PROGRAM, "--interface", "v", *PLACE, "--listen", f"{room}/s"),
                   preexec_fn=limited(resource.RLIMIT_NOFILE, few),
                   pass_fds=[k for k in taken if k < few - 18])
        left = few - sum(int(k) < few for k in os.listdir(f"/proc/{d.process.pid}/fd"))
        assert left < 16, left
        some = [connect(f"{room}/s") for _ in range(left)]
        for _, lines in some:
            has({"event": "ready"}, json.loads(lines.readline()))
        for _ in range(5):
            assert connect(f"{room}/s")[1].readline() == b""
        before = Path(f"/proc/{d.process.pid}/schedstat").read_text().split()[0]
        time.sleep(0.5)
        after = Path(f"/proc/{d.process.pid}/schedstat").read_text().split()[0]
        assert int(after) - int(before) < 100_000_000, "it spins"
        some[0][1].close()
        some[0][0].close()
        until(lambda: connect(f"{room}/s")[1].readline() != b"", "no one is served any more")
        assert b"turned away" in d.end()[2]


def test_idle_client():
    """The client that is idle for the longest time is closed if another waits, and not before."""
    with Net(PROGRAM, 1) as net, tempfile.TemporaryDirectory() as room:
        path = f"{room}/s"
        d = net.station(0, "--listen", path, "--client-timeout", 1)
        some = [connect(path) for _ in range(16)]
        for _, lines in some:
            has({"event": "ready"}, json.loads(lines.readline()))
        time.sleep(1.5)
        for s, lines in some[1:]:
            s.sendall(b'{"do":"counts"}\n')
            has({"result": "counts"}, json.loads(lines.readline()))
        _, late = connect(path)
        has({"event": "ready"}, json.loads(late.readline()))
        has({"event": "closed"}, json.loads(some[0][1].readline()))
        assert some[0][1].readline() == b""
        some[1][0].sendall(b'{"do":"counts"}\n')
        has({"result": "counts"}, json.loads(some[1][1].readline()))
        assert b"an idle client was closed" in d.end()[2]


def test_link_down():
    """A request is answered by `sent` only if the link took the frame."""
    with Net(PROGRAM, 1) as net:
        d = net.station(0)
        down = {"result": "refused", "code": "link down"}
        ip("-n", net.names[0], "link", "set", "v", "down")
        assert d.event("link")["up"] is False
        answer = d.ask(id="x", **GBC, payload="00")
        has({"id": "x", **down}, answer)
        assert "frame" not in answer and "reason" in answer, answer
        assert d.counts()["link"]["dropped"] == 1
        ip("-n", net.names[0], "link", "set", "v", "up")
        assert d.event("link")["up"] is True
        has({"result": "sent"}, d.ask(**GBC, payload="00"))
        ip("-n", net.air, "link", "set", "a0", "down")
        assert d.event("link")["up"] is False
        has(down, d.ask(do="shb", port=1, info=0, tc=0, payload=""))


def test_queue_full():
    """What the queue of the interface doesn't take isn't `sent`."""
    if not shutil.which("tc"):
        notes.append("tc isn't installed: apt-get install iproute2")
        return
    with Net(PROGRAM, 1) as net:
        d, (end,) = net.station(0), net.ends()
        slow = ["tbf", "rate", "50kbit", "burst", "1540", "limit", "3000"]
        made = subprocess.run(net.enter(0, "tc", "qdisc", "add", "dev", "v", "root", *slow),
                              capture_output=True, text=True)
        if made.returncode != 0:
            notes.append("this kernel has no tbf queue")
            return
        answers = [d.ask(**GBC, payload=f"{k:04x}" + "00" * 200) for k in range(60)]
        sent = [a for a in answers if a["result"] == "sent"]
        full = [a for a in answers if a.get("code") == "queue full"]
        assert sent and full and len(sent) + len(full) == 60, answers
        assert d.counts()["link"]["dropped"] == len(full)
        end.settimeout(5)
        came = set()
        while len(came) < len(sent):
            frame = end.recv(2048)
            if frames.kind_of(frame) == "gbc":
                came.add(frame.hex())
        assert came == {a["frame"] for a in sent}


def test_stopped():
    """Frames that waited while the process was stopped have the times at which they came."""
    spare = 10  # ms: times are read one after the other, and are whole ms
    with Net(PROGRAM, 1) as net:
        d, (end,) = net.station(0, "--port", 2002), net.ends()
        end.send(gbc(0))
        d.event("delivered")
        d.process.send_signal(signal.SIGSTOP)
        wanted = []
        for k in range(1, 5):
            before = now_ms()
            end.send(gbc(k))
            wanted.append((before, now_ms()))
            time.sleep(0.4)
        d.process.send_signal(signal.SIGCONT)
        found = [d.event("delivered")["at"] for _ in wanted]
        for (before, after), at in zip(wanted, found):
            assert before - spare <= at <= after + spare, (wanted, found)


def test_kernel_drops():
    """Each frame that came was read, or is counted as dropped by the kernel."""
    with Net(PROGRAM, 1) as net:
        d, (end,) = net.station(0), net.ends()
        end.send(frames.beacon(OTHER, stamp()))
        d.until(lambda n: n["link"]["frames"] == 1)
        d.process.send_signal(signal.SIGSTOP)
        for k in range(30000):
            end.send(frames.beacon(OTHER + k % 64, stamp()))
        d.process.send_signal(signal.SIGCONT)
        counts = d.until(lambda n: n["link"]["frames"] + n["link"]["kernel_dropped"] == 30001)
        assert counts["link"]["kernel_dropped"] > 0, counts
        has({"link": counts["link"]}, d.ask(do="counts"))
        notes.append(f"{counts['link']['kernel_dropped']} of 30,000 frames counted as dropped")


def test_kernel_drops_of_udp():
    """The same on UDP."""
    d = udp(1, 47901, "127.0.0.1:47902")
    frame = frames.beacon(OTHER, stamp())
    d.process.send_signal(signal.SIGSTOP)
    with socket.socket(socket.AF_INET, socket.SOCK_DGRAM) as s:
        for _ in range(30000):
            s.sendto(frame, ("127.0.0.1", 47901))
    d.process.send_signal(signal.SIGCONT)
    counts = d.until(lambda n: n["link"]["frames"] + n["link"]["kernel_dropped"] == 30000)
    assert counts["link"]["kernel_dropped"] > 0, counts
    assert d.end()[0] == 0


def test_mac():
    """Another MAC is reported, and frames to the station's address are received as before."""
    with Net(PROGRAM, 1) as net:
        d, (end,) = net.station(0, "--port", 2002), net.ends()
        own = bytes.fromhex("020000000100")
        for mac in ("02:00:00:00:09:09", "02:00:00:00:01:00"):
            ip("-n", net.names[0], "link", "set", "v", "address", mac)
            assert d.event("mac")["mac"] == mac.replace(":", "")
            sent = gbc(int(mac[-2:]))
            end.send(own + sent[6:])
            d.event("delivered")
            assert bytes.fromhex(d.ask(**GBC, payload="00")["frame"])[6:12] == own


def test_interface_back():
    """An interface that goes and comes back is taken up again, and its counts go on."""
    with Net(PROGRAM, 1) as net:
        d, (end,), name = net.station(0, "--port", 2002), net.ends(), net.names[0]
        end.send(gbc(1))
        d.event("delivered")
        for k in (2, 3):
            ip("-n", name, "link", "del", "v")
            assert d.event("link")["up"] is False
            has({"code": "link down"}, d.ask(**GBC, payload="00"))
            ip("-n", net.air, "link", "add", "a0", "type", "veth", "peer", "name", "v", "netns",
               name)
            ip("-n", name, "link", "set", "v", "up")
            ip("-n", net.air, "link", "set", "a0", "up")
            wait_for_link(name, "v")
            assert d.event("link")["up"] is True
            (end,) = net.ends()
            end.send(gbc(k))
            d.event("delivered")
            has({"result": "sent"}, d.ask(**GBC, payload="00"))
        assert d.counts()["link"]["frames"] == 3
        status, _, said = d.end()
        assert status == 0 and b"the interface is back" in said, (status, said)


def test_full_output():
    """Standard output that takes no more ends the program with a sentence and status 3."""
    with Net(PROGRAM, 1) as net:
        place = ("--interface", "v", "--position", "0,0")
        with open("/dev/full", "wb") as full:
            p = subprocess.run(net.enter(0, PROGRAM, *place), stdin=subprocess.DEVNULL, stdout=full,
                               stderr=subprocess.PIPE, text=True, timeout=PATIENCE)
        assert p.returncode == 3 and "standard output: No space left" in p.stderr, p
        d = Daemon(net.enter(0, PROGRAM, *place))
        d.process.stdout.close()
        d.put(do="counts")
        assert d.process.wait(PATIENCE) == 3
        assert b"standard output: Broken pipe" in d.process.stderr.read()


def test_full_standard_error():
    """A standard error that nobody reads holds up nothing: no signal, no request, no end."""
    with Net(PROGRAM, 1) as net:
        d = net.station(0)
        for k in range(400):  # some 250 lines fill the pipe
            d.process.send_signal(signal.SIGUSR1)
            has({"id": k, "result": "counts"}, d.ask(id=k, do="counts"))
        d.process.send_signal(signal.SIGTERM)
        assert d.process.wait(PATIENCE) == 0
        said = d.process.stderr.read()
        assert said.count(b"\n") < 400 and said.endswith(b"\n"), len(said)
        for line in said.splitlines():
            assert line.startswith(b"geostation-link: ") or json.loads(line)["link"], line


def test_address_conflict():
    """Packets of the station's address count if it didn't send them, and none that comes back."""
    with Net(PROGRAM, 1) as net, tempfile.TemporaryDirectory() as room:
        d, (end,) = net.station(0, "--metrics", f"{room}/m"), net.ends()

        def conflicts():
            s, lines = connect(f"{room}/m")
            found = read_metrics(lines.read().decode())
            s.close()
            return found["geostation_address_conflicts_total"]

        own = int(d.ready["address"], 16)
        sent = bytes.fromhex(d.ask(**GBC, payload="00")["frame"])
        number = int.from_bytes(sent[26:28], "big")
        shb = bytes.fromhex(d.ask(do="shb", port=1, info=0, tc=0, payload="")["frame"])
        other = bytes.fromhex("0200000000ee")
        echo = sent[:6] + other + sent[12:17] + b"\x09" + sent[18:]
        earlier = frames.gbc(own, stamp() - 60000, number + 7, b"x")
        for frame in (echo, shb, shb.ljust(60, b"\0"), earlier):
            end.send(frame)
        d.until(lambda n: n["ignored"]["own_source"] == 4)
        assert conflicts() == 0
        foreign = (frames.gbc(own, stamp(), number + 1, b"x"), frames.beacon(own, stamp()),
                   frames.shb(own, stamp(), 1, b"x"))
        for k, frame in enumerate(foreign, 1):
            end.send(frame[:6] + other + frame[12:])
            d.until(lambda n, k=k: n["ignored"]["own_source"] == 4 + k)
            assert conflicts() == k
        events = [e for e in d.seen() if e["event"] == "conflict"]
        assert [list(e) for e in events] == [["at", "event", "mac"]], events
        has({"mac": other.hex()}, events[0])
        status, _, said = d.end()
        assert status == 0 and said.count(b"another station uses the address") == 1, said


def test_own_packets_over_multicast():
    """Over UDP a station may get its own packets back: that is no conflict."""
    ip("route", "add", "239.1.0.0/16", "dev", "lo")
    with tempfile.TemporaryDirectory() as room:
        d = udp(3, 48948, "239.1.122.97:48948", more=("--metrics", f"{room}/m"))
        for k in range(20):
            has({"result": "sent"}, d.ask(do="shb", port=1, info=0, tc=0, payload=f"{k:02x}"))
            has({"result": "sent"}, d.ask(**GBC, payload=f"{k:02x}"))
        d.until(lambda n: n["ignored"]["own_source"] >= 40)
        s, lines = connect(f"{room}/m")
        has({"geostation_address_conflicts_total": 0}, read_metrics(lines.read().decode()))
        s.close()
        assert d.end()[0] == 0


def test_limits():
    """A limit that is too low is named, with what is needed."""
    place = ("--interface", "lo", "--position", "0,0")
    p = run(*place, preexec_fn=limited(resource.RLIMIT_NOFILE, 16))
    assert p.returncode == 3 and "ulimit -n 64" in p.stderr, p
    said = set()
    for kilobytes in range(3000, 12000, 250):
        p = run(*place, preexec_fn=limited(resource.RLIMIT_AS, kilobytes * 1024))
        said.add(p.stderr.strip().splitlines()[-1][:40] if p.returncode == 3 else p.returncode)
    assert any("geostation-link: out of memory: --capaci" in str(x) for x in said), said


def relays(end, count):
    """The forwarded frames, by the number in them, and when each came."""
    found = {}
    while len(found) < count:
        frame = end.recv(2048)
        if frames.kind_of(frame) == "gbc" and frame[30:38] == OTHER.to_bytes(8, "big"):
            found[int.from_bytes(frame[26:28], "big")] = time.monotonic()
    return found


def gbcs_at(link):
    """The frames for an area that are there."""
    link.setblocking(False)
    found = []
    try:
        while True:
            found.append(link.recv(2048))
    except BlockingIOError:
        return [f for f in found if frames.kind_of(f) == "gbc"]


def test_forward_spread():
    """Each forwarded frame waits for a time of its own; frames of the station's own do not."""
    if has_no_clock():
        return
    with tempfile.TemporaryDirectory() as room, socket.socket(socket.AF_INET,
                                                              socket.SOCK_DGRAM) as link:
        link.bind(("127.0.0.1", 47912))
        clock = stopped_clock(room)
        d = udp(1, 47911, "127.0.0.1:47912", more=("--forward-spread", "400"),
                environment=clock.environment)
        for k in range(40):
            link.sendto(gbc(k), ("127.0.0.1", 47911))
        d.until(lambda n: n["relayed"] == 40)
        own = bytes.fromhex(d.ask(**GBC, payload="00")["frame"])
        steps = [gbcs_at(link)]
        assert own in steps[0] and len(steps[0]) < 20, len(steps[0])
        for _ in range(40):
            clock.wait(10)
            d.counts()  # it looks at its clock,
            d.counts()  # and did so before it answers again
            steps.append(gbcs_at(link))
        there = [len(found) for found in steps]
        assert sum(there) == 41 and max(there) < 20, there
        assert sum(there[:11]) < 35 and sum(there[20:]) > 5, there
        d.end()
        d = udp(1, 47911, "127.0.0.1:47912", more=("--forward-spread", "0"),
                environment=clock.environment)
        link.sendto(gbc(100), ("127.0.0.1", 47911))
        until(lambda: gbcs_at(link), "it isn't forwarded at once")
        has({"forward_dropped": 0}, d.counts()["link"])
        d.end()


def test_forwards_are_bounded():
    """256 frames wait at most; those for which there is no place are counted."""
    with Net(PROGRAM, 1) as net:
        d, (end,) = net.station(0, "--forward-spread", 1000), net.ends()
        for k in range(600):
            end.send(gbc(k))
        counts = d.until(lambda n: n["relayed"] == 600)
        dropped = counts["link"]["forward_dropped"]
        assert 0 < dropped <= 600 - 256, counts
        assert len(relays(end, 600 - dropped)) == 600 - dropped


def test_forwards_before_the_end():
    """A frame that waits when the program is to end is forwarded."""
    with Net(PROGRAM, 1) as net:
        d, (end,) = net.station(0, "--forward-spread", 1000), net.ends()
        for k in range(10):
            end.send(gbc(k))
        d.until(lambda n: n["relayed"] == 10)
        assert d.end()[0] == 0
        assert len(relays(end, 10)) == 10


def read_metrics(text):
    rows = [line.rsplit(" ", 1) for line in text.splitlines() if not line.startswith("#")]
    return {name: float(value) for name, value in rows}


def test_metrics():
    """The counts for Prometheus, at a socket and in a file that is replaced."""
    with Net(PROGRAM, 1) as net, tempfile.TemporaryDirectory() as room:
        (end,) = net.ends()
        d = net.station(0, "--port", 2002, "--metrics", f"{room}/m")
        end.send(gbc(1))
        d.event("delivered")
        for _ in range(20):
            s, lines = connect(f"{room}/m")
            text = lines.read().decode()
            s.close()
        found = read_metrics(text)
        wanted = {"received_total": 1, "accepted_total": 1, "delivered_total": 1,
                  "forwarded_total": 1, "link_frames_total": 1, "link_kernel_dropped_total": 0,
                  "link_up": 1, "clients": 1, 'ignored_total{why="duplicate"}': 0}
        has({f"geostation_{k}": v for k, v in wanted.items()}, found)
        names = [line.split()[2] for line in text.splitlines() if line.startswith("# TYPE")]
        assert len(names) == len(set(names)) and all(n.startswith("geostation_") for n in names)
        d.end()
        assert not os.path.exists(f"{room}/m")
        d = net.station(0, "--metrics", f"{room}/a.prom")
        until(lambda: os.path.exists(f"{room}/a.prom"), "no file")
        assert os.listdir(room) == ["a.prom"]
        has({"geostation_link_up": 1}, read_metrics(Path(f"{room}/a.prom").read_text()))
        d.end()
        d = net.station(0, "--metrics", f"{room}/no/a.prom")
        has({"result": "counts"}, d.ask(do="counts"))
        assert b"a.prom: No such file" in d.end()[2]
