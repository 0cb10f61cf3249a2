"""What clients may do, to which ports they listen, and what is kept of their requests."""

import json
import os
import signal
import socket
import subprocess
import sys
import tempfile
from pathlib import Path

import frames
from common import (OTHER, PROGRAM, connect, connect_once_it_listens, has, run, stamp, udp, until,
                    write)
from frames import GBC
from net import PATIENCE, Net
from test_security import LONG, Bench

PORT = 48101
SHB = {"do": "shb", "info": 0, "tc": 0, "payload": "00"}
NOT_ALLOWED = {"result": "refused", "code": "not allowed"}


class Client:
    def __init__(self, path):
        self.socket, self.lines = connect(path)
        self.events, self.asked = [], 0
        has({"event": "ready"}, json.loads(self.lines.readline()))

    def ask(self, **keys):
        self.asked += 1
        return self.ask_line(json.dumps({"id": self.asked, **keys}).encode())

    def ask_line(self, line):
        self.socket.sendall(line + b"\n")
        while "event" in (answer := json.loads(self.lines.readline())):
            self.events.append(answer)
        return answer

    def payloads(self):
        """Those that came so far: an answer comes behind them."""
        self.ask(do="counts")
        found = [e["payload"] for e in self.events if e["event"] == "delivered"]
        self.events = []
        return found

    def close(self):
        self.lines.close()
        self.socket.close()


class Air:
    """Sends payloads to the station."""

    def __init__(self):
        self.socket = socket.socket(socket.AF_INET, socket.SOCK_DGRAM)
        self.number = 0

    def send(self, d, port):
        self.number += 1
        before = d.counts()["received"]
        frame = frames.gbc(OTHER, stamp(), self.number, bytes([self.number]), port=port)
        self.socket.sendto(frame, ("127.0.0.1", PORT))
        d.until(lambda n: n["received"] == before + 1)
        return f"{self.number:02x}"


def station(room, *limited):
    more = [x for k, rights in enumerate(limited) for x in ("--listen-limited",
                                                           f"{room}/{k} {rights}")]
    d = udp(1, PORT, f"127.0.0.1:{PORT + 1}", more=("--listen", f"{room}/all", *more))
    return d, [Client(f"{room}/{k}") for k in range(len(limited))]


def test_limited_to_sending():
    with tempfile.TemporaryDirectory() as room:
        d, (c,) = station(room, "send port=2002 port=2003")
        for port in (2002, 2003):
            has({"result": "sent"}, c.ask(**SHB, port=port))
        has({"result": "sent"}, c.ask(**{**GBC, "payload": "00", "port": 2002}))
        number = d.ask(**GBC, payload="00")["frame"][52:56]
        frame = frames.gbc(OTHER, stamp(), 1, b"x").hex()
        refused = [{**SHB, "port": 2004}, {**GBC, "payload": "00", "port": 1},
                   {**GBC, "do": "gac", "payload": "00", "port": 1},
                   {"do": "open", "port": 2003}, {"do": "close", "port": 2002},
                   {"do": "restart", "number": 1}, {"do": "tick", "jitter": 0},
                   {"do": "tick", "jitter": 750}, {"do": "receive", "frame": frame},
                   {"do": "receive", "frame": "00"},
                   {"do": "move", "lat": 1, "lon": 2, "pai": True, "speed": 0, "heading": 0}]
        for keys in refused:
            answer = c.ask(**keys)
            has({**NOT_ALLOWED, "id": c.asked}, answer)
            assert "reason" in answer and "at" in answer, answer
        for line in (b'{"do":"\\u0072estart","number":1}', b'{"do":"open","p\\u006frt":2002}'):
            has(NOT_ALLOWED, c.ask_line(line))
        for keys in ({"do": "counts"}, {"do": "neighbours"}, {"do": "next_beacon", "jitter": 0},
                     {"do": "look_up", "address": f"{OTHER:016x}"}):
            assert c.ask(**keys)["result"] != "refused", keys
        has({"result": "refused", "code": "S6"}, c.ask(**{**SHB, "port": 2002,
                                                          "payload": "00" * 1395}))
        sent = bytes.fromhex(d.ask(**GBC, payload="00")["frame"])
        has({"lat": frames.LAT, "lon": frames.LON}, frames.vector_of(sent))
        assert int.from_bytes(sent[26:28], "big") == (int(number, 16) + 1) & 0xFFFF
        air = Air()
        air.send(d, 2002)
        assert c.payloads() == [] and len(d.seen()) > 0
        assert d.end()[0] == 0


def test_limited_to_listening():
    with tempfile.TemporaryDirectory() as room:
        d, (one, two) = station(room, "listen port=2002 port=7", "send listen")
        air = Air()
        has({"result": "opened"}, one.ask(do="open", port=7))
        for keys in ({"do": "open", "port": 8}, {"do": "close", "port": 2002},
                     {**SHB, "port": 2002}):
            has(NOT_ALLOWED, one.ask(**keys))
        has({"code": "S8 B2"}, one.ask(do="open", port=2002))
        has({"result": "opened"}, two.ask(do="open", port=8))
        has(NOT_ALLOWED, two.ask(do="close", port=7))
        has(NOT_ALLOWED, two.ask(do="close", port=2002))
        sent = [air.send(d, port) for port in (2002, 7, 8)]
        assert one.payloads() == sent[:2] and two.payloads() == sent
        # what it opened, others closed and opened again
        has({"result": "closed"}, d.ask(do="close", port=8))
        has(NOT_ALLOWED, two.ask(do="close", port=8))
        has({"result": "opened"}, d.ask(do="open", port=8))
        has(NOT_ALLOWED, two.ask(do="close", port=8))
        has({"result": "closed"}, one.ask(do="close", port=7))
        has({"result": "opened"}, one.ask(do="open", port=7))
        has({"result": "restarted"}, d.ask(do="restart", number=1))
        has(NOT_ALLOWED, one.ask(do="close", port=7))
        assert d.end()[0] == 0


def test_subscriptions():
    """A client has all payloads until it subscribes; then those of its ports."""
    with tempfile.TemporaryDirectory() as room:
        d, _ = station(room)
        air, c, other = Air(), Client(f"{room}/all"), Client(f"{room}/all")
        has({"result": "opened"}, c.ask(do="open", port=7))
        first = air.send(d, 7)
        answer = c.ask(do="subscribe", port=2002)
        assert list(answer) == ["id", "at", "result"] and answer["result"] == "subscribed", answer
        has({"result": "subscribed"}, c.ask(do="subscribe", port=2002))
        sent = [air.send(d, port) for port in (7, 2002)]
        assert c.payloads() == [first, sent[1]] and other.payloads() == [first, *sent]
        has({"result": "unsubscribed"}, c.ask(do="unsubscribe", port=2002))
        has({"result": "subscribed"}, c.ask(do="subscribe", port=7))
        sent = [air.send(d, port) for port in (7, 2002)]
        assert c.payloads() == sent[:1] and other.payloads() == sent
        for keys in ({"port": 65536}, {"port": -1}, {"port": "7"}, {"port": 1.5}, {}):
            answer = c.ask(do="subscribe", **keys)
            has({"id": c.asked, "line": c.asked, "error": "port"}, answer)
        has({"error": "do"}, c.ask(do="subscribed", port=7))
        has({"line": c.asked + 1, "error": "do"}, c.ask_line(b'{"port":7,"do":"none"}'))
        fresh = Client(f"{room}/all")
        for port in range(64):
            has({"result": "subscribed"}, fresh.ask(do="subscribe", port=port))
        has({"result": "refused", "code": "S8 B3"}, fresh.ask(do="subscribe", port=64))
        assert d.end()[0] == 0


def ready_line(path, user):
    """The first line that a client of another user gets, or nothing."""
    code = ("import os, socket, sys; os.setgid(int(sys.argv[2])); os.setuid(int(sys.argv[2])); "
            "s = socket.socket(socket.AF_UNIX); s.connect(sys.argv[1]); print(s.recv(4096))")
    p = subprocess.run([sys.executable, "-c", code, path, str(user)], capture_output=True,
                       text=True, timeout=PATIENCE)
    return p.stdout


def test_users():
    """A socket that names its user is open to that one and to root, by the kernel's word."""
    if os.geteuid() != 0:
        return
    with tempfile.TemporaryDirectory() as room:
        os.chmod(room, 0o755)
        d = udp(1, PORT, f"127.0.0.1:{PORT + 1}",
                more=("--listen-limited", f"{room}/s send user=nobody"))
        nobody = int(subprocess.run(["id", "-u", "nobody"], capture_output=True, text=True,
                                    check=True).stdout)
        assert os.stat(f"{room}/s").st_mode & 0o777 == 0o666
        for user, is_let in ((nobody, True), (0, True), (1, False)):
            assert ("ready" in ready_line(f"{room}/s", user)) == is_let, user
        d.process.stdin.close()
        connect_once_it_listens(f"{room}/s")  # a socket keeps the program running
        d.process.terminate()
        assert d.process.wait(PATIENCE) == 0
        assert d.process.stderr.read().count(b"only user nobody may connect") == 1


def test_wrong_rights():
    place = ("--udp", "127.0.0.1:48103", "--to", "127.0.0.1:48104", "--address",
             "3c00020000000001", "--position", "1,2")
    long = "/" + "x" * 107
    with tempfile.TemporaryDirectory() as room:
        for value, said in (("", "the path needs 1 to 107 bytes"),
                            (f"{long} send", "the path needs"),
                            ("/run/x", "after the path comes send, listen or both"),
                            ("/run/x port=1", "after the path comes"),
                            ("/run/x send port=65536", "port= needs"),
                            ("/run/x send port=1 port=1", "port= needs"),
                            ("/run/x send port=-1", "port= needs"),
                            ("/run/x send user=a user=b", "user= needs"),
                            ("/run/x send listens", "rights are send, listen, port=N and user="),
                            ("/run/x send user=no-such-user", "there is no such user")):
            for more in (("--check-config",), ()):
                p = run(*place, "--listen-limited", value, *more)
                assert p.returncode == 2 and said in p.stderr, (value, p)
        p = run(*place, "--check-config", *("--listen-limited", "/run/x send") * 2)
        assert p.returncode == 2 and "need a path each" in p.stderr, p
        many = [x for k in range(9) for x in ("--listen-limited", f"/run/{k} send")]
        p = run(*place, "--check-config", *many)
        assert p.returncode == 2 and "more than 8 such sockets" in p.stderr, p
        good = write(f"{room}/good", "listen-limited =  /run/x   send\tport=1 port=2 listen\n")
        p = run(*place, "--check-config", "--config", good)
        assert (p.returncode, p.stderr) == (0, ""), p


def test_audit():
    """A line for each packet of an application that was sent: who asked, and what was sent."""
    with tempfile.TemporaryDirectory() as room:
        path = f"{room}/audit"
        d = udp(1, PORT, f"127.0.0.1:{PORT + 1}", more=("--listen", f"{room}/all", "--audit", path))
        c = Client(f"{room}/all")
        frame = bytes.fromhex(c.ask(**{**GBC, "payload": "abcd"})["frame"])
        answer = d.ask(**SHB, port=7)
        has({"code": "S6"}, c.ask(**{**SHB, "port": 2002, "payload": "00" * 1395}))
        first, second = (json.loads(line) for line in Path(path).read_text().splitlines())
        assert list(first) == ["at", "audit", "socket", "user", "process", "source", "number",
                               "port", "payload"], first
        has({"audit": "gbc", "socket": f"{room}/all", "user": os.getuid(), "process": os.getpid(),
             "source": d.ready["address"], "number": int.from_bytes(frame[26:28], "big"),
             "port": 2002, "payload": "abcd"}, first)
        has({"at": answer["at"], "audit": "shb", "socket": "-", "process": os.getpid(), "port": 7,
             "payload": "00"}, {**second, "at": answer["at"]})
        assert 0 <= second["at"] - answer["at"] < 20000
        os.rename(path, f"{path}.1")  # as logrotate does
        d.process.send_signal(signal.SIGHUP)
        until(lambda: os.path.exists(path), "it isn't opened again")
        has({"result": "sent"}, d.ask(**SHB, port=8))
        has({"port": 8}, json.loads(Path(path).read_text()))
        assert d.end()[0] == 0
        assert os.stat(path).st_mode & 0o777 == 0o640
        p = run("--udp", "127.0.0.1:0", "--to", "127.0.0.1:9", "--address", "3c00020000000001",
                "--position", "1,2", "--audit", "/nosuch/file")
        assert p.returncode == 3 and "--audit /nosuch/file: No such file" in p.stderr, p
    d = udp(1, PORT, f"127.0.0.1:{PORT + 1}", more=("--audit", "-"))
    has({"result": "sent"}, d.ask(**SHB, port=9))
    lines = d.end()[2].splitlines()
    assert sum(b'"audit":"shb"' in line and b'"port":9' in line for line in lines) == 1, lines


def test_audit_of_signed_packets():
    """It has what was signed, and nothing if that was not sent."""
    with tempfile.TemporaryDirectory() as room, Bench(*LONG, "--audit", f"{room}/audit") as b:
        b.daemon.put(**GBC, payload="01")
        b.entity.sign(b.next_of("sign"))
        has({"result": "sent"}, b.daemon.answer())
        b.daemon.put(**GBC, payload="02")
        b.entity.say(id=b.next_of("sign")["id"], error="no")
        has({"code": "not signed"}, b.daemon.answer())
        has({"audit": "gbc", "payload": "01"}, json.loads(Path(f"{room}/audit").read_text()))


def test_new_address():
    """`restart` with an address: for a new pseudonym, while the program runs."""
    with Net(PROGRAM, 2) as net:
        d, (end, _) = net.station(0, "--port", 2002), net.ends()
        old = d.ready["address"]
        own = [d.ask(**GBC, payload="00"), d.ask(do="counts")]
        for wrong in ("3c00010000000001", "3c0002", 5, "3c000200000000xx"):
            has({"id": 1, "error": "address"}, d.ask(id=1, do="restart", number=7, address=wrong))
        new = "3c000200000000cc"
        has({"id": 2, "result": "restarted"}, d.ask(id=2, do="restart", number=7, address=new))
        has({"address": new}, d.event("address"))
        sent = bytes.fromhex(d.ask(**GBC, payload="00")["frame"])
        has({"address": int(new, 16), "lat": frames.LAT}, frames.vector_of(sent))
        assert sent[6:12].hex() == new[4:] and sent[26:28] == b"\0\7", sent.hex()
        has({"result": "opened"}, d.ask(do="open", port=2002))  # a restart closes ports
        target = bytes.fromhex(new[4:])
        frame = frames.gbc(OTHER, stamp(), 1, b"to the new one")
        end.send(target + frame[6:])
        assert d.event("delivered")["payload"] == b"to the new one".hex()
        counts = d.counts()
        assert counts["sent"]["geobroadcasts"] == 2, (own, counts)
        end.settimeout(10)
        seen = set()
        while f"{int(new, 16):016x}" not in seen:  # a beacon
            got = end.recv(2048)
            if frames.kind_of(got) == "beacon":
                seen.add(f"{frames.vector_of(got)['address']:016x}")
        assert seen <= {old, new}, seen
        assert d.end()[0] == 0
