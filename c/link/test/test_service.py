"""The daemon as a service: a service manager, a configuration file, signals."""

import json
import os
import signal
import socket
import subprocess
import tempfile
import time

import frames
from common import (PLACE, PROGRAM, connect, has, has_no_clock, run, stopped_clock, udp_command,
                    until, write)
from frames import GBC
from net import PATIENCE, Daemon, Net, ip, wait_for_link


class Manager:
    """A service manager's end of sd_notify."""

    def __init__(self, room, name="notify"):
        self.socket = socket.socket(socket.AF_UNIX, socket.SOCK_DGRAM)
        self.path = f"{room}/{name}" if not name.startswith("@") else name
        self.socket.bind(self.path.replace("@", "\0", 1))
        self.socket.settimeout(PATIENCE)

    def state(self):
        return self.socket.recv(4096).decode()

    def until(self, wanted):
        while (found := self.state()).split("\n")[0] != wanted:
            assert found == "WATCHDOG=1", found


def test_notify():
    """It says when it is ready, that it is alive, and that it stops."""
    with tempfile.TemporaryDirectory() as room:
        for name in ("notify", f"@geostation{os.getpid()}"):
            manager = Manager(room, name)
            started = time.monotonic()
            p = subprocess.Popen(udp_command(1, 47801, "127.0.0.1:47802"), stdin=subprocess.PIPE,
                                 stdout=subprocess.DEVNULL, stderr=subprocess.DEVNULL,
                                 env={"NOTIFY_SOCKET": manager.path, "WATCHDOG_USEC": "400000"})
            manager.until("READY=1")
            for _ in range(5):
                assert manager.state() == "WATCHDOG=1"
            assert time.monotonic() - started > 4 * 0.19  # each 0.2 s, and no more often
            p.terminate()
            manager.until("STOPPING=1")
            assert p.wait(PATIENCE) == 0
        manager = Manager(room, "other")
        p = subprocess.Popen(udp_command(1, 47801, "127.0.0.1:47802"), stdin=subprocess.PIPE,
                             stdout=subprocess.DEVNULL, stderr=subprocess.DEVNULL,
                             env={"NOTIFY_SOCKET": manager.path, "WATCHDOG_USEC": "400000",
                                  "WATCHDOG_PID": "1"})
        assert manager.state().startswith("READY=1")
        p.terminate()
        assert manager.state() == "STOPPING=1"
        p.wait(PATIENCE)


def test_wait_for_interface():
    """With --wait-interface it is ready before its interface is there, and starts once it is."""
    with Net(PROGRAM, 1) as net, tempfile.TemporaryDirectory() as room:
        manager = Manager(room)
        p = subprocess.Popen(net.enter(0, PROGRAM, "--wait-interface", "--interface", "late",
                                       *PLACE, "--listen", f"{room}/s"),
                             stdin=subprocess.DEVNULL, stdout=subprocess.DEVNULL,
                             stderr=subprocess.PIPE,
                             env={"NOTIFY_SOCKET": manager.path, "WATCHDOG_USEC": "1000000"})
        manager.until("READY=1")
        assert manager.state() == "WATCHDOG=1" and not os.path.exists(f"{room}/s")
        ip("-n", net.names[0], "link", "add", "late", "type", "veth", "peer", "name", "far")
        ip("-n", net.names[0], "link", "set", "late", "up")
        ip("-n", net.names[0], "link", "set", "far", "up")
        wait_for_link(net.names[0], "late")
        manager.until("READY=1")
        until(lambda: os.path.exists(f"{room}/s"), "no socket")
        p.terminate()
        assert p.wait(PATIENCE) == 0
        assert b"late: waiting for the interface" in p.stderr.read()
    p = run("--interface", "nosuch0", *PLACE)
    assert p.returncode == 3 and "nosuch0: there is no such interface" in p.stderr, p


def test_config():
    """A file says what the command line may say, and what is wrong in it is said by line."""
    with tempfile.TemporaryDirectory() as room:
        good = write(f"{room}/good.conf", """\
# a unit on a bench
udp = 127.0.0.1:47811
to = 127.0.0.1:47812
  address=3c00020000000001

position = 51.47765,-0.001
stationary
port = 2001
port = 2002
""")
        p = run("--config", good, "--check-config")
        assert (p.returncode, p.stdout, p.stderr) == (0, "", ""), p
        d = Daemon([PROGRAM, "--config", good, "--port", "2003"])
        for port in (2001, 2002, 2003):
            has({"code": "S8 B2"}, d.ask(do="open", port=port))
        assert d.end()[0] == 0
        for line, said in (("port = 70000", "port 70000: not a number from 0 to 65535"),
                           ("prt = 1", "prt: no such option in a configuration file"),
                           ("config = x", "config: no such option in a configuration file"),
                           ("port", "port: the value is missing"),
                           ("stationary = yes", "stationary yes: this option has no value"),
                           ("position = 91,0", "position 91,0: not LAT,LON"),
                           ("gpsd = ::1:2947", "gpsd ::1:2947: not HOST:PORT"),
                           ("forward-spread = 1001", "forward-spread 1001: not a number"),
                           ("gps-timeout = 0", "gps-timeout 0: not a number"),
                           ("client-timeout = x", "client-timeout x: not a number")):
            bad = write(f"{room}/bad.conf", f"# first\n{line}\n")
            p = run("--config", bad, "--check-config")
            assert p.returncode == 2 and f"{bad}:2: {said}" in p.stderr, (line, p)
        for bad, said in ((f"{room}/none", "No such file"), (room, "Is a directory"),
                          (write(f"{room}/long", "#" * 9000), "not a text of less than"),
                          (write(f"{room}/zero", "a\0"), "not a text of less than"),
                          (write(f"{room}/empty", ""), "is needed")):
            p = run("--config", bad, "--check-config")
            assert p.returncode == 2 and said in p.stderr, (bad, p)


def test_check_config():
    """It refuses what the start refuses, with the same status and the same sentence."""
    long, path, letters = "/run/" + "x" * 103, "/run/geostation-test", "x" * 30
    udp = "udp = 127.0.0.1:47831\nto = 127.0.0.1:47832\n"
    station = "address = 3c00020000000001\n"
    wrong = [
        (f"{udp}address = 3c00010000000001", ":3: address 3c00010000000001: its last 48 bits"),
        (f"interface = {letters}", f":1: interface {letters}: not a name"),
        ("interface = eth0 # radio", ":1: interface eth0 # radio: a comment needs a line"),
        ("interface = a b", ":1: interface a b: not a name"),
        ("interface =", ":1: interface : not a name"),
        ("interface = a/b", ":1: interface a/b: not a name"),
        *((f"{udp}{station}{key} = {long}", f":4: {key} {long}: not a path of 1 to 107 bytes")
          for key in ("listen", "metrics", "security")),
        *((f"{udp}{station}{key} =", f":4: {key} : not a path") for key in ("listen", "security")),
        (f"{udp}{station}forward-rate = 0", "needs a limit of all that is low enough"),
        (f"{udp}{station}source-burst = 42", "needs a limit of all that is low enough"),
        (f"{udp}{station}security = {path}\nsecurity-user = no-such-user",
         "--security-user no-such-user: there is no such user"),
        (f"{udp}{station}security = {path}\nsecurity-user =", ":5: security-user : the value is"),
        (f"{udp}{station}listen = {path}\nmetrics = {path}", "need a path each"),
        (f"{udp}{station}listen = {path}\nsecurity = {path}", "need a path each"),
        (f"{udp}{station}listen = {path}\naudit = {path}", "need a path each"),
        (f"{udp}{station}metrics = {path}.prom\naudit = {path}.prom", "need a path each"),
        (f"udp = 127.0.0.1:47831\nto = 127.0.0.1:0\n{station}", ":2: to 0: not a number from 1"),
        (f"udp = 127.0.0.1:47831\nto = [::1]:47832\n{station}", "--to [::1]:47832: "),
    ]
    with tempfile.TemporaryDirectory() as room:
        for text, said in wrong:
            bad = write(f"{room}/bad.conf", f"{text}\nposition = 1,2\n")
            checked, started = run("--config", bad, "--check-config"), run("--config", bad)
            assert checked.returncode == started.returncode == 2, (text, checked, started)
            assert said in checked.stderr and started.stderr.endswith(checked.stderr), (
                checked, started)
        limit = "/run/" + "x" * 102
        good = write(f"{room}/good.conf", f"interface = fifteen-letters\nposition = 1,2\n"
                     f"listen = {limit}\nmetrics = {limit}y.prom\n")
        p = run("--config", good, "--check-config")
        assert (p.returncode, p.stderr) == (0, ""), p


def test_reload():
    """SIGHUP reads ports and the position again; a file that is wrong changes nothing."""
    with tempfile.TemporaryDirectory() as room:
        base = "udp = 127.0.0.1:47821\nto = 127.0.0.1:47822\naddress = 3c00020000000001\n"
        path = write(f"{room}/u.conf", f"{base}position = 1,2\nport = 1\nport = 2\n")
        d = Daemon([PROGRAM, "--config", path])

        def vector():
            return frames.vector_of(bytes.fromhex(d.ask(**GBC, payload="00")["frame"]))

        def hang_up(text, said):
            write(path, text)
            d.process.send_signal(signal.SIGHUP)
            got = b""
            while said not in got:
                got += os.read(d.process.stderr.fileno(), 65536)

        has({"lat": 10000000, "lon": 20000000}, vector())
        hang_up(f"{base}position = 3,4\nport = 2\nport = 3\n", b"were read again")
        has({"lat": 30000000, "lon": 40000000, "pai": 1}, vector())
        has({"code": "S8 B2"}, d.ask(do="open", port=2))
        has({"code": "S8 B2"}, d.ask(do="open", port=3))
        has({"result": "opened"}, d.ask(do="open", port=1))
        hang_up(f"{base}position = 5,6\nport = x\n", b"u.conf:5: port x")
        has({"lat": 30000000, "lon": 40000000}, vector())
        has({"code": "S8 B2"}, d.ask(do="open", port=3))
        assert d.end()[0] == 0


def test_drain():
    """Requests that came before SIGTERM are done, and answered."""
    if has_no_clock():
        return
    with Net(PROGRAM, 1) as net, tempfile.TemporaryDirectory() as room:
        d = net.station(0, "--port", 2002, "--listen", f"{room}/s",
                        environment=stopped_clock(room).environment)
        s, lines = connect(f"{room}/s")
        has({"event": "ready"}, json.loads(lines.readline()))
        d.process.send_signal(signal.SIGSTOP)
        for k in range(50):
            s.sendall(json.dumps({**GBC, "payload": "00", "id": k}).encode() + b"\n")
        d.process.send_signal(signal.SIGTERM)
        d.process.send_signal(signal.SIGCONT)
        found = [json.loads(line) for line in lines]
        assert [a.get("id") for a in found] == list(range(50)), found[-3:]
        assert all(a["result"] == "sent" for a in found)
        status, _, said = d.end()
        assert status == 0
        assert json.loads(said.splitlines()[-1])["sent"]["geobroadcasts"] == 50
