"""Namespaces with a wire to one air, and the daemons in them.

Nothing of the machine's own network is touched. Each wait ends with what it waits for; PATIENCE is
for what never comes.
"""

import ctypes
import json
import os
import select
import signal
import socket
import subprocess
import time
from contextlib import ExitStack, contextmanager
from pathlib import Path

PATIENCE = 120
LIBC = ctypes.CDLL(None, use_errno=True)
CLONE_NEWNET = 0x40000000
GEONETWORKING = 0x8947
NO_LIMITS = ("--forward-rate", "0", "--source-rate", "0", "--own-rate", "0", "--hop-cap", "0",
             "--deliver-once", "0")


def ip(*arguments):
    subprocess.run(["ip", *arguments], check=True, capture_output=True)


@contextmanager
def inside(namespace):
    """What is opened in here belongs to the namespace."""
    home = os.open("/proc/self/ns/net", os.O_RDONLY)
    there = os.open(f"/run/netns/{namespace}", os.O_RDONLY)
    assert LIBC.setns(there, CLONE_NEWNET) == 0
    try:
        yield
    finally:
        LIBC.setns(home, CLONE_NEWNET)
        os.close(home)
        os.close(there)


def raw(namespace, name):
    with inside(namespace):
        s = socket.socket(socket.AF_PACKET, socket.SOCK_RAW, 0)
        s.bind((name, GEONETWORKING))
        s.settimeout(PATIENCE)
        return s


def wait_for_link(namespace, name):
    """A wire takes up to a second to be up; what is sent before is lost."""
    shown = ["ip", "-n", namespace, "-o", "link", "show", name]
    while " state UP " not in subprocess.run(shown, capture_output=True, text=True).stdout:
        time.sleep(0.01)


class Net(ExitStack):
    """Namespaces s0, s1, .. with an interface `v` each, and the air's, with a0, a1, .. to them."""

    count = 0

    def __init__(self, program, stations):
        super().__init__()
        self.program = program
        Net.count += 1
        self.air = f"gl{os.getpid()}n{Net.count}air"
        self.names = [f"gl{os.getpid()}n{Net.count}s{k}" for k in range(stations)]
        try:
            self.make()
        except BaseException:
            self.close()
            raise

    def make(self):
        for name in [self.air, *self.names]:
            ip("netns", "add", name)
            self.callback(ip, "netns", "del", name)
            ip("-n", name, "link", "set", "lo", "up")
        for k, name in enumerate(self.names):
            ip("-n", self.air, "link", "add", f"a{k}", "type", "veth", "peer", "name", "v",
               "netns", name)
            ip("-n", name, "link", "set", "v", "address", f"02:00:00:00:01:{k:02x}", "up")
            ip("-n", self.air, "link", "set", f"a{k}", "up")
        for k, name in enumerate(self.names):
            wait_for_link(name, "v")
            wait_for_link(self.air, f"a{k}")

    def ends(self):
        """The air's sockets."""
        sockets = [raw(self.air, f"a{k}") for k in range(len(self.names))]
        for s in sockets:
            self.callback(s.close)
        return sockets

    def join(self):
        """One wire for three stations, of which the first and the last don't hear each other."""
        ip("-n", self.air, "link", "add", "br0", "type", "bridge")
        for k in range(3):
            ip("-n", self.air, "link", "set", f"a{k}", "master", "br0")
        for k in (0, 2):
            ip("-n", self.air, "link", "set", f"a{k}", "type", "bridge_slave", "isolated", "on")
        ip("-n", self.air, "link", "set", "br0", "up")

    def enter(self, k, *command):
        return ["nsenter", f"--net=/run/netns/{self.names[k]}", *map(str, command)]

    def station(self, k, *arguments, place=("--position", "51.47765,-0.001"), limits=False,
                environment=None):
        """A station, without limits on what it sends unless they are asked for."""
        more = () if limits else NO_LIMITS
        d = Daemon(self.enter(k, self.program, "--interface", "v", *place, *more, *arguments),
                   env=environment)
        self.callback(d.end)
        return d


class Daemon:
    def __init__(self, command, **more):
        pipe = subprocess.PIPE
        self.process = subprocess.Popen(command, stdin=pipe, stdout=pipe, stderr=pipe, **more)
        self.rest, self.events, self.said, self.noted = b"", [], b"", []
        self.ready = self.line()
        assert self.ready is not None, self.end()
        assert self.ready["event"] == "ready", self.ready

    def line(self, patience=PATIENCE):
        """The next line, or None where none comes or no more can."""
        limit = time.monotonic() + patience
        while b"\n" not in self.rest:
            left = max(limit - time.monotonic(), 0)
            if not select.select([self.process.stdout], [], [], left)[0]:
                return None
            got = os.read(self.process.stdout.fileno(), 65536)
            if not got:
                return None
            self.rest += got
        line, self.rest = self.rest.split(b"\n", 1)
        return json.loads(line)

    def put(self, **keys):
        self.process.stdin.write(json.dumps(keys).encode() + b"\n")
        self.process.stdin.flush()

    def ask(self, **keys):
        self.put(**keys)
        return self.answer()

    def answer(self):
        """The next answer. Events before it are kept."""
        while (line := self.line()) is not None:
            if "event" not in line:
                return line
            self.events.append(line)
        raise AssertionError(f"no answer: {self.process.poll()}")

    def event(self, kind):
        """The next event of a kind; those before it are passed over."""
        while True:
            line = self.events.pop(0) if self.events else self.line()
            assert line is not None, f"no event '{kind}'"
            if line.get("event") == kind:
                return line

    def seen(self):
        """All events up to now: an answer comes behind them."""
        self.ask(do="counts")
        events, self.events = self.events, []
        return events

    def counts(self):
        """The line that SIGUSR1 makes."""
        self.process.send_signal(signal.SIGUSR1)
        while not (counts := [x for x in self.said.split(b"\n")[:-1] if x.startswith(b"{")]):
            assert select.select([self.process.stderr], [], [], PATIENCE)[0], "no counts"
            self.said += os.read(self.process.stderr.fileno(), 65536)
        *lines, self.said = self.said.split(b"\n")
        self.noted += [line for line in lines if line != counts[-1]]
        return json.loads(counts[-1])

    def until(self, test):
        """Asks for the counts until they are as wanted."""
        limit = time.monotonic() + PATIENCE
        while not test(counts := self.counts()):
            assert time.monotonic() < limit, counts
            time.sleep(0.02)
        return counts

    def memory(self):
        """What the process may write to, in kB."""
        text = Path(f"/proc/{self.process.pid}/status").read_text()
        return next(int(line.split()[1]) for line in text.splitlines() if line.startswith("VmData"))

    def end(self, kind=signal.SIGTERM):
        if self.process.poll() is None:
            self.process.send_signal(kind)
        try:
            out, err = self.process.communicate(timeout=PATIENCE)
        except ValueError:
            out, err = b"", b""
        return self.process.returncode, out, b"\n".join([*self.noted, self.said + err])
