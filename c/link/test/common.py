"""What the tests of the daemon share."""

import os
import socket
import subprocess
import sys
import time
from pathlib import Path

import frames
from net import NO_LIMITS, PATIENCE, Daemon

PROGRAM = sys.argv[1]
TOP = Path(__file__).resolve().parents[3]
GEOSTATION = Path(os.environ.get("GEOSTATION") or TOP / "crates/geostation/out/geostation").absolute()
CLOCK = os.environ.get("GEOSTATION_TEST_CLOCK")
OTHER = 0x1400020000000009
PLACE = ("--position", "51.47765,-0.001")
notes = []


def has(wanted, found):
    assert wanted.items() <= found.items(), (wanted, found)


class Clock:
    """The clocks of one program (clock.c). They run, unless `at` says where they stand."""

    def __init__(self, room, off=0, synchronised=True, at=None):
        self.path, self.at = f"{room}/clock", at
        self.set(off, synchronised)
        self.environment = {**os.environ, "LD_PRELOAD": CLOCK, "CLOCK_FILE": self.path}

    def set(self, off, synchronised=True):
        stands = "" if self.at is None else f" {self.at}"
        with open(f"{self.path}.new", "w", encoding="ascii") as f:
            f.write(f"{off} {int(synchronised)}{stands}")
        os.rename(f"{self.path}.new", self.path)

    def wait(self, ms):
        """Clocks that stand go on by so much."""
        self.at += ms
        self.set(0)

    def catch_up(self):
        """Waits until it is as late as clocks that stand say. The kernel's time stamps are not set: a
        frame that is sent before has waited for the daemon, as it seems."""
        time.sleep(max(0, self.at / 1000 - time.time()))


def stopped_clock(room):
    """A program with it has no timeout before the test says so, however slow the machine is."""
    return Clock(room, at=int(time.time() * 1000))


def has_no_clock():
    if not CLOCK:
        notes.append("GEOSTATION_TEST_CLOCK names no clock: it was not set")
    return not CLOCK


def now_ms():
    """Milliseconds of TAI since 2004-01-01."""
    return int((time.time() + 5 - 1072915200) * 1000)


def stamp():
    return now_ms()


def connect(path):
    s = socket.socket(socket.AF_UNIX)
    s.connect(path)
    s.settimeout(PATIENCE)
    return s, s.makefile("rb")


def connect_once_it_listens(path):
    """A socket's name is there a little before anyone listens at it."""
    latest = time.monotonic() + PATIENCE
    while True:
        try:
            return connect(path)
        except (FileNotFoundError, ConnectionRefusedError):
            assert time.monotonic() < latest, f"no one listens at {path}"
            time.sleep(0.01)


def udp_command(number, port, *to, place=PLACE):
    peers = [x for t in to for x in ("--to", t)]
    return [PROGRAM, "--udp", f"127.0.0.1:{port}", *peers, "--address",
            f"3c0002000000000{number}", *place, "--port", "2002", *NO_LIMITS]


def udp(number, port, *to, place=PLACE, more=(), environment=None):
    return Daemon([*udp_command(number, port, *to, place=place), *more], env=environment)


def run(*arguments, **keys):
    return subprocess.run([PROGRAM, *arguments], stdin=subprocess.DEVNULL, capture_output=True,
                          text=True, timeout=PATIENCE, **keys)


def until(test, why):
    limit = time.monotonic() + PATIENCE
    while not (found := test()):
        assert time.monotonic() < limit, why
        time.sleep(0.02)
    return found


def write(path, text):
    Path(path).write_text(text)
    return path


def gbc(k, payload=b"x"):
    return frames.gbc(OTHER, stamp(), k, payload)
