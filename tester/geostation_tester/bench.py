"""An interface on which a purpose is played, and recorded.

One socket sends, another one sees what goes out and what comes in, in the order and with the time
stamps of the kernel.
"""

from __future__ import annotations

import math
import select
import socket
import struct
import time
from collections import deque
from typing import NamedTuple

from .actions import TRUSTED, UNKNOWN, UPPER
from .entity import Entity, NoEntity
from .frames import GEONETWORKING, Key, source_of
from .neighbours import Packet, Played
from .play import Step, steps
from .purposes import Purpose
from .recording import Recording
from .secured import is_secured, opened
from .station_file import PORTS, SECURED, STRANGER, StationFile
from .upper import Delivered, Upper

EPOCH, TAI = 1_072_915_200_000, 5_000  # ms
ALL_PROTOCOLS, OUTGOING = 3, 4
SO_TIMESTAMPNS, PACKET, MEMBERSHIP, STATISTICS, PROMISCUOUS = 35, 263, 1, 6, 1
BUFFER = 4 << 20  # octets that wait to be read
MOST_QUEUED = 4_096  # frames that are read after their time
FIRST_FRAME = 8.0  # s, how long the preamble waits
MARGIN = 100  # ms
ETHERTYPE = struct.pack(">H", GEONETWORKING)


class LostFrames(Exception):
    """The kernel had no room for frames: the recording isn't whole."""


class Partners(NamedTuple):
    """Other programs that a bench may have: an upper tester, a security entity with a key that the
    station under test trusts, and one with a key that it does not know."""

    upper: Upper | None = None
    entity: Entity | None = None
    stranger: Entity | None = None

    def names(self) -> set[str]:
        """Those that there are, as purposes need them."""
        named = {UPPER: self.upper, SECURED: self.entity, STRANGER: self.stranger}
        found = {name for name, partner in named.items() if partner is not None}
        return found | ({PORTS} if self.upper is not None and self.upper.opens_ports else set())

    def signers(self) -> dict[str, Entity]:
        """By the words of an action."""
        return {TRUSTED: self.entity, UNKNOWN: self.stranger}


class Sent(NamedTuple):
    """What the tester played, and the key of a packet for an area."""

    step: Step
    key: Key | None


class Record(NamedTuple):
    """`sent` is None for a frame that arrived. `refusal` says why the security entity refuses the
    message of an own packet of the station under test."""

    number: int
    stamp: int  # ns since 1970
    frame: bytes
    sent: Sent | None
    refusal: str = ""

    @property
    def packet_frame(self) -> bytes:
        """The frame with the plain part in place of a message."""
        return opened(self.frame)


def tai_ms(nanoseconds: int) -> int:
    """Ms of TAI since 2004-01-01 at a time in ns since 1970."""
    return nanoseconds // 1_000_000 - EPOCH + TAI


def now_ms() -> int:
    return tai_ms(time.time_ns())


def open_socket(interface: str, protocol: int) -> socket.socket:
    """A socket that sends on an interface, or sees all of its frames. An error names it."""
    try:
        return raw_socket(interface, protocol)
    except OSError as why:
        raise OSError(why.errno, why.strerror, interface) from None


def raw_socket(interface: str, protocol: int) -> socket.socket:
    found = socket.socket(socket.AF_PACKET, socket.SOCK_RAW, 0)
    found.setsockopt(socket.SOL_SOCKET, SO_TIMESTAMPNS, 1)
    found.setsockopt(socket.SOL_SOCKET, socket.SO_RCVBUF, BUFFER)
    if protocol:
        found.bind((interface, protocol))
        index = socket.if_nametoindex(interface)
        request = struct.pack("IHH8s", index, PROMISCUOUS, 0, bytes(8))
        found.setsockopt(PACKET, MEMBERSHIP, request)
    return found


class Bench:
    def __init__(
        self, interface: str, station: StationFile, recording: Recording, partners: Partners
    ):
        self.interface, self.station, self.recording = interface, station, recording
        self.partners = partners
        self.tap = open_socket(interface, ALL_PROTOCOLS)
        self.out = open_socket(interface, 0)
        self.last_sent = -math.inf  # by the monotonic clock
        self.sent: deque[Sent] = deque()  # of which the tap has seen nothing yet

    def close(self) -> None:
        self.tap.close()
        self.out.close()

    def listen(self, until: float) -> list[Record]:
        """Records what goes out and comes in, up to a time of the monotonic clock, and what the
        kernel has queued by then: a busy machine may be late."""
        found, late = [], 0
        while late < MOST_QUEUED:
            left = until - time.monotonic()
            late += left <= 0
            if not select.select([self.tap], [], [], max(left, 0))[0]:
                break
            found += self.read()
        return found

    def read(self) -> list[Record]:
        """One frame, if it is one of GeoNetworking."""
        frame, control, _, address = self.tap.recvmsg(65536, 64)
        if frame[12:14] != ETHERTYPE:
            return []
        return [self.record(frame, stamp_of(control), address[2] == OUTGOING)]

    def record(self, frame: bytes, stamp: int, is_outgoing: bool) -> Record:
        sent = self.sent.popleft() if is_outgoing and self.sent else None
        comment = sent.step.comment() if sent else self.origin(frame)
        refusal = "" if is_outgoing else self.refusal(frame, stamp)
        return Record(self.recording.put(stamp, frame, comment), stamp, frame, sent, refusal)

    def refusal(self, frame: bytes, stamp: int) -> str:
        """Why the security entity refuses the message of an own packet of the station under test,
        or nothing. It is asked at once, since it looks at the time."""
        is_own = source_of(opened(frame)) == self.station.source
        if self.partners.entity is None or not is_secured(frame) or not is_own:
            return ""
        try:
            return self.partners.entity.refusal(frame, tai_ms(stamp))
        except NoEntity as why:
            return str(why)

    def origin(self, frame: bytes) -> str:
        """Who sent a frame that arrived."""
        if frame[6:12] == self.station.mac:
            return "from the station under test"
        return f"from {frame[6:12].hex()}, which is neither the tester nor the station under test"

    def wait_until_forgotten(self) -> list[Record]:
        """Until the station knows none of the tester's stations any more."""
        age = (self.station.life + 2 * self.station.within + MARGIN) / 1000
        return self.listen(self.last_sent + age)

    def preamble(self, purpose: Purpose) -> tuple[bool, list[Record]]:
        """Silence, if the purpose needs it, and then a frame of the station under test."""
        found = self.wait_until_forgotten() if purpose.fresh else []
        latest = time.monotonic() + FIRST_FRAME
        while time.monotonic() < latest:
            new = self.listen(time.monotonic() + 0.05)
            found += new
            if any(r.frame[6:12] == self.station.mac for r in new):
                return True, found
        return False, found

    def do(self, step: Step, played: dict[str, Played], macs: dict[str, bytes]) -> None:
        if step.name == UPPER:
            self.partners.upper.ask(step.action, self.station.place)
            return
        frame, key = played[step.name].frame(now_ms(), step.action, macs)
        self.sent.append(Sent(step, key))
        self.last_sent = time.monotonic()
        self.out.sendto(frame, (self.interface, GEONETWORKING))

    def play(self, purpose: Purpose, records: list[Record]) -> None:
        """Plays a purpose, and waits for what its last frames cause. Adds its records."""
        made: dict[str, Packet] = {}
        signers = self.partners.signers()
        played = {n.name: Played(n, self.station, made, signers) for n in purpose.neighbours}
        macs = {n.name: n.mac for n in purpose.neighbours} | {"station": self.station.mac}
        # A forwarded packet that was received before the recording begins proves nothing.
        start = time.monotonic() + (self.station.within + MARGIN) / 1000
        for step in steps(purpose):
            records += self.listen(start + step.at / 1000)
            self.do(step, played, macs)
        wait = max(purpose.settle, 2 * self.station.within + MARGIN)
        records += self.listen(start + (purpose.length() + wait) / 1000)
        self.complain_of_lost_frames()

    def delivered(self) -> list[Delivered]:
        """What the upper tester has reported since the last call."""
        return self.partners.upper.events() if self.partners.upper else []

    def complain_of_lost_frames(self) -> None:
        _, lost = struct.unpack("II", self.tap.getsockopt(PACKET, STATISTICS, 8))
        if lost:
            raise LostFrames(f"the kernel lost {lost} frames: the recording is not whole")


def stamp_of(control: list) -> int:
    """The kernel's time of a frame, in ns since 1970, or the time now."""
    for _, kind, data in control:
        if kind == SO_TIMESTAMPNS:
            seconds, nanoseconds = struct.unpack("qq", data[:16])
            return seconds * 1_000_000_000 + nanoseconds
    return time.time_ns()
