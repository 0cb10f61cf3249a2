"""An upper tester: it makes the station under test send, and sees what it delivers.

Two kinds: the lines of JSON of `geostation-link --listen`, and the datagrams of TR 103 099, from
memory, as examples/upper-tester has them.
"""

from __future__ import annotations

import json
import select
import socket
import struct
from abc import ABC, abstractmethod
from typing import NamedTuple

from .actions import INITIALIZE, Action
from .areas import SHAPES, Place, moved
from .frames import btp, lifetime_of

PATIENCE = 5.0  # s
TRIGGERS = {"gbc": 0x51, "gac": 0x52, "shb": 0x53}
INITIALIZATION, CHANGE_POSITION, EVENT = 0x00, 0x02, b"\x55"
RESULTS = (b"\x01\x01", b"\x03\x01", b"\x41\x01")
DONE = ("sent", "opened", "moved", "restarted")
PORT_IS_OPEN = "S8 B2"  # by an earlier purpose, or from the start


class NoUpper(Exception):
    """The upper tester does not answer, or refuses."""


class Delivered(NamedTuple):
    port: int
    payload: bytes


class Upper(ABC):
    """An upper tester at the other end of a socket. `delivered` has what it reported."""

    opens_ports: bool  # whether it can be asked for it

    def __init__(self, family: int, kind: int, address: str | tuple[str, int]):
        self.socket = socket.socket(family, kind)
        self.socket.settimeout(PATIENCE)
        self.socket.connect(address)
        self.delivered: list[Delivered] = []

    def receive(self) -> bytes:
        try:
            return self.socket.recv(65536)
        except OSError as why:
            raise NoUpper(f"no answer: {why}") from None

    @abstractmethod
    def read(self) -> list[dict] | bytes:
        """Waits for what arrives next. Adds what was delivered, and returns the answers."""

    @abstractmethod
    def ask(self, action: Action, home: Place) -> None:
        """Asks for an action, and waits until it is done."""

    def events(self) -> list[Delivered]:
        """What was delivered since the last call."""
        while select.select([self.socket], [], [], 0)[0]:
            self.read()
        found, self.delivered = self.delivered, []
        return found


def asked_place(action: Action, home: Place) -> Place:
    """The position that a move asks for."""
    return moved(home, action.fields.north or 0, action.fields.east or 0)


class JsonUpper(Upper):
    """`geostation-link --listen PATH`."""

    opens_ports = True

    def __init__(self, path: str):
        super().__init__(socket.AF_UNIX, socket.SOCK_STREAM, path)
        self.rest = b""

    def read(self) -> list[dict]:
        """Returns the answers among the lines that have arrived."""
        got = self.receive()
        if not got:
            raise NoUpper("the upper tester closed its socket")
        *lines, self.rest = (self.rest + got).split(b"\n")
        found = [json.loads(line) for line in lines]
        self.delivered += [
            Delivered(line["port"], bytes.fromhex(line["payload"]))
            for line in found
            if line.get("event") == "delivered"
        ]
        return [line for line in found if "event" not in line]

    def ask(self, action: Action, home: Place) -> None:
        for request in requests_of(action, home):
            self.socket.sendall(json.dumps(request).encode() + b"\n")
            while not (answers := self.read()):
                pass
            if not is_done(answers[0]):
                raise NoUpper(f"{action.ask}: {answers[0]}")


def is_done(answer: dict) -> bool:
    return answer.get("result") in DONE or answer.get("code") == PORT_IS_OPEN


def requests_of(action: Action, home: Place) -> list[dict]:
    if action.ask == "open":
        return [{"do": "open", "port": action.port}]
    if action.ask == "move":
        return [move_to(asked_place(action, home))]
    if action.ask == INITIALIZE:
        return [{"do": "restart", "number": 0}, move_to(home)]
    return [packet_request(action, home)]


def move_to(place: Place) -> dict:
    latitude, longitude = place
    keys = {"do": "move", "lat": latitude, "lon": longitude}
    return {**keys, "pai": True, "speed": 0, "heading": 0}


def packet_request(action: Action, home: Place) -> dict:
    fields, area = action.fields, action.area
    keys = {"do": action.ask, "port": action.port, "info": 0, "tc": fields.traffic_class}
    if area is not None:
        latitude, longitude = moved(home, area.north, area.east)
        keys |= {"lt": fields.lifetime, "hops": fields.first_hops()}
        keys |= {"shape": SHAPES[area.shape]}
        keys |= {"alat": latitude, "alon": longitude, "a": area.a, "b": area.b}
        keys |= {"angle": area.angle}
    return {**keys, "payload": action.payload.hex()}


class UdpUpper(Upper):
    """A service of TR 103 099 at HOST:PORT. It has its ports open."""

    opens_ports = False

    def __init__(self, host: str, port: int):
        super().__init__(socket.AF_INET, socket.SOCK_DGRAM, (host, port))
        self.place: Place | None = None

    def read(self) -> bytes:
        """Returns the next message, or nothing if it is an event."""
        message = self.receive()
        if message[:1] != EVENT:
            return message
        if len(message) >= 5:
            self.delivered.append(Delivered(*struct.unpack_from(">H", message, 3), message[7:]))
        return b""

    def message_of(self, action: Action, home: Place) -> bytes:
        """A port is open already. A move by nothing says where events go."""
        if action.ask == INITIALIZE:
            self.place = home
            return struct.pack(">B8x", INITIALIZATION)
        if action.ask in ("move", "open"):
            before = self.place or home
            self.place = asked_place(action, home) if action.ask == "move" else before
            north, east = (a - b for a, b in zip(self.place, before))
            return struct.pack(">Biib", CHANGE_POSITION, north, east, 0)
        return trigger_of(action, home)

    def ask(self, action: Action, home: Place) -> None:
        self.socket.send(self.message_of(action, home))
        while not (answer := self.read()):
            pass
        if answer not in RESULTS:
            raise NoUpper(f"{action.ask}: {answer.hex()}")


def trigger_of(action: Action, home: Place) -> bytes:
    fields, area = action.fields, action.area
    payload = btp(action.port, action.payload)
    code = TRIGGERS[action.ask]
    if area is None:
        return struct.pack(">BBH", code, fields.traffic_class, len(payload)) + payload
    lifetime = lifetime_of(fields.lifetime)
    head = struct.pack(">BBHB3x", code, area.shape, lifetime, fields.traffic_class)
    where = struct.pack(">ii", *moved(home, area.north, area.east))
    size = struct.pack(">HHHH", area.a, area.b, area.angle, len(payload))
    return head + where + size + payload
