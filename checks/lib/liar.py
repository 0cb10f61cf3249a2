"""A station on an interface that is not ours: `standard`, in real time, with a mistake if one is
asked for. A tester has to find each mistake, and none without."""

from __future__ import annotations

import heapq
import json
import os
import random
import select
import socket
import time
from dataclasses import replace

from entity import read_keys
from liar_faults import FAULTS
from liar_secured import SecuredStation
from standard.areas import Area
from standard.packets import Packet
from standard.station import BEACON_JITTER, Station

GEONETWORKING = 0x8947
EPOCH, TAI = 1_072_915_200_000, 5_000  # ms
REFRESH = 500  # ms, of its time stamp
OUTGOING = 4


def now_ms():
    """Ms of TAI since 2004-01-01."""
    return time.time_ns() // 1_000_000 - EPOCH + TAI


def packet_of(request, source) -> Packet:
    """The packet of a request, as `geostation-link` has them."""
    kind, payload = request["do"], bytes.fromhex(request["payload"])
    more = {"port": request["port"], "info": request["info"], "traffic_class": request["tc"]}
    if kind != "shb":
        keys = ("shape", "alat", "alon", "a", "b", "angle")
        more |= {"hops": request["hops"], "lifetime": request["lt"]}
        more |= {"area": Area(*(request[key] for key in keys))}
    return Packet(kind, source, payload=payload, **more)


class Requests:
    """The socket of an upper tester, which has one client."""

    def __init__(self, path):
        self.listener = socket.socket(socket.AF_UNIX)
        self.listener.bind(f"{path}.new")
        self.listener.listen()
        os.rename(f"{path}.new", path)
        self.client, self.rest = None, b""

    def sockets(self):
        return [self.client] if self.client else [self.listener]

    def read(self):
        """The requests that have arrived."""
        if self.client is None:
            self.client = self.listener.accept()[0]
            return []
        *lines, self.rest = (self.rest + self.client.recv(65536)).split(b"\n")
        return [json.loads(line) for line in lines]

    def write(self, **keys):
        if self.client is not None:
            self.client.sendall(json.dumps(keys).encode() + b"\n")


class Liar:
    def __init__(self, interface, station: Station, draw, requests: Requests):
        self.station, self.draw, self.requests = station, draw, requests
        self.socket = socket.socket(socket.AF_PACKET, socket.SOCK_RAW, 0)
        self.socket.bind((interface, GEONETWORKING))
        self.waiting: list[tuple[int, int, bytes]] = []  # what is sent later
        self.count, self.fixed_at, self.jitter = 0, -REFRESH, 0
        station.quiet_from = 0  # the first beacon is sent at once

    def send(self, at, frame):
        self.count += 1
        heapq.heappush(self.waiting, (at, self.count, frame))

    def tick(self, now):
        """Its position with a new time stamp, the beacon, and what has waited."""
        if now - self.fixed_at >= REFRESH:
            self.fixed_at = now
            self.station.move(now, self.station.vector)
        beacon = self.station.tick(now, self.jitter)
        if beacon is not None:
            self.jitter = self.draw.randrange(BEACON_JITTER)
            self.send(now, beacon)
        while self.waiting and self.waiting[0][0] <= now:
            self.socket.send(heapq.heappop(self.waiting)[2])

    def receive(self):
        frame, address = self.socket.recvfrom(65536)
        if address[2] == OUTGOING:
            return
        now = now_ms()
        delay = getattr(self.station, "delay", 0)
        copies = getattr(self.station, "copies", 1)
        outcome = self.station.receive(now, frame)
        if outcome.forwarded is not None:
            for _ in range(copies):
                self.send(now + delay, outcome.forwarded)
        if outcome.delivered is not None:
            port, info, payload = outcome.delivered
            self.requests.write(event="delivered", port=port, info=info, payload=payload.hex())

    def answer(self, request):
        """Does what is asked for. Returns the answer."""
        if request["do"] == "open" and request["port"] in self.station.ports:
            return {"result": "refused", "code": "S8 B2"}
        return {"result": self.execute(request)}

    def execute(self, request):
        now, station = now_ms(), self.station
        if request["do"] == "open":
            station.open_port(request["port"])
            return "opened"
        if request["do"] == "restart":
            station.restart(now, request["number"])
            return "restarted"
        if request["do"] == "move":
            place = {"latitude": request["lat"], "longitude": request["lon"]}
            station.move(now, replace(station.vector, **place))
            return "moved"
        packet = packet_of(request, station.vector)
        call = station.send_shb if packet.area is None else station.send_to_area
        self.send(now, call(now, packet))
        return "sent"

    def run(self, until):
        """Up to a time of the monotonic clock."""
        while time.monotonic() < until:
            self.tick(now_ms())
            ready = select.select([self.socket, *self.requests.sockets()], [], [], 0.005)[0]
            if self.socket in ready:
                self.receive()
            elif ready:
                for request in self.requests.read():
                    self.requests.write(**self.answer(request))


def lie(interface, address, place, fault, path, seconds, keys):
    """A station with a mistake of this name, or none if it is empty, for so many seconds. Its upper
    tester is at `path`. `keys` has the paths of its key and of the one that it trusts, if it sends
    and accepts signed packets."""
    usual = SecuredStation if keys else Station
    kind = FAULTS[fault].station if fault else usual
    station = kind(address, place, mobile=False, capacity=64, remember=8)
    if keys:
        station.entity = read_keys(keys[0], keys[1:])
    station.vector = station.vector.__class__(address, 0, *place, accurate=True)
    liar = Liar(interface, station, random.Random(fault), Requests(path))
    liar.run(time.monotonic() + seconds)
