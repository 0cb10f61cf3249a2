#!/usr/bin/env python3
"""An upper tester in front of `geostation-link`: ETSI's binary messages over UDP on one side, the
daemon's JSON lines on the other.

    upper_tester.py --link PATH --position LAT,LON [--port N ..] [--udp HOST:PORT]

README.md lists the messages, and says which are to be compared with TR 103 099. The hop limit of a
packet is `HOPS`. A payload begins with the 4 octets of a BTP-B header, since the daemon sends no
other packets. GnEventInd goes to the address of the last message that arrived.
"""

import argparse
import json
import select
import socket
import struct
import sys

INITIALIZE, INITIALIZED = 0x00, 0x01
CHANGE_POSITION, POSITION_CHANGED = 0x02, 0x03
TRIGGERED = 0x41
GUC, GBC, GAC, SHB, TSB = range(0x50, 0x55)
EVENT = 0x55
SHAPES = ["circle", "rectangle", "ellipse"]
HOPS = 10  # itsGnDefaultHopLimit
BTP = struct.Struct(">HH")
DELTA = struct.Struct(">iib")
AREA = struct.Struct(">BHB3xiiHHHH")
SINGLE_HOP = struct.Struct(">BH")
UNITS = [50, 1_000, 10_000, 100_000]  # ms, of the two lowest bits of a lifetime


class Malformed(ValueError):
    """The octets of a message do not fit its code."""


class Link:
    """The daemon, over the socket that its `--listen` names."""

    def __init__(self, path, delivered):
        self.socket = socket.socket(socket.AF_UNIX)
        self.socket.connect(path)
        self.rest, self.delivered = b"", delivered

    def read(self):
        """Reads what has arrived. Returns the answers, and passes on deliveries."""
        got = self.socket.recv(65536)
        if not got:
            sys.exit("upper_tester.py: the daemon closed its socket")
        *lines, self.rest = (self.rest + got).split(b"\n")
        found = [json.loads(line) for line in lines]
        for line in found:
            if line.get("event") == "delivered":
                self.delivered(line)
        return [line for line in found if "event" not in line]

    def ask(self, **keys):
        """One request is open at a time, so the next answer is its answer."""
        self.socket.sendall(json.dumps(keys).encode() + b"\n")
        while not (answers := self.read()):
            pass
        return answers[0].get("result", "")


def lifetime_octet(ms):
    """The least lifetime of at least so many ms, in the finest unit that has it."""
    for base, unit in enumerate(UNITS):
        if (count := -(-ms // unit)) < 64:
            return count << 2 | base
    raise AssertionError(ms)


def unpacked(form, octets):
    if len(octets) < form.size:
        raise Malformed("too short")
    return form.unpack_from(octets), octets[form.size :]


def message_of(length, payload):
    """Port, info and payload as keys of a request."""
    if len(payload) != length:
        raise Malformed("the length of the payload")
    (port, info), rest = unpacked(BTP, payload)
    return {"port": port, "info": info, "payload": rest.hex()}


def request_of(code, octets):
    """The request of a trigger."""
    if code == SHB:
        (traffic_class, length), payload = unpacked(SINGLE_HOP, octets)
        return {"do": "shb", "tc": traffic_class, **message_of(length, payload)}
    fields, payload = unpacked(AREA, octets)
    shape, lifetime, traffic_class, latitude, longitude, a, b, angle, length = fields
    if shape >= len(SHAPES):
        raise Malformed("the shape")
    keys = {"do": "gbc" if code == GBC else "gac", "tc": traffic_class, "hops": HOPS}
    keys |= {"lt": lifetime_octet(lifetime), "shape": SHAPES[shape]}
    keys |= {"alat": latitude, "alon": longitude, "a": a, "b": b, "angle": angle}
    return {**keys, **message_of(length, payload)}


class UpperTester:
    def __init__(self, link_path, place, ports, address):
        self.udp = socket.socket(socket.AF_INET, socket.SOCK_DGRAM)
        self.udp.bind(address)
        self.client = None
        self.link = Link(link_path, self.indicate)
        self.home, self.place, self.ports = place, place, ports
        self.open_ports()

    def open_ports(self):
        for port in self.ports:
            self.link.ask(do="open", port=port)

    def move(self, latitude, longitude):
        moved = self.link.ask(
            do="move", lat=latitude, lon=longitude, pai=True, speed=0, heading=0
        )
        if moved == "moved":
            self.place = (latitude, longitude)
        return moved == "moved"

    def indicate(self, event):
        payload = BTP.pack(event["port"], event["info"]) + bytes.fromhex(event["payload"])
        if self.client is not None:
            message = struct.pack(">BH", EVENT, len(payload)) + payload
            self.udp.sendto(message, self.client)

    def initialize(self):
        done = self.link.ask(do="restart", number=0) == "restarted"
        self.open_ports()
        return done and self.move(*self.home)

    def change_position(self, octets):
        (north, east, _), _ = unpacked(DELTA, octets)
        return self.move(self.place[0] + north, self.place[1] + east)

    def trigger(self, code, octets):
        if code in (GUC, TSB):
            return False
        return self.link.ask(**request_of(code, octets)) == "sent"

    def answer(self, message):
        """The code of the result, and whether it was done. None: there is no such message."""
        code, octets = message[0], message[1:]
        if code == INITIALIZE:
            return INITIALIZED, self.initialize()
        if code == CHANGE_POSITION:
            return POSITION_CHANGED, self.change_position(octets)
        if GUC <= code <= TSB:
            return TRIGGERED, self.trigger(code, octets)
        return None

    def serve(self):
        """One datagram."""
        message, client = self.udp.recvfrom(65536)
        if not message:
            return
        self.client = client
        try:
            result = self.answer(message)
        except Malformed as why:
            print(f"upper_tester.py: {message.hex()}: {why}", file=sys.stderr, flush=True)
            result = ({INITIALIZE: INITIALIZED, CHANGE_POSITION: POSITION_CHANGED}.get(
                message[0], TRIGGERED), False)  # fmt: skip
        if result is not None:
            self.udp.sendto(bytes([result[0], int(result[1])]), client)

    def run(self):
        print(f"ready {self.udp.getsockname()[1]}", flush=True)
        while True:
            ready, _, _ = select.select([self.udp, self.link.socket], [], [])
            if self.link.socket in ready:
                self.link.read()
            if self.udp in ready:
                self.serve()


def position(text):
    latitude, longitude = (round(float(part) * 1e7) for part in text.split(","))
    return latitude, longitude


def address(text):
    host, port = text.rsplit(":", 1)
    return host, int(port)


def main():
    parser = argparse.ArgumentParser(description="ETSI's upper tester for geostation-link")
    parser.add_argument("--link", required=True, help="UNIX socket of the daemon (--listen)")
    parser.add_argument("--position", required=True, type=position, help="that of the daemon")
    parser.add_argument("--port", type=int, action="append", default=[], help="a port to open")
    parser.add_argument("--udp", type=address, default=("127.0.0.1", 4300), help="HOST:PORT")
    found = parser.parse_args()
    UpperTester(found.link, found.position, found.port, found.udp).run()


if __name__ == "__main__":
    try:
        main()
    except KeyboardInterrupt:
        pass
