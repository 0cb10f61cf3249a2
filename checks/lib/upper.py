"""The example of an upper tester (examples/upper-tester), driven over UDP, in front of the daemon.

    upper.py DAEMON

What the daemon sends is read by `standard.packets`, which is not ours.
"""

import socket
import struct
import subprocess
import sys
import tempfile
from pathlib import Path

TOP = Path(__file__).resolve().parents[2]
sys.path.insert(1, str(TOP / "c/link/test"))

from common import PROGRAM
from net import PATIENCE, Net, inside
from standard.areas import SHAPES, Area
from standard.packets import Packet, Vector, encode, mid, read

EXAMPLE = TOP / "examples/upper-tester/upper_tester.py"
HOME, DEGREES = (514_776_500, -10_000), "51.4776500,-0.0010000"
STATION, SOURCE = 0x3C00_0200_0000_0100, 0x1400_0200_0000_0009
CLOSED, PORT, UDP = 2002, 2001, 4300
BODY = struct.pack(">HH", PORT, 7) + b"ice"


class Bench:
    """The daemon, the upper tester, and a client of it."""

    def __init__(self, net, room):
        where = ("--position", DEGREES)
        self.daemon = net.station(0, "--listen", f"{room}/its", "--first-number", 9, place=where)
        self.wire = net.ends()[0]
        command = [sys.executable, EXAMPLE, "--link", f"{room}/its", *where]
        command += ["--port", PORT, "--udp", f"127.0.0.1:{UDP}"]
        self.process = subprocess.Popen(
            net.enter(0, *command), stdout=subprocess.PIPE, stderr=subprocess.PIPE, text=True
        )
        net.callback(self.end)
        assert self.process.stdout.readline() == f"ready {UDP}\n", self.process.stderr.read()
        with inside(net.names[0]):
            self.client = socket.socket(socket.AF_INET, socket.SOCK_DGRAM)
        self.client.settimeout(PATIENCE)
        net.callback(self.client.close)

    def end(self):
        self.process.kill()
        self.process.communicate()

    def ask(self, message):
        self.client.sendto(message, ("127.0.0.1", UDP))
        return self.client.recv(2048)

    def sent(self, message):
        """The packet that a trigger makes."""
        assert self.ask(message) == b"\x41\x01", message.hex()
        while (packet := read(self.wire.recv(2048))).kind == "beacon":
            pass
        return packet


def area_message(code, shape, lifetime=60_000, payload=BODY, *, angle=0, b=0):
    fields = [code, shape, lifetime, 2, *HOME, 500, b, angle, len(payload)]
    return struct.pack(">BBHB3xiiHHHH", *fields) + payload


def shb_message(payload=BODY):
    return struct.pack(">BBH", 0x53, 3, len(payload)) + payload


def test_triggers(bench):
    """An SHB, and GBC and GAC with each shape, with the fields that were asked for."""
    packet = bench.sent(shb_message())
    assert (packet.kind, packet.traffic_class, packet.info) == ("shb", 3, 7), packet
    assert (packet.port, packet.payload) == (PORT, b"ice"), packet
    number = 9
    for code, kind in ((0x51, "gbc"), (0x52, "gac")):
        for k, shape in enumerate(SHAPES):
            b, angle = (0, 0) if shape == "circle" else (200, 30)
            packet = bench.sent(area_message(code, k, b=b, angle=angle))
            area = Area(shape, *HOME, 500, b, angle)
            found = (packet.kind, packet.area, packet.hops, packet.max_hops, packet.traffic_class)
            assert found == (kind, area, 10, 10, 2), packet
            assert (packet.number, packet.payload) == (number, b"ice"), packet
            assert (packet.source.address, packet.source.place) == (STATION, HOME), packet
            number += 1


def test_lifetimes(bench):
    """The octet of a lifetime is at least what was asked for."""
    for asked, octet in ((50, 0x04), (3_150, 0xFC), (3_151, 0x11), (60_000, 0xF1), (65_535, 0x1E)):
        packet = bench.sent(area_message(0x51, 0, asked))
        assert packet.lifetime == octet, (asked, packet)


def test_position_and_start(bench):
    """A position that changes, and a start that undoes it and begins numbers with 0."""
    assert bench.ask(struct.pack(">Biib", 2, 900, -1_800, 0)) == b"\x03\x01"
    moved = (HOME[0] + 900, HOME[1] - 1_800)
    assert bench.sent(shb_message()).source.place == moved
    assert bench.ask(struct.pack(">Biib", 2, 100, 0, 0)) == b"\x03\x01"
    assert bench.sent(shb_message()).source.place == (moved[0] + 100, moved[1])
    assert bench.ask(struct.pack(">Biib", 2, 900_000_000, 0, 0)) == b"\x03\x00"
    for _ in range(2):
        assert bench.ask(b"\x00" + bytes(8)) == b"\x01\x01"
        packet = bench.sent(area_message(0x51, 0))
        assert (packet.number, packet.source.place) == (0, HOME), packet


def test_indications(bench):
    """A payload for an open port arrives with its BTP-B header; one for a closed port doesn't."""
    stamp = bench.sent(shb_message()).source.timestamp
    vector = Vector(SOURCE, stamp, *HOME)
    for number, port in enumerate((CLOSED, PORT)):
        more = {"number": number, "area": Area("circle", *HOME, 500), "port": port, "info": 5}
        packet = Packet("gbc", vector, 1, 1, payload=b"fog", **more)
        bench.wire.send(encode(packet, mid(SOURCE)))
    payload = struct.pack(">HH", PORT, 5) + b"fog"
    found = bench.client.recv(2048)
    assert found == struct.pack(">BH", 0x55, len(payload)) + payload, found.hex()


def test_what_is_not_done(bench):
    """Messages that are cut, or not supported, and packets that the daemon refuses."""
    for message, code in ((shb_message(), 0x41), (area_message(0x51, 0), 0x41),
                          (struct.pack(">Biib", 2, 0, 0, 0), 0x03)):  # fmt: skip
        for length in range(1, len(message)):
            assert bench.ask(message[:length]) == bytes([code, 0]), message[:length].hex()
    for message in (b"\x50" + bytes(40), b"\x54" + bytes(40), area_message(0x51, 3),
                    area_message(0x51, 0, angle=1), shb_message(b"abc")):  # fmt: skip
        assert bench.ask(message) == b"\x41\x00", message.hex()
    bench.client.sendto(b"\x99", ("127.0.0.1", UDP))
    assert bench.sent(shb_message()).payload == b"ice"


TESTS = [
    test_triggers,
    test_lifetimes,
    test_position_and_start,
    test_indications,
    test_what_is_not_done,
]


def main():
    with tempfile.TemporaryDirectory() as room, Net(PROGRAM, 1) as net:
        bench = Bench(net, room)
        for test in TESTS:
            test(bench)
        assert bench.process.poll() is None
        assert bench.daemon.end()[0] == 0
    print(f"{len(TESTS)} tests of the upper tester")


if __name__ == "__main__":
    main()
