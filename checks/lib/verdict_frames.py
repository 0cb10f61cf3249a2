"""Captures of a station for `geostation verdict`: frames of `standard.packets`, which is written from
the standard, and claims that leave no doubt.
"""

from __future__ import annotations

import json
import struct
import subprocess
import sys
from dataclasses import dataclass, replace
from pathlib import Path

from program import PROGRAM
from standard.areas import Area
from standard.packets import LINK, Packet, Vector, encode, mid

STATION, NEAR, FAR = 0x1400_0200_0000_0100, 0x1400_0200_0000_0200, 0x1400_0200_0000_0201
CLAIMS = """[station]
address = "{station:016x}"
lat = 481000000
lon = {lon}
mobile = {mobile}
{age}[claims]
area = "simple"
elsewhere = "greedy"
capacity = 64
profile = true
rate = {rate}
steady = true
fresh = true
unlimited = true
unbuffered = true
[capture]
sent = true
received = true
delivered = true
within = 20
queue = 1
skew = 0
"""
JUDGED = "D1 D2 D3 D4 D5 D6 D10 D12 D13 D14 D15 D16 D17 D19 D20".split()
LIFE, WITHIN, REMEMBER = 20_000, 20, 8  # ms, ms, numbers
AROUND = WITHIN + 2  # W + 2K in ms, with a skew of 0
HOME = 115000000  # the longitude of the station that is judged
OUTSIDE = "outside the area: not judged"
BEGIN = 1_795_572_000_000  # ms since 1970, of the first record
IEEE80211, RETRY = 105, 0x08  # a link type, and the retry bit
RETRY_TIME = 100  # ms for which the link may send a frame again
SECURED = ((LINK, 0x12),)  # octet 0 of a packet: version 1, then a secured packet


def write_pcap(path: Path, records: list[tuple[int, bytes]], link: int = 1, cut: int = 0) -> None:
    """A pcap file of Ethernet or of this link type, with times in ms. Frames of fewer octets than
    `cut` are what the capture has of so many."""
    with path.open("wb") as file:
        file.write(struct.pack("<IHHiIII", 0xA1B2C3D4, 2, 4, 0, 0, 65535, link))
        for moment, frame in records:
            seconds, left, size = moment // 1000, moment % 1000 * 1000, len(frame)
            file.write(struct.pack("<IIII", seconds, left, size, max(size, cut)) + frame)


def wireless(frame: bytes, flags: int = 0) -> bytes:
    """The QoS data frame of IEEE 802.11, outside of a BSS, of a frame of Ethernet."""
    header = bytes([0x88, flags, 0, 0]) + frame[:12] + b"\xff" * 6 + bytes(4)
    return header + bytes.fromhex("aaaa03000000") + frame[12:]


def judge(folder: Path, capture: Path, claims: str, status: tuple[int, ...]) -> list[dict]:
    """The objects of a verdict, the last of which has the counts."""
    station = folder / "iut.toml"
    station.write_text(claims)
    command = [PROGRAM, "verdict", "--json", "--all", str(station), str(capture)]
    done = subprocess.run(command, capture_output=True, text=True, timeout=600)
    if done.returncode not in status or done.stderr:
        sys.exit(f"{' '.join(map(str, command))} ends with {done.returncode}: {done.stderr}")
    return [json.loads(line) for line in done.stdout.splitlines()]


@dataclass(frozen=True)
class Sent:
    """A frame of the capture."""

    at: int  # ms after the first
    packet: Packet
    source: int  # the station whose link address it has
    target: bytes = b"\xff" * 6
    changes: tuple[tuple[int, int], ...] = ()  # octets of the frame that are replaced

    def frame(self) -> bytes:
        octets = bytearray(encode(self.packet, mid(self.source), self.target))
        for place, octet in self.changes:
            octets[place] = octet
        return bytes(octets)


AREA = Area("circle", 481000000, HOME, 500)
AWAY = Area("circle", 481900000, HOME, 500)


def vector(address: int, at: int) -> Vector:
    return Vector(address, 4_000_000 + at, 481000000, 115000000)


def beacon(at: int, address: int) -> Sent:
    return Sent(at, Packet("beacon", vector(address, at)), address)


def shb(at: int, address: int) -> Sent:
    packet = Packet("shb", vector(address, at), port=2001, payload=b"hello")
    return Sent(at, packet, address)


def gbc(at: int, address: int, number: int, kind: str = "gbc", area: Area = AREA) -> Sent:
    packet = Packet(
        kind, vector(address, at), 10, 10, number=number, area=area, port=2002, payload=b"ice"
    )
    return Sent(at, packet, address)


def gac(at: int, number: int, area: Area) -> Sent:
    return gbc(at, NEAR, number, "gac", area)


def relay(of: Sent, after: int) -> Sent:
    packet = replace(of.packet, hops=of.packet.hops - 1)
    return replace(of, at=of.at + after, packet=packet, source=STATION)


def records(frames: dict[str, Sent]) -> list[tuple[int, str, bytes]]:
    return sorted(((BEGIN + sent.at, name, sent.frame()) for name, sent in frames.items()))
