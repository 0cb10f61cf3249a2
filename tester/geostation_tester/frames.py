"""The octets of the frames that the tester sends (EN 302 636-4-1 clause 9, EN 302 636-5-1), and
what it reads of those of the station under test.

They are made here and not by the library. Purposes need numbers, time stamps and hops that no
station sends, and a tester made of what it tests does not see the mistakes that both have.
"""

from __future__ import annotations

import struct
from typing import NamedTuple

GEONETWORKING = 0x8947
LINK = 14  # octets of two link addresses and the EtherType
BROADCAST = b"\xff" * 6
HOPS_IN_PACKET = 3
LIFETIME_AT, HOPS_AT = LINK + 2, LINK + HOPS_IN_PACKET
TYPE_AT, NUMBER_AT = LINK + 5, LINK + 12
BASIC, BTP_B, MOBILE = 0x11, 0x20, 0x80
TYPES = {"beacon": 0x10, "shb": 0x50, "gac": 0x30, "gbc": 0x40}
AREA_TYPES = (3, 4)  # header types of packets for areas
UNITS = (50, 1_000, 10_000, 100_000)  # ms, by the two lowest bits of a lifetime


class Vector(NamedTuple):
    """A long position vector (9.5.2)."""

    address: int
    stamp: int
    place: tuple[int, int]
    pai: bool

    def encode(self) -> bytes:
        speed = int(self.pai) << 15
        return struct.pack(">QIiiHH", self.address, self.stamp, *self.place, speed, 0)


class Hops(NamedTuple):
    left: int
    most: int


def headers(kind: int, length: int, hops: Hops, lifetime: int, traffic_class: int) -> bytes:
    """The Basic Header and the Common Header (9.6, 9.7)."""
    following = 0 if kind == TYPES["beacon"] else BTP_B
    basic = struct.pack(">BBBB", BASIC, 0, lifetime, hops.left)
    return basic + struct.pack(
        ">BBBBHBB", following, kind, traffic_class, MOBILE, length, hops.most, 0
    )


def lifetime_of(octet: int) -> int:
    """In ms (9.6.4)."""
    return (octet >> 2) * UNITS[octet & 3]


def btp(port: int, payload: bytes) -> bytes:
    return struct.pack(">HH", port, 0) + payload


def link(to: bytes, sender: bytes) -> bytes:
    return to + sender + struct.pack(">H", GEONETWORKING)


class Key(NamedTuple):
    """Source and sequence number of a packet for an area."""

    source: int
    number: int


def key_of(frame: bytes) -> Key | None:
    """What stands where a packet for an area has its key. None if the frame ends before."""
    if len(frame) < NUMBER_AT + 12:
        return None
    number, _, source = struct.unpack_from(">HHQ", frame, NUMBER_AT)
    return Key(source, number)


def place_of(frame: bytes) -> tuple[int, int] | None:
    """The position of the packet's source."""
    at = NUMBER_AT + (16 if frame[TYPE_AT] >> 4 in AREA_TYPES else 12)
    return struct.unpack_from(">ii", frame, at) if len(frame) >= at + 8 else None


def source_of(frame: bytes) -> int | None:
    """The address of the packet's source, where its header type says that it is."""
    if len(frame) < NUMBER_AT + 12:
        return None
    at = NUMBER_AT + 4 if frame[TYPE_AT] >> 4 in AREA_TYPES else NUMBER_AT
    return int.from_bytes(frame[at : at + 8], "big")
