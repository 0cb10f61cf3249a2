"""Captures of frames with the link layers that the program reads, for Wireshark to read too.

    geostation show --json FILE | .. | python3 checks/lib/layers.py FOLDER COOKED

Takes lines of a moment in milliseconds and the hexadecimal digits of a frame, and writes files to
the folder, pcap and pcapng in both orders of octets: of Ethernet without a tag, with one and with
two, and one of protocol 9100; of IEEE 802.11 with LLC and SNAP, by each pair of the DS bits, with
QoS and without; and of radiotap, with a check sequence and without, with a time and without, a
header that is filled up, and a rate, a channel, hopping and a signal or not. Linux cooked captures
of both versions go to COOKED.
"""

from __future__ import annotations

import struct
import sys
import zlib
from itertools import cycle
from pathlib import Path
from typing import Iterator

TAGS = {
    "plain": b"",
    "vlan": bytes.fromhex("81000005"),
    "tags": bytes.fromhex("88a8000681000005"),
    "old": bytes.fromhex("91006fff"),
}
ETHERNET, WLAN, RADIOTAP, COOKED, COOKED_2 = 1, 105, 127, 113, 276
BROADCAST = bytes.fromhex("ffffffffffff")
RATE, CHANNEL, HOPPING, SIGNAL = 0x4, 0x8, 0x10, 0x20
SNAP = bytes.fromhex("aaaa03000000")
OTHER = bytes.fromhex("02000000aa01")
TO_DS, FROM_DS, RETRY, QOS = 1, 2, 8, 0x80
CHECKED, PADDED = 0x10, 0x20


def tagged(frame: bytes, tags: bytes) -> bytes:
    """An Ethernet frame with these tags after its addresses."""
    return frame[:12] + tags + frame[12:]


def header_80211(frame: bytes, bits: int, qos: bool) -> bytes:
    """The header of a data frame with these DS bits, from the addresses of an Ethernet frame. That to
    a distribution system, with QoS, is one of a retry."""
    target, source = frame[:6], frame[6:12]
    order = {
        0: (target, source, OTHER),
        TO_DS: (OTHER, source, target),
        FROM_DS: (target, OTHER, source),
        TO_DS | FROM_DS: (OTHER, OTHER, target),
    }
    flags = bits | (RETRY if qos and bits == TO_DS else 0)
    header = bytes([0x08 | (QOS if qos else 0), flags, 0, 0]) + b"".join(order[bits]) + bytes(2)
    if bits == TO_DS | FROM_DS:
        header += source
    return header + (bytes(2) if qos else b"")


def wlan(frame: bytes, bits: int, qos: bool, padded: bool = False) -> bytes:
    """An 802.11 frame of an Ethernet frame. `padded`: its header is filled up to four octets."""
    header = header_80211(frame, bits, qos)
    fill = bytes(-len(header) % 4) if padded else b""
    return header + fill + SNAP + frame[12:]


def radiotap(inner: bytes, flags: int, timed: bool, words: int, number: int) -> bytes:
    """A record of radiotap with these flags, with so many empty words behind the first. Which
    further fields it has, and their values, follow from its number."""
    more = number * 5 // 3 % 16 * RATE
    present = 0x2 | (0x1 if timed else 0) | more
    masks = [present] + [0] * words
    masks = [mask | (0x80000000 if place < words else 0) for place, mask in enumerate(masks)]
    fields = b"".join(struct.pack("<I", mask) for mask in masks)
    start = 4 + len(fields)
    if timed:
        fields += bytes(-start % 8) + struct.pack("<Q", 5000)
    fields += bytes([flags])
    if more & RATE:
        fields += bytes([2 + number % 107])
    if more & CHANNEL:
        fields += bytes(len(fields) % 2) + struct.pack("<HH", 5900, 0x140)
    if more & HOPPING:
        fields += bytes(len(fields) % 2) + bytes([1, 2])
    if more & SIGNAL:
        fields += struct.pack("b", -1 - number % 128)
    check = struct.pack("<I", zlib.crc32(inner)) if flags & CHECKED else b""
    return struct.pack("<BBH", 0, 0, 4 + len(fields)) + fields + inner + check


def radiotaps(frames: list[bytes]) -> Iterator[bytes]:
    """A record of each frame, by turns of each kind."""
    kinds = [
        (flags, timed, words, bits, qos)
        for flags in (0, CHECKED, PADDED, CHECKED | PADDED)
        for timed in (False, True)
        for words in (0, 1, 2)
        for bits in (0, TO_DS, FROM_DS, TO_DS | FROM_DS)
        for qos in (False, True)
    ]
    for number, (frame, kind) in enumerate(zip(frames, cycle(kinds))):
        flags, timed, words, bits, qos = kind
        yield radiotap(wlan(frame, bits, qos, bool(flags & PADDED)), flags, timed, words, number)


def wlans(frames: list[bytes]) -> Iterator[bytes]:
    """An 802.11 frame of each frame, by turns of each kind."""
    kinds = [(bits, qos) for bits in range(4) for qos in (False, True)]
    for frame, (bits, qos) in zip(frames, cycle(kinds)):
        yield wlan(frame, bits, qos)


def cooked(frame: bytes) -> bytes:
    """A record of a Linux cooked capture, version 1, of a frame that came."""
    kind = 1 if frame[:6] == BROADCAST else 0
    return struct.pack(">HHH", kind, 1, 6) + frame[6:12] + bytes(2) + frame[12:]


def cooked_2(frame: bytes) -> bytes:
    """The same of version 2."""
    kind = 1 if frame[:6] == BROADCAST else 0
    return frame[12:14] + bytes(2) + struct.pack(">IHBB", 3, 1, kind, 6) + frame[6:12] + bytes(2) \
        + frame[14:]


def pcap(order: str, link: int, moments: list[int], records: list[bytes]) -> bytes:
    """A pcap file, in this order of octets, of microseconds."""
    octets = struct.pack(order + "IHHIIII", 0xA1B2C3D4, 2, 4, 0, 0, 262144, link)
    for moment, record in zip(moments, records):
        seconds, rest = divmod(moment, 1000)
        head = struct.pack(order + "IIII", seconds, rest * 1000, len(record), len(record))
        octets += head + record
    return octets


def block(order: str, kind: int, body: bytes) -> bytes:
    """A block of pcapng."""
    body += bytes(-len(body) % 4)
    length = 12 + len(body)
    return struct.pack(order + "II", kind, length) + body + struct.pack(order + "I", length)


def pcapng(order: str, link: int, moments: list[int], records: list[bytes]) -> bytes:
    """A pcapng file, in this order of octets, of microseconds."""
    octets = block(order, 0x0A0D0D0A, struct.pack(order + "IHHq", 0x1A2B3C4D, 1, 0, -1))
    octets += block(order, 1, struct.pack(order + "HHI", link, 0, 262144))
    for moment, record in zip(moments, records):
        time, length = moment * 1000, len(record)
        head = struct.pack(order + "IIIII", 0, time >> 32, time & 0xFFFFFFFF, length, length)
        octets += block(order, 6, head + record)
    return octets


def main() -> None:
    lines = [line.split() for line in sys.stdin]
    moments = [int(moment) for moment, _ in lines]
    frames = [bytes.fromhex(digits) for _, digits in lines]
    links = {name: (ETHERNET, [tagged(f, tags) for f in frames]) for name, tags in TAGS.items()}
    links["wlan"] = (WLAN, list(wlans(frames)))
    links["radiotap"] = (RADIOTAP, list(radiotaps(frames)))
    others = {
        "cooked": (COOKED, [cooked(frame) for frame in frames]),
        "cooked2": (COOKED_2, [cooked_2(frame) for frame in frames]),
    }
    for folder, files in ((sys.argv[1], links), (sys.argv[2], others)):
        for name, (link, records) in files.items():
            for order, word in (("<", "little"), (">", "big")):
                for write in (pcap, pcapng):
                    path = Path(folder) / f"{name}-{word}.{write.__name__}"
                    path.write_bytes(write(order, link, moments, records))


main()
