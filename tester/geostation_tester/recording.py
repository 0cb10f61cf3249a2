"""A recording: pcapng with one Ethernet interface, nanoseconds, and a comment per record, so that
Wireshark shows what each frame was for."""

from __future__ import annotations

import struct
from typing import BinaryIO

SECTION, INTERFACE, PACKET = 0x0A0D0D0A, 1, 6
ETHERNET, END, COMMENT, RESOLUTION, NANOSECONDS = 1, 0, 1, 9, 9
BYTE_ORDER = 0x1A2B3C4D


def padded(octets: bytes) -> bytes:
    return octets + bytes(-len(octets) % 4)


def option(code: int, octets: bytes) -> bytes:
    return struct.pack("<HH", code, len(octets)) + padded(octets)


def block(kind: int, body: bytes) -> bytes:
    length = struct.pack("<I", 12 + len(body))
    return struct.pack("<I", kind) + length + body + length


class Recording:
    """Records are counted from 0."""

    def __init__(self, out: BinaryIO):
        self.out, self.count = out, 0
        out.write(block(SECTION, struct.pack("<IHHq", BYTE_ORDER, 1, 0, -1)))
        resolution = option(RESOLUTION, bytes([NANOSECONDS])) + option(END, b"")
        out.write(block(INTERFACE, struct.pack("<HHI", ETHERNET, 0, 0) + resolution))
        out.flush()

    def put(self, nanoseconds: int, frame: bytes, comment: str = "") -> int:
        """Returns the number of the record."""
        high, low = divmod(nanoseconds, 1 << 32)
        head = struct.pack("<IIIII", 0, high, low, len(frame), len(frame))
        options = option(COMMENT, comment.encode()) + option(END, b"") if comment else b""
        self.out.write(block(PACKET, head + padded(frame) + options))
        self.out.flush()
        self.count += 1
        return self.count - 1
