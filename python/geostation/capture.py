"""Reads captures: this project's own format, classic pcap and pcapng. The first four bytes of a
file show which one it is.

A fault of the file ends the reading. The codes are those of the program: C1 and C2 for its own
format, P1 to P4 for the others. In pcapng, sections, interfaces (with resolution and offset), and
enhanced and simple packets are read. Other blocks are skipped.
"""

from __future__ import annotations

import struct
from dataclasses import dataclass, field
from typing import BinaryIO, Iterator, List, Optional

FRAME_MAX = 1468
MOST = 262144
ETHERNET = 1
PCAP = {
    b"\xa1\xb2\xc3\xd4": (">", 1000),
    b"\xd4\xc3\xb2\xa1": ("<", 1000),
    b"\xa1\xb2\x3c\x4d": (">", 1000000),
    b"\x4d\x3c\xb2\xa1": ("<", 1000000),
}
SECTION = b"\x0a\x0d\x0d\x0a"
# The least length of each block that is read, including its two length fields.
LEAST = {0x0A0D0D0A: 28, 1: 20, 3: 16, 6: 32}


@dataclass(frozen=True)
class Record:
    """A record of a capture."""

    moment: int
    """Time, in ms."""
    octets: bytes
    """The captured bytes."""
    refused: Optional[str] = None
    """The code (`P3`, `P4`) if the record cannot be read, otherwise `None`."""
    padded: bool = False
    """Whether the frame may have Ethernet padding."""


class CaptureFault(Exception):
    """A capture that cannot be read further.

    Attributes:
        code: The code that the program reports: C1, C2, or P1 to P4.
    """

    def __init__(self, code: str):
        super().__init__(code)
        self.code = code


def read(file: BinaryIO) -> Iterator[Record]:
    """Yields the records of a file.

    Raises:
        CaptureFault: The file is not a valid capture.
    """
    mark = file.read(4)
    if mark in PCAP:
        return _read_pcap(file, *PCAP[mark])
    return _read_pcapng(file) if mark == SECTION else _read_own(file, mark)


def _exactly(file: BinaryIO, count: int, code: str = "P1") -> bytes:
    octets = file.read(count)
    if len(octets) < count:
        raise CaptureFault(code)
    return octets


def _read_own(file: BinaryIO, head: bytes) -> Iterator[Record]:
    while True:
        head += file.read(10 - len(head))
        if not head:
            return
        if len(head) < 10:
            raise CaptureFault("C1")
        moment, length = struct.unpack(">QH", head)
        if not 1 <= length <= FRAME_MAX:
            raise CaptureFault("C2")
        yield Record(moment, _exactly(file, length, "C1"))
        head = b""


def _read_pcap(file: BinaryIO, order: str, unit: int) -> Iterator[Record]:
    version, _, link = struct.unpack(order + "HH12xL", _exactly(file, 20))
    if version != 2:
        raise CaptureFault("P2")
    if link & 0xFFFF != ETHERNET:
        raise CaptureFault("P3")
    while True:
        head = file.read(16)
        if not head:
            return
        if len(head) < 16:
            raise CaptureFault("P1")
        second, fraction, captured, length = struct.unpack(order + "4L", head)
        if captured > MOST:
            raise CaptureFault("P2")
        octets = _exactly(file, captured)
        moment = second * 1000 + fraction // unit
        yield Record(moment, octets, "P4" if captured < length else None, True)


@dataclass
class _Interface:
    link: int
    snap: int
    ticks: int = 1_000_000
    """Time units per second."""
    offset: int = 0


@dataclass
class _Section:
    order: str
    interfaces: List[_Interface] = field(default_factory=list)


def _read_pcapng(file: BinaryIO) -> Iterator[Record]:
    section = _read_section(file)
    while True:
        kind = file.read(4)
        if not kind:
            return
        if len(kind) < 4:
            raise CaptureFault("P1")
        if kind == SECTION:
            section = _read_section(file)
            continue
        number = struct.unpack(section.order + "L", kind)[0]
        body = _read_body(file, section.order, number)
        if number == 1:
            section.interfaces.append(_interface(section.order, body))
        elif number in (3, 6):
            yield _packet(section, number, body)


def _read_section(file: BinaryIO) -> _Section:
    length, magic = file.read(4), file.read(4)
    if len(magic) < 4:
        raise CaptureFault("P1")
    orders = {b"\x1a\x2b\x3c\x4d": ">", b"\x4d\x3c\x2b\x1a": "<"}
    if magic not in orders:
        raise CaptureFault("P2")
    order = orders[magic]
    total = _checked(struct.unpack(order + "L", length)[0], 0x0A0D0D0A)
    rest = _exactly(file, total - 12)
    if struct.unpack_from(order + "H", rest)[0] != 1:
        raise CaptureFault("P2")
    _check_end(order, total, rest)
    return _Section(order)


def _checked(total: int, kind: int) -> int:
    if total % 4 or total > 327680 or total < LEAST.get(kind, 12):
        raise CaptureFault("P2")
    return total


def _check_end(order: str, total: int, rest: bytes) -> None:
    if struct.unpack(order + "L", rest[-4:])[0] != total:
        raise CaptureFault("P2")


def _read_body(file: BinaryIO, order: str, kind: int) -> bytes:
    total = _checked(struct.unpack(order + "L", _exactly(file, 4))[0], kind)
    rest = _exactly(file, total - 8)
    _check_end(order, total, rest)
    return rest[:-4]


def _interface(order: str, body: bytes) -> _Interface:
    link, snap = struct.unpack_from(order + "H2xL", body)
    made, at = _Interface(link, snap), 8
    while at + 4 <= len(body):
        code, length = struct.unpack_from(order + "HH", body, at)
        if code == 0:
            break
        value, at = body[at + 4 : at + 4 + length], at + 4 + (length + 3) // 4 * 4
        if at > len(body):
            raise CaptureFault("P2")
        if (code, length) == (9, 1):
            power = value[0] & 0x7F
            if power > (63 if value[0] & 0x80 else 19):
                raise CaptureFault("P2")
            made.ticks = (2 if value[0] & 0x80 else 10) ** power
        elif (code, length) == (14, 8):
            made.offset = struct.unpack(order + "q", value)[0]
    return made


def _packet(section: _Section, kind: int, body: bytes) -> Record:
    if kind == 6:
        number, high, low, captured, length = struct.unpack_from(section.order + "5L", body)
        octets = body[20:]
    else:
        number, high, low, octets = 0, 0, 0, body[4:]
        captured = length = struct.unpack_from(section.order + "L", body)[0]
    if number >= len(section.interfaces):
        raise CaptureFault("P2")
    made = section.interfaces[number]
    moment = 0
    if kind == 6:
        moment = ((high << 32) | low) * 1000 // made.ticks + made.offset * 1000
    elif made.snap:
        captured = min(captured, made.snap)
    if not 0 <= moment < 1 << 64 or captured > MOST or captured > len(octets):
        raise CaptureFault("P2")
    refused = "P4" if captured < length else None
    refused = refused if made.link == ETHERNET else "P3"
    return Record(moment, octets[:captured], refused, True)
