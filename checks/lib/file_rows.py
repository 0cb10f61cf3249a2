"""Files of records in each format, what `show` prints of them and what `convert` makes of them, for
checks/packets and checks/failures.

Octets stand as docs/formats/capture.md and the formats themselves say: classic pcap and pcapng in
either order of octets, whole, cut at each octet and with what is wrong in them.
"""

from __future__ import annotations

import gzip
import struct
from dataclasses import dataclass
from typing import Iterator

from packet_rows import BEACON, GBC, LINK, LONGEST, with_put

# Classic pcap. Millionths, the highest octet first: version 2.4, snap length 65535, Ethernet. A
# record of 3 octets at 2 s and 7999 millionths, 5 on the wire.
HIGH_PCAP = bytes.fromhex(
    "a1b2c3d4" "0002" "0004" "00000000" "00000000" "0000ffff" "00000001"
    "00000002" "00001f3f" "00000003" "00000005" "616263"
)
# Thousand millionths, the lowest octet first. A record of no octet at 1 s and 1999999999 thousand
# millionths.
LOW_PCAP = bytes.fromhex(
    "4d3cb2a1" "0200" "0400" "00000000" "00000000" "ffff0000" "01000000"
    "01000000" "ff933577" "00000000" "00000000"
)
# The header of classic pcap, as it is written, in microseconds and in nanoseconds.
PCAP_HEADER = bytes.fromhex("d4c3b2a1" "0200" "0400" "00000000" "00000000" "00000400" "01000000")
NANO_HEADER = bytes.fromhex("4d3cb2a1") + PCAP_HEADER[4:]

# pcapng, the lowest octet first. A section header of 28 octets, version 1.0, of no known length; an
# interface of 44, of Ethernet with thousandths (3) and an offset of one second taken, and the end
# of options; an enhanced packet of 36, of the first interface at tick 1001, with 3 octets of 3.
SECTION = bytes.fromhex("0a0d0d0a" "1c000000" "4d3c2b1a" "01000000" "ffffffffffffffff" "1c000000")
LOW_BLOCKS = SECTION + bytes.fromhex(
    "01000000" "2c000000" "0100" "0000" "00000000"
    "09000100" "03000000" "0e000800" "ffffffffffffffff" "00000000" "2c000000"
    "06000000" "24000000" "00000000" "00000000" "e9030000" "03000000" "03000000" "61626300"
    "24000000"
)
# The highest octet first. The same section header; an interface of 20 octets, of Ethernet with no
# option, snap length 4; a simple packet of 20, of 6 octets on the wire, of which there are 4.
HIGH_BLOCKS = bytes.fromhex(
    "0a0d0d0a" "0000001c" "1a2b3c4d" "00010000" "ffffffffffffffff" "0000001c"
    "00000001" "00000014" "0001" "0000" "00000004" "00000014"
    "00000003" "00000014" "00000006" "7778797a" "00000014"
)
# A block of another kind, with 4 octets.
UNKNOWN = bytes.fromhex("05000000" "10000000" "2e2e2e2e" "10000000")
SECTIONS = SECTION + UNKNOWN + LOW_BLOCKS[28:] + HIGH_BLOCKS
# An interface with no name, as it is written, one with the name `station 0`, and a packet of 3
# octets at moment 2^32 + 5, with one octet of padding.
PLAIN = bytes.fromhex(
    "01000000" "20000000" "0100" "0000" "00000400" "09000100" "03000000" "00000000" "20000000"
)
NAMED = bytes.fromhex(
    "01000000" "30000000" "0100" "0000" "00000400" "02000900" "73746174696f6e2030000000"
    "09000100" "03000000" "00000000" "30000000"
)
LATE = bytes.fromhex(
    "06000000" "24000000" "00000000" "01000000" "05000000" "03000000" "03000000" "78797a00"
    "24000000"
)

# The most octets of a frame that are captured and written.
MOST = 262_144


def record(moment: int, frame: bytes) -> bytes:
    """A record of a capture."""
    return struct.pack(">QH", moment, len(frame)) + frame


def packet(ticks: int, frame: bytes, interface: int = 0) -> bytes:
    """The block of a frame of an interface, as it is written."""
    size, padded = len(frame), frame + bytes(-len(frame) % 4)
    length = 32 + len(padded)
    head = struct.pack("<7I", 6, length, interface, ticks >> 32, ticks & 0xFFFFFFFF, size, size)
    return head + padded + struct.pack("<I", length)


def simple(frame: bytes) -> bytes:
    """The block of a frame without a time stamp."""
    size, padded = len(frame), frame + bytes(-len(frame) % 4)
    length = 16 + len(padded)
    return struct.pack("<3I", 3, length, size) + padded + struct.pack("<I", length)


def option(code: int, value: bytes) -> bytes:
    """An option, with its padding."""
    return struct.pack("<HH", code, len(value)) + value + bytes(-len(value) % 4)


def interface(
    resolution: int, link: int = 1, name: bytes = b"", offset: int = 0, other: bytes = b""
) -> bytes:
    """The block of an interface, as it is written; `other` are options that are left out."""
    options = option(2, name) if name else b""
    options += option(9, bytes([resolution]))
    options += option(14, struct.pack("<q", offset)) if offset else b""
    options += other + option(0, b"")
    length = 20 + len(options)
    head = struct.pack("<IIHHI", 1, length, link, 0, MOST)
    return head + options + struct.pack("<I", length)


def classic(nano: bool, *records: tuple[int, int, bytes]) -> bytes:
    """A file of classic pcap, as it is written: records of a second, a fraction and octets."""
    file = NANO_HEADER if nano else PCAP_HEADER
    for second, fraction, octets in records:
        file += struct.pack("<IIII", second, fraction, len(octets), len(octets)) + octets
    return file


TWO_RECORDS = record(1000, LINK + GBC) + record(0, LINK + BEACON)


@dataclass(frozen=True)
class File:
    """A file of a format, and the lines that `show` prints of it."""

    name: str
    format: str
    octets: bytes
    lines: tuple[str, ...] = ()


def ending(name: str, kind: str, octets: bytes, code: str | None) -> File:
    """A file without a record that ends so."""
    return File(name, kind, octets, (f"capture: {code} at record 0",) if code else ())


def cut_files(name: str, kind: str, octets: bytes, wholes: tuple[int, ...]) -> Iterator[File]:
    """A file of one record that is cut at each octet. Behind so many it may end."""
    for size in range(len(octets)):
        code = None if size in wholes else "P1"
        yield ending(f"{name} cut to {size}", kind, octets[:size], code)


# What stands at a place of the file of classic pcap instead, how many of its octets are read, and
# how it ends then: wrong headers, and lengths of frames, which are refused before anything behind
# them is read.
WRONG_PCAP = [
    (3, "d5", 4, "P2"),
    (5, "03", 6, "P2"),
    (5, "03", 5, "P1"),
    (7, "09", 24, None),
    (23, "02", 24, "P3"),
    (22, "01", 24, "P3"),
    (21, "01", 24, None),
    (23, "02", 23, "P1"),
    (32, "00040000", 36, "P1"),
    (32, "00040001", 36, "P2"),
]

# How many octets of the file of pcapng stand before others, and how it ends then: a first block of
# another kind, a packet of no interface, a moment below 0, and lengths; the finest unit of time,
# behind which the file is cut; and files that end at once.
WRONG_PCAPNG = [
    (0, "05000000", "P2"),
    (8, "4d3c2b1b", "P2"),
    (12, "0200", "P2"),
    (24, "1d000000", "P2"),
    (28, "060000002400000000000000", "P2"),
    (28, "050000000a000000", "P2"),
    (28, "0500000008000000", "P2"),
    (28, "0500000004000500", "P2"),
    (88, "e7030000", "P2"),
    (92, "05000000", "P2"),
    (48, "14", "P2"),
    (48, "c0", "P2"),
    (44, "02001500", "P2"),
    (48, "bf", "P1"),
    (0, "0a", "P1"),
    (0, "", None),
]


def pcap_files() -> Iterator[File]:
    yield File("the highest octet first", "pcap", HIGH_PCAP, ("2007 refused P4",))
    yield File("the lowest octet first", "pcap", LOW_PCAP, ("2999 refused L1",))
    yield from cut_files("pcap", "pcap", HIGH_PCAP, (24,))
    for place, digits, size, code in WRONG_PCAP:
        file = with_put(HIGH_PCAP, (place, bytes.fromhex(digits)))[:size]
        yield ending(f"{digits} at {place} of {size}", "pcap", file, code)


def pcapng_files() -> Iterator[File]:
    yield File("sections of both orders", "pcapng", SECTIONS, ("1 refused L1", "0 refused P4"))
    yield File("a late moment", "pcapng", SECTION + NAMED + LATE, ("4294967301 refused L1",))
    yield from cut_files("the lowest octet first", "pcapng", LOW_BLOCKS, (0, 28, 72))
    yield from cut_files("the highest octet first", "pcapng", HIGH_BLOCKS, (0, 28, 48))
    for size, digits, code in WRONG_PCAPNG:
        file = LOW_BLOCKS[:size] + bytes.fromhex(digits)
        yield ending(f"{digits} behind {size}", "pcapng", file, code)


def capture_files() -> Iterator[File]:
    """A capture that is cut in a record's head or frame, and one with a frame of no octet."""
    for size, place, code in [(9, 8, "C1"), (85, 8, "C1"), (86, 9, "C2")]:
        file = with_put(TWO_RECORDS, (place, b"\0"))[:size]
        yield ending(f"capture of {size}", "capture", file, code)
    yield File("two octets", "capture", record(5, b"ab"), ("5 refused L1",))


FILES = [pcap_files, pcapng_files, capture_files]


@dataclass(frozen=True)
class Converted:
    """A file, the format that it is written in, what that is then, what is said of records that are
    left out, and of what is lost of the others."""

    name: str
    octets: bytes
    to: str
    wanted: bytes
    said: str = ""
    lost: str = ""


THREE = with_put(HIGH_PCAP, (39, b"\3"))
OF_THREE = bytes.fromhex("02000000" "3f1f0000" "03000000" "03000000" "616263")
SEVENS = b"\7" * MOST
# The record has the longest frame, whose length on the wire is said to be 5.
LONG_HEAD = with_put(HIGH_PCAP[:40], (32, MOST.to_bytes(4, "big")))
LAST = bytes.fromhex("ffffffff" "583e0f00" "03000000" "03000000" "78797a")
CUT_SECOND = "geostation: record 1: cut\n"
LATE_FIRST = "geostation: record 0: moment\n"

MICROS = interface(6, name=b"cv2x0")
NANOS = interface(9, name=b"eth0")
TWO_INTERFACES = SECTION + MICROS + NANOS + packet(1_500_001, b"x") + packet(1_500_001_002, b"y", 1)
FINE_TICKS = (
    SECTION
    + interface(12)
    + interface(128 + 20)
    + interface(128 + 6, offset=1000)
    + packet(1_000_000_001_500, b"x")
    + packet(1, b"y", 1)
    + packet(130, b"z", 2)
)

SIMPLE_AND_LATER = (
    SECTION + interface(6, offset=1000) + simple(b"abc") + packet(7, b"x") + simple(b"")
)


def left_out(count: int) -> str:
    """The lines of the first records, of a link layer that is not read."""
    return "".join(f"geostation: record {number}: link type\n" for number in range(count))


CONVERTED = [
    Converted("three octets to pcap", THREE, "pcap", PCAP_HEADER + OF_THREE),
    Converted("three octets", THREE, "pcapng", SECTION + interface(6) + packet(2_007_999, b"abc")),
    Converted(
        "the longest frame",
        LONG_HEAD + SEVENS,
        "pcapng",
        SECTION + interface(6) + packet(2_007_999, SEVENS),
    ),
    Converted(
        "sections of both orders",
        SECTIONS,
        "pcapng",
        SECTION + interface(3, offset=-1) + packet(1001, b"abc") + interface(6),
        CUT_SECOND,
    ),
    Converted(
        "the last moment of pcap",
        record(2**32 * 1000, b"xyz") + record(2**32 * 1000 - 1, b"xyz"),
        "pcap",
        PCAP_HEADER + LAST,
        LATE_FIRST,
    ),
    Converted("a late moment", record(2**32 + 5, b"xyz"), "pcapng", SECTION + PLAIN + LATE),
    Converted("a late moment again", SECTION + NAMED + LATE, "pcapng", SECTION + NAMED + LATE),
    Converted("two octets", record(5, b"ab"), "pcapng", SECTION + PLAIN + packet(5, b"ab")),
    Converted("two records", TWO_RECORDS, "capture", TWO_RECORDS),
    Converted("the longest record", record(7, LONGEST), "capture", record(7, LONGEST)),
    # A fraction of a second and more counts on.
    Converted("nanoseconds", LOW_PCAP, "pcap", classic(True, (2, 999_999_999, b""))),
    Converted(
        "nanoseconds to pcapng",
        LOW_PCAP,
        "pcapng",
        SECTION + interface(9) + packet(2_999_999_999, b""),
    ),
    Converted(
        "microseconds to a capture",
        THREE,
        "capture",
        record(2007, b"abc"),
        lost="geostation: 1 time cut to milliseconds\n",
    ),
    Converted(
        "two interfaces",
        TWO_INTERFACES,
        "pcapng",
        SECTION + MICROS + NANOS + packet(1_500_001, b"x") + packet(1_500_001_002, b"y", 1),
    ),
    Converted(
        "two interfaces to nanoseconds",
        TWO_INTERFACES,
        "pcap",
        classic(True, (1, 500_001_000, b"x"), (1, 500_001_002, b"y")),
        lost="geostation: 2 interfaces joined\n",
    ),
    Converted(
        "two interfaces to a capture",
        TWO_INTERFACES,
        "capture",
        record(1500, b"x") + record(1500, b"y"),
        lost="geostation: 2 times cut to milliseconds\ngeostation: 2 interfaces joined\n",
    ),
    # The second interface, in nanoseconds, comes after the first record.
    Converted(
        "a finer interface later",
        SECTION + MICROS + packet(1_500_001, b"x") + NANOS + packet(1_500_001_002, b"y", 1),
        "pcap",
        classic(False, (1, 500_001, b"x"), (1, 500_001, b"y")),
        lost="geostation: 1 time cut to microseconds\ngeostation: 2 interfaces joined\n",
    ),
    # Interfaces count on in the next section.
    Converted(
        "two sections",
        (SECTION + NANOS + packet(7, b"x")) * 2,
        "pcapng",
        SECTION + NANOS + packet(7, b"x") + NANOS + packet(7, b"x", 1),
    ),
    # Ticks of 10^-12 s, 2^-20 s and 2^-6 s, 1000 s added.
    Converted("fine ticks", FINE_TICKS, "pcapng", FINE_TICKS),
    Converted(
        "fine ticks to nanoseconds",
        FINE_TICKS,
        "pcap",
        classic(True, (1, 1, b"x"), (0, 953, b"y"), (1002, 31_250_000, b"z")),
        lost="geostation: 2 times cut to nanoseconds\ngeostation: 3 interfaces joined\n",
    ),
    # Names: the longest that is kept, and one that is too long.
    Converted(
        "names",
        SECTION + interface(6, name=b"n" * 128) + interface(6, name=b"n" * 129),
        "pcapng",
        SECTION + interface(6, name=b"n" * 128) + interface(6),
    ),
    Converted(
        "options that are left out",
        SECTION + interface(3, name=b"eth0", other=option(1, b"a comment")),
        "pcapng",
        SECTION + interface(3, name=b"eth0"),
    ),
    # A link layer that is not read keeps its place.
    Converted(
        "another link layer",
        SECTION + interface(3, link=147) + interface(3) + packet(1, b"x") + packet(2, b"y", 1),
        "pcapng",
        SECTION + interface(3, link=147) + interface(3) + packet(2, b"y", 1),
        "geostation: record 0: link type\n",
    ),
    # A packet without a time stamp is at 0, which an interface with an offset does not count.
    Converted(
        "a simple packet",
        SECTION + interface(6) + simple(b"abc"),
        "pcapng",
        SECTION + interface(6) + packet(0, b"abc"),
    ),
    Converted("simple packets beside an offset", SIMPLE_AND_LATER, "pcapng", SIMPLE_AND_LATER),
    Converted(
        "simple packets beside an offset to pcap",
        SIMPLE_AND_LATER,
        "pcap",
        classic(False, (0, 0, b"abc"), (1000, 7, b"x"), (0, 0, b"")),
    ),
    Converted(
        "a simple packet of a second section",
        SIMPLE_AND_LATER + SECTION + interface(6, offset=-5) + simple(b"lost"),
        "pcapng",
        SIMPLE_AND_LATER + interface(6, offset=-5),
        "geostation: record 3: moment\n",
    ),
    # Of more than 20 records that are left out the number follows.
    Converted(
        "20 records of another link layer",
        SECTION + interface(3, link=147) + packet(1, b"x") * 20,
        "pcapng",
        SECTION + interface(3, link=147),
        left_out(20),
    ),
    Converted(
        "21 records of another link layer",
        SECTION + interface(3, link=147) + packet(1, b"x") * 21,
        "pcapng",
        SECTION + interface(3, link=147),
        left_out(21),
        "geostation: 21 records left out\n",
    ),
    # Without a format a gzip file is none; the file that is written has no record.
    Converted(
        "gzip",
        gzip.compress(TWO_RECORDS),
        "capture",
        b"",
        "geostation: capture: C2 at record 0\n",
    ),
]
