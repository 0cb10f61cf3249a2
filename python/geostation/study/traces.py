"""Traces of vehicles: CSV as the program reads it, or SUMO's FCD output as XML, with or without
gzip; and the share of the vehicles that have a station."""

from __future__ import annotations

import gzip
import hashlib
import io
import re
import zlib
from pathlib import Path
from typing import Dict, Iterable, Iterator, List, Mapping, Optional, Tuple, cast
from xml.parsers import expat

from .errors import StudyError, cannot

_GZIP = b"\x1f\x8b"
_MARK = b"\xef\xbb\xbf"
# Number of bytes that are read at a time.
_CHUNK = 1 << 18
_HEAD = b"timestep_time;vehicle_id;vehicle_x;vehicle_y;vehicle_speed;vehicle_angle\n"
# Ids that need no quotation marks in CSV, and characters that no id may contain.
_PLAIN_ID = re.compile(r'[^;"\x00-\x1f\x7f]+')
_CONTROL = re.compile(r"[\x00-\x1f\x7f]")


class Equipped(Dict[bytes, bool]):
    """The vehicles that have a station: by id, whether it has one.

    Whether a vehicle has one depends only on its id and the seed. So the vehicles of a small share
    are among those of a larger share with the same seed, and other vehicles change nothing.
    """

    def __init__(self, percent: float, seed: int, always: Iterable[str] = ()):
        """Selects `percent` of the vehicles by `seed`. Those of `always` have a station anyway."""
        super().__init__((name.encode(), True) for name in always)
        self._limit = round(percent * (1 << 64) / 100)
        self._seed = b"%d " % seed

    def __missing__(self, name: bytes) -> bool:
        drawn = int.from_bytes(hashlib.sha256(self._seed + name).digest()[:8], "big")
        self[name] = drawn < self._limit
        return self[name]


def open_trace(path: Path) -> io.BufferedReader:
    """Opens a file of traces. Raises `StudyError` with status 3 if it can't be opened."""
    try:
        return open(path, "rb")
    except OSError as error:
        raise cannot("read", path, error) from None


def _unpacked(stream: io.BufferedReader) -> io.BufferedReader:
    """Returns the content of a stream, unpacked if it is gzip."""
    if stream.peek(2)[:2] != _GZIP:
        return stream
    return io.BufferedReader(cast(io.RawIOBase, gzip.GzipFile(fileobj=stream)))


def _is_xml(head: bytes) -> bool:
    return head.removeprefix(_MARK).lstrip().startswith(b"<")


class _Fcd:
    """Turns the elements of SUMO's FCD output into rows."""

    def __init__(self, name: str):
        self.rows: List[str] = []
        self._name = name
        self._time: Optional[str] = None
        self._ids: Dict[str, str] = {}
        self._parser = expat.ParserCreate()
        self._parser.StartElementHandler = self._first
        self._parser.EntityDeclHandler = self._refuse_entity

    def _fault(self, text: str) -> StudyError:
        return StudyError(f"{self._name}: line {self._parser.CurrentLineNumber}: {text}", 1)

    def _refuse_entity(self, *_: object) -> None:
        raise self._fault("entities are not part of SUMO's FCD output")

    def _first(self, tag: str, attributes: Dict[str, str]) -> None:
        if tag != "fcd-export":
            raise self._fault(f"not SUMO's FCD output: it begins with <{tag}>, not <fcd-export>")
        self._parser.StartElementHandler = self._element

    def _element(self, tag: str, attributes: Dict[str, str]) -> None:
        if tag == "vehicle":
            self._vehicle(attributes)
        elif tag == "timestep":
            self._time = attributes.get("time")

    def _vehicle(self, attributes: Dict[str, str]) -> None:
        try:
            name, x, y = attributes["id"], attributes["x"], attributes["y"]
            in_degrees = -180 <= float(x) <= 180 and -90 <= float(y) <= 90
        except KeyError as missing:
            raise self._fault(f"a vehicle without {missing.args[0]}") from None
        except ValueError:
            raise self._fault("a position that is not a number") from None
        if not in_degrees:
            raise self._fault(f"{x}, {y} is not in degrees: run sumo with --fcd-output.geo")
        if self._time is None:
            raise self._fault("a vehicle outside a timestep")
        speed, angle = attributes.get("speed", "0"), attributes.get("angle", "0")
        known = self._ids.get(name) or self._field(name)
        self.rows.append(f"{self._time};{known};{x};{y};{speed};{angle}\n")

    def _field(self, name: str) -> str:
        """Keeps and returns an id as a field of CSV."""
        if not name or _CONTROL.search(name):
            raise self._fault(f"{name!r} can't be the id of a vehicle")
        quoted = name.replace('"', '""')
        self._ids[name] = name if _PLAIN_ID.fullmatch(name) else f'"{quoted}"'
        return self._ids[name]

    def feed(self, octets: bytes) -> bytes:
        """Returns the rows that the next bytes complete. No bytes mean the end."""
        try:
            self._parser.Parse(octets, not octets)
        except expat.ExpatError as error:
            where = f"line {error.lineno}: {expat.ErrorString(error.code)}"
            raise StudyError(f"{self._name}: {where}", 1) from None
        rows = "".join(self.rows).encode()
        self.rows.clear()
        return rows


def read_fcd(stream: io.BufferedReader, name: str) -> Iterator[bytes]:
    """Yields SUMO's FCD output as CSV, in parts of whole lines. `name` is the name of the file.

    The numbers are those that SUMO wrote, to the letter. Persons and containers are left out.
    Memory grows with the number of vehicles, not with the rows.

    Raises `StudyError` with status 1 if the file is not such output, or not in degrees.
    """
    reader = _Fcd(name)
    yield _HEAD
    octets = b" "
    while octets:
        octets = stream.read(_CHUNK)
        if rows := reader.feed(octets):
            yield rows


def _field(line: bytes, separator: bytes, column: int) -> bytes:
    """Returns a field of a row of CSV, or an empty one if the row is too short."""
    if b'"' not in line:
        fields = line.rstrip(b"\r\n").split(separator, column + 1)
        return fields[column] if column < len(fields) else b""
    fields, at, row = [], 0, line.rstrip(b"\r\n")
    while at <= len(row):
        field = b""
        if row[at : at + 1] == b'"':
            found = re.compile(rb'"((?:[^"]|"")*)(?:"|$)').match(row, at)
            assert found is not None
            field, at = found[1].replace(b'""', b'"'), found.end()
        end = row.find(separator, at)
        end = len(row) if end < 0 else end
        fields.append(field + row[at:end])
        at = end + 1
    return fields[column] if column < len(fields) else b""


def _id_column(head: bytes) -> Optional[Tuple[bytes, int]]:
    """Returns the separator of a first line, and the column of the ids if it has one."""
    head = head.removeprefix(_MARK)
    separator = b";" if b";" in head else b","
    for column in range(head.count(separator) + 1):
        if _field(head, separator, column) in (b"id", b"vehicle_id"):
            return separator, column
    return None


def only_equipped(
    stream: io.BufferedReader, equipped: Mapping[bytes, bool]
) -> Iterator[bytes]:
    """Yields CSV with an empty line for each row of a vehicle that has no station.

    The program skips empty lines and counts them, so it names the lines of the whole file. A file
    without a column of ids is passed on as it is, and the program says what is wrong.
    """
    head = stream.readline()
    found = _id_column(head)
    yield head
    while lines := stream.readlines(_CHUNK):
        if found is not None:
            lines = [
                line if not name or equipped[name] else b"\n"
                for line, name in ((line, _field(line, *found)) for line in lines)
            ]
        yield b"".join(lines)


class _Joined(io.RawIOBase):
    """Parts of a file, as a file."""

    @classmethod
    def of(cls, parts: Iterator[bytes]) -> io.BufferedReader:
        """Returns a buffered file of the parts."""
        return io.BufferedReader(cls(parts), _CHUNK)

    def __init__(self, parts: Iterator[bytes]):
        super().__init__()
        self._parts = parts
        self._rest = b""

    def readable(self) -> bool:
        return True

    def readinto(self, buffer: "memoryview") -> int:  # type: ignore[override]
        if not self._rest:
            self._rest = next(self._parts, b"")
        size = min(len(buffer), len(self._rest))
        buffer[:size] = self._rest[:size]
        self._rest = self._rest[size:]
        return size


def read_rows(
    stream: io.BufferedReader, name: str, equipped: Optional[Mapping[bytes, bool]] = None
) -> Iterator[bytes]:
    """Yields the rows of a trace as CSV. The trace is CSV or XML, with or without gzip. If
    `equipped` is given, only these vehicles have a station.

    Raises `StudyError` as `read_fcd` does, and if gzip data are damaged."""
    try:
        opened = _unpacked(stream)
        if _is_xml(opened.peek(64)[:64]):
            rows = read_fcd(opened, name)
            if equipped is not None:
                rows = only_equipped(_Joined.of(rows), equipped)
            yield from rows
        elif equipped is not None:
            yield from only_equipped(opened, equipped)
        else:
            while octets := opened.read(_CHUNK):
                yield octets
    except (EOFError, gzip.BadGzipFile, zlib.error) as error:
        raise StudyError(f"{name}: damaged gzip ({error})", 1) from None
    except OSError as error:
        raise cannot("read", name, error) from None


def is_plain_csv(path: Path) -> bool:
    """Returns whether the program can read a trace directly.

    Raises `StudyError` if the file can't be read.
    """
    try:
        with open_trace(path) as file:
            head = file.read(64)
    except OSError as error:
        raise cannot("read", path, error) from None
    return not head.startswith(_GZIP) and not _is_xml(head)
