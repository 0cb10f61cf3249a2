"""`python -m geostation FILE` prints a capture, one line per record, as `geostation show` does."""

from __future__ import annotations

import sys
from typing import List

from . import capture
from .errors import BadFrame
from .station import read_frame
from .values import Kind, Packet


def read_record(record: capture.Record) -> Packet:
    """Returns the packet of a record.

    In a record of up to 60 bytes, zeros after the packet may be Ethernet padding: they are removed.

    Raises:
        BadFrame: The record is not a valid frame.
    """
    octets = record.octets
    try:
        return read_frame(octets)
    except BadFrame as refused:
        if refused.fault.layer != 4 or not record.padded or len(octets) > 60:
            raise
        for length in range(len(octets.rstrip(b"\0")), len(octets)):
            try:
                return read_frame(octets[:length])
            except BadFrame:
                continue
        raise


def words(packet: Packet) -> List[str]:
    """Returns the words that describe a packet."""
    v = packet.vector
    told = f"{packet.source.hex()} {packet.target.hex()} {packet.kind.name.lower()}"
    told += f" {v.address:016x} tst {v.timestamp} lat {v.latitude} lon {v.longitude}"
    told += f" pai {int(v.accurate)} speed {v.speed} heading {v.heading}"
    told += f" lt {packet.lifetime:02x} tc {packet.traffic_class:02x} mobile {int(packet.mobile)}"
    told += f" hops {packet.hops_left}/{packet.max_hops}"
    parts = [told]
    if packet.area is not None:
        area = packet.area
        told = f"number {packet.number} {area.shape.name.lower()}"
        told += f" {area.latitude} {area.longitude} {area.a} {area.b} {area.angle}"
        parts.append(told)
    if packet.kind is not Kind.BEACON and packet.message is not None:
        message = packet.message
        parts.append(f"port {message.port} info {message.info} {message.payload.hex() or '-'}")
    return parts


def line(record: capture.Record) -> str:
    """Returns the line for a record."""
    if record.refused is not None:
        return f"{record.moment} refused {record.refused}"
    try:
        return " ".join([str(record.moment), *words(read_record(record))])
    except BadFrame as refused:
        return f"{record.moment} refused {refused.code}"


def show(name: str) -> int:
    """Prints a capture. Returns 1 if a record or the file was rejected, otherwise 0."""
    status = count = 0
    with open(name, "rb") as file:
        try:
            for record in capture.read(file):
                told = line(record)
                status |= " refused " in told
                print(told)
                count += 1
        except capture.CaptureFault as fault:
            print(f"capture: {fault.code} at record {count}")
            return 1
    return status


def main() -> int:
    """Runs the command: the argument is the name of a capture."""
    if len(sys.argv) != 2 or sys.argv[1].startswith("-"):
        print("usage: python -m geostation FILE", file=sys.stderr)
        return 2
    try:
        return show(sys.argv[1])
    except OSError as error:
        print(f"geostation: cannot read {sys.argv[1]} ({error.strerror})", file=sys.stderr)
        return 3


if __name__ == "__main__":
    sys.exit(main())
