"""The frames of this station, as Wireshark dissects them: a third reading of their octets."""

from __future__ import annotations

import json
import shutil
import struct
import subprocess
import sys
from pathlib import Path

from .packets import read

DISSECT = Path(__file__).resolve().parents[1] / "dissect.py"
MAGIC, ETHERNET = 0xA1B2C3D4, 1  # of a pcap file


def capture(frames: list[bytes]) -> bytes:
    """A pcap file."""
    records = [struct.pack("<IIII", 0, 0, len(f), len(f)) + f for f in frames]
    return struct.pack("<IHHiIII", MAGIC, 2, 4, 0, 0, 65535, ETHERNET) + b"".join(records)


def values_of(frame: bytes) -> dict:
    """The values of a frame, by the keys of `dissect.py`."""
    p = read(frame)
    found = {
        "from": frame[6:12].hex(),
        "to": frame[:6].hex(),
        "kind": p.kind,
        "address": f"{p.source.address:016x}",
        "tst": p.source.timestamp,
        "lat": p.source.latitude,
        "lon": p.source.longitude,
        "pai": p.source.accurate,
        "speed": p.source.speed,
        "heading": p.source.heading,
        "lt": p.lifetime,
        "tc": p.traffic_class,
        "mobile": p.mobile,
        "hops": p.hops,
        "max_hops": p.max_hops,
    }
    if p.area is not None:
        found |= {"number": p.number, "shape": p.area.shape, "a": p.area.a, "b": p.area.b}
        found |= {"alat": p.area.latitude, "alon": p.area.longitude, "angle": p.area.angle}
    if p.port is not None:
        found |= {"port": p.port, "info": p.info, "payload": p.payload.hex()}
    return found


def dissect(frames: list[bytes], path: Path) -> list[dict]:
    path.write_bytes(capture(frames))
    command = ["tshark", "-r", str(path), "-T", "json", "-x", "--no-duplicate-keys"]
    read_by = subprocess.run(command, capture_output=True, check=True).stdout
    lines = subprocess.run(
        [sys.executable, DISSECT], input=read_by, capture_output=True, check=True
    ).stdout
    return [json.loads(line) for line in lines.splitlines()]


def differences(frames: list[bytes], path: Path) -> list[str] | None:
    """Values that Wireshark reads otherwise, or None if tshark isn't installed."""
    if shutil.which("tshark") is None:
        return None
    found = dissect(frames, path)
    wrong = [] if len(found) == len(frames) else [f"{len(found)} of {len(frames)} frames"]
    for frame, line in zip(frames, found):
        wrong += [
            f"{key} {value}, Wireshark {line.get(key)}: {frame.hex()}"
            for key, value in values_of(frame).items()
            if line.get(key) != value
        ]
    return wrong
