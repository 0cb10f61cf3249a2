"""Compares cases/data/signed.pcap, as checks/lib/signed_rows.py made it, with what Wireshark reads.

    python3 checks/lib/dissect_signed.py

Wireshark reads the message (IEEE 1609.2) and, for the PSIDs that it knows, the packet inside. For
the others the packet inside is put into an unsecured frame, which Wireshark reads then.
"""

from __future__ import annotations

import json
import subprocess
import sys
import tempfile
from pathlib import Path

# Imports leave no compiled files among the sources.
sys.dont_write_bytecode = True

from dissect import values_of
from signed_rows import DATA, KEYS, SAMPLES, Sample, capture, is_secured, moment_of, shown

# The payloads of the samples are not those that ITS applications have.
TSHARK = ["tshark", "--disable-protocol", "its", "-T", "json", "-x", "-r"]
# The PSIDs after which Wireshark looks for a packet.
KNOWN = {36, 37, 137, 138, 139, 140, 141, 639}
LINK, BASIC = 14, 4


def dissect(path: Path) -> list[dict]:
    """The layers of each frame of a file."""
    ran = subprocess.run([*TSHARK, path], capture_output=True, check=True)
    # Keys repeat: of these the last one counts.
    return [packet["_source"]["layers"] for packet in json.loads(ran.stdout)]


def find(layers, name: str):
    """The first value of a name, at any depth, or None."""
    if isinstance(layers, dict):
        if name in layers:
            return layers[name]
        layers = list(layers.values())
    if isinstance(layers, list):
        found = (find(each, name) for each in layers)
        return next((each for each in found if each is not None), None)
    return None


def of_message(layers: dict) -> dict:
    """What Wireshark reads in the message itself."""
    header = find(layers, "ieee1609dot2.headerInfo_element") or {}
    psid, time = header.get("ieee1609dot2.psid"), header.get("ieee1609dot2.generationTime")
    values = {"psid": psid and int(psid), "generated": time and int(time), "secured": True}
    return {key: value for key, value in values.items() if value is not None}


def inner_frame(layers: dict) -> bytes:
    """The unsecured frame of the plain part that Wireshark found."""
    frame = bytes.fromhex(layers["frame_raw"][0])
    plain = bytes.fromhex(find(layers, "ieee1609dot2.unsecuredData_raw")[0])
    return frame[:LINK] + b"\x11" + frame[LINK + 1 : LINK + BASIC] + plain


def has_fault(layers: dict) -> bool:
    return "_ws.malformed" in layers


def dissect_inner(all_layers: list[dict]) -> list[dict]:
    with tempfile.TemporaryDirectory() as folder:
        path = Path(folder) / "inner.pcap"
        path.write_bytes(capture([inner_frame(layers) for layers in all_layers]))
        return [values_of(layers) for layers in dissect(path)]


def without_moment(values: dict) -> dict:
    return {key: value for key, value in values.items() if key != "moment"}


def compare_read(place: int, sample: Sample, layers: dict, inner: dict) -> None:
    """A frame that is read: as Wireshark reads it, in the order of the keys."""
    found = {**inner, **of_message(layers), "moment": moment_of(place)}
    wanted = shown(place, sample)
    assert found == wanted, (sample.name, found, wanted)
    assert list(wanted) == [key for key in KEYS if key in wanted]
    # Wireshark misreads what comes after a missing CRL, and so reaches no packet there.
    misread = sample.message and "missingCrlIdentifier" in (sample.message.header or {})
    if sample.values.get("psid") in KNOWN and not has_fault(layers):
        assert without_moment(values_of(layers)) == without_moment(inner), sample.name
    if sample.message:  # a whole one, to its signature
        assert has_fault(layers) == bool(misread), sample.name


# Messages that are right and in a form that is not read: another payload, and a longer length.
RIGHT = ("data and a hash", "length 8300003a")


def compare_refused(sample: Sample, layers: dict) -> None:
    """A message that can't be read: Wireshark has a fault too, or finds no PSID. It reads only those
    that are right by IEEE 1609.2."""
    if sample.refused.startswith("E"):
        unread = has_fault(layers) or find(layers, "ieee1609dot2.psid") is None
        assert unread != (sample.name in RIGHT), sample.name


def main() -> None:
    all_layers = dissect(DATA / "signed.pcap")
    assert len(all_layers) == len(SAMPLES)
    rows = list(zip(range(len(SAMPLES)), SAMPLES, all_layers))
    read = [row for row in rows if is_secured(row[1])]
    inner = dissect_inner([layers for _, _, layers in read])
    for row, values in zip(read, inner):
        compare_read(*row, values)
    refused = [(sample, layers) for _, sample, layers in rows if sample.refused]
    for sample, layers in refused:
        compare_refused(sample, layers)
    print(f"{len(read)} secured frames read by Wireshark as they were made, {len(refused)} refused")


main()
