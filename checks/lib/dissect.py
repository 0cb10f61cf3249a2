"""What Wireshark reads in GeoNetworking frames, as the lines of `geostation show --json`.

    tshark -r FILE -T json -x | python3 checks/lib/dissect.py

Each value is the one that Wireshark's dissectors found; only the payload is taken from the octets,
as Wireshark dissects it further. `checks/tshark` compares these lines with the program's own.
"""

from __future__ import annotations

import json
import sys
from decimal import Decimal

BEACON, SHB = 0x10, 0x50
KINDS = {0x3: "gac", 0x4: "gbc"}
SHAPES = ["circle", "rectangle", "ellipse"]
BTP_HEADER = 4
EXTENDED = ["geonw.beacon", "geonw.tsb", "geonw.gac", "geonw.gbc"]


def octets(text: str) -> str:
    """Octets with colons between them, as the program writes them."""
    return text.replace(":", "")


def addresses_of(layers: dict) -> tuple[str, str]:
    """Who sent a frame, and to whom, on Ethernet or on IEEE 802.11."""
    if "eth" in layers:
        return layers["eth"]["eth.src"], layers["eth"]["eth.dst"]
    return layers["wlan"]["wlan.sa"], layers["wlan"]["wlan.da"]


def media_of(header: dict) -> str:
    """The media-dependent data of an SHB, which tshark names by what it takes them for."""
    return (header.get("geonw.dccmco_raw") or header["geonw.shb.reserved_raw"])[0]


def values_of(layers: dict) -> dict:
    """The values of one frame, by the program's keys and in their order."""
    gnw = layers["gnw"]
    sender, target = addresses_of(layers)
    basic, common = gnw["geonw.bh"], gnw["geonw.ch"]
    name = next(key for key in EXTENDED if key in gnw)
    extended, header_type = gnw[name], int(common["geonw.ch.htype"], 16)
    source = extended["geonw.src_pos_tree"]
    values = {
        "moment": int(Decimal(layers["frame"]["frame.time_epoch"]) * 1000),
        "from": octets(sender),
        "to": octets(target),
        "kind": {BEACON: "beacon", SHB: "shb"}.get(header_type) or KINDS[header_type >> 4],
        "address": octets(source["geonw.src_pos.addr"]),
        "tst": int(source["geonw.src_pos.tst"]),
        "lat": int(source["geonw.src_pos.lat"]),
        "lon": int(source["geonw.src_pos.long"]),
        "pai": source["geonw.src_pos.pai"] == "1",
        "speed": int(source["geonw.src_pos.speed"]),
        "heading": int(source["geonw.src_pos.hdg"]),
        "lt": int(basic["geonw.bh.lt"]),
        "tc": int(common["geonw.ch.tclass"]),
        "mobile": common["geonw.ch.flags"]["geonw.ch.flags.mob"] == "1",
        "hops": int(basic["geonw.bh.rhl"]),
        "max_hops": int(common["geonw.ch.mhl"]),
    }
    if header_type not in (BEACON, SHB):
        values |= {
            "number": int(extended["geonw.seq_num"], 16),
            "shape": SHAPES[header_type & 0xF],
            "alat": int(extended["geonw.gxc.latitude"]),
            "alon": int(extended["geonw.gxc.longitude"]),
            "a": int(extended.get("geonw.gxc.radius") or extended["geonw.gxc.distancea"]),
            "b": int(extended["geonw.gxc.distanceb"]),
            "angle": int(extended["geonw.gxc.angle"]),
        }
    if header_type != BEACON:
        header = layers["btpb_raw"][1]
        start, end = header + BTP_HEADER, header + int(common["geonw.ch.plength"])
        values |= {
            "port": int(layers["btpb"]["btpb.dstport"]),
            "info": int(layers["btpb"]["btpb.dstportinf"], 16),
            "payload": layers["frame_raw"][0][2 * start : 2 * end],
        }
    if header_type == SHB and int(media_of(extended), 16):
        values["media"] = media_of(extended)
    return values


if __name__ == "__main__":
    for packet in json.load(sys.stdin):
        print(json.dumps(values_of(packet["_source"]["layers"]), separators=(",", ":")))
