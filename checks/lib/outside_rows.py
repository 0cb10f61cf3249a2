"""Frames outside the profile, and what `show --all-kinds` prints of them: `cases/data/outside.pcap`.

    python3 checks/lib/outside_rows.py [--write]

The packets are encoded by `outside_packets.py`, and the lines are written from their fields. The
codes are by hand, and `single_bits.py` computes the same ones from the layout of the headers.
Without `--write` the files in `cases/data` are compared with these.
"""

from __future__ import annotations

import json
import struct
import sys
from dataclasses import dataclass, replace
from pathlib import Path
from typing import NamedTuple

import capture_counts
from capture_counts import CODES, SOURCE as COLUMNS, Seen
from outside_packets import ANY, BTP_A, BTP_B, IPV6, SHAPES, TYPES, UNSENT, Area, Packet, Vector
from packet_rows import SENTENCES
from single_bits import refusal

DATA = Path(__file__).resolve().parents[2] / "cases/data"
TO, FROM = "ffffffffffff", "020000000001"
LINK = bytes.fromhex(f"{TO}{FROM}8947")
NEXT = {ANY: "any", BTP_A: "btp-a", BTP_B: "btp-b", IPV6: "ipv6"}
# The front of the sentence, before that of the code.
VALID = "valid by the standard, rejected by the profile: "


# ---- what is printed of a packet


def content(packet: Packet) -> dict:
    """The header of BTP and the payload. A beacon and the location service have none."""
    if packet.kind in UNSENT:
        return {}
    if not packet.btp():
        return {"payload": packet.payload.hex()}
    letter, port, other = packet.btp()
    ports = {"source_port": other, "port": port} if letter == "a" else {"port": port, "info": other}
    return {**ports, "payload": packet.payload[4:].hex()}


def body(packet: Packet) -> dict:
    """What the extended header has besides the source's vector."""
    values = {}
    if packet.kind not in ("beacon", "shb"):
        values["number"] = packet.sequence[0]
    if packet.area:
        area = packet.area
        values |= {"shape": SHAPES[packet.shape], "alat": area.latitude, "alon": area.longitude}
        values |= {"a": area.a, "b": area.b, "angle": area.angle}
    if packet.destination:
        address, *place = packet.destination.place()
        values |= {"destination": f"{address:016x}"} | dict(zip(["dtst", "dlat", "dlon"], place))
    if packet.kind == "ls-request":
        values["sought"] = f"{packet.sought:016x}"
    return values


def values_of(packet: Packet) -> dict:
    """The keys of a packet, from its link addresses on."""
    source = packet.source
    return {
        "from": FROM,
        "to": TO,
        "kind": packet.kind,
        "address": f"{source.address:016x}",
        "tst": source.timestamp,
        "lat": source.latitude,
        "lon": source.longitude,
        "pai": bool(source.accurate),
        "speed": source.speed,
        "heading": source.heading,
        "lt": packet.lifetime,
        "tc": packet.traffic_class,
        "mobile": bool(packet.mobile),
        "hops": packet.left,
        "max_hops": packet.max_hops,
        **body(packet),
        "next": NEXT[packet.next],
        **content(packet),
    }


def sentence(code: str) -> str:
    """The sentence of a code."""
    words = code.split()
    place = f", at octet {words[-1]}" if "at" in words else ""
    return SENTENCES[words[1] if "at" in words else words[0]] + place


def shown(moment: int, packet: Packet, code: str) -> dict:
    """The object of a packet outside the profile, or of a frame of the profile if there is no code."""
    values = values_of(packet)
    if packet.kind == "shb" and packet.media:
        values["media"] = f"{packet.media:08x}"
    if not code:
        return {"moment": moment, **{key: values[key] for key in values if key != "next"}}
    reason = {"outside": code, "reason": VALID + sentence(code)}
    return {"moment": moment, **reason, **values}


def words(v: dict) -> str:
    """What the packet carries, in words."""
    if "payload" not in v:
        return ""
    payload = v["payload"] or "-"
    if "source_port" in v:
        return f" btp a {v['source_port']} {v['port']} {payload}"
    if "port" in v:
        return f" port {v['port']} info {v['info']} {payload}"
    return f" next {v['next']} {payload}"


def line(moment: int, packet: Packet, code: str) -> str:
    """The line of a packet."""
    v = values_of(packet)
    text = f"{moment} outside {code}" if code else f"{moment}"
    text += f" {v['from']} {v['to']} {v['kind']} {v['address']} tst {v['tst']} lat {v['lat']}"
    text += f" lon {v['lon']} pai {v['pai']:d} speed {v['speed']} heading {v['heading']}"
    text += f" lt {v['lt']:02x} tc {v['tc']:02x} mobile {v['mobile']:d}"
    text += f" hops {v['hops']}/{v['max_hops']}"
    text += f" number {v['number']}" if "number" in v else ""
    if "shape" in v:
        text += " {shape} {alat} {alon} {a} {b} {angle}".format_map(v)
    if "destination" in v:
        text += " destination {destination} tst {dtst} lat {dlat} lon {dlon}".format_map(v)
    text += f" sought {v['sought']}" if "sought" in v else ""
    return text + words(v)


# ---- the samples


SOURCE = Vector(0x1400020000000001, 1100, 481372000, 115760000, True, 1389, 2700)
SIGN = Vector(0x3C00020000000010, 900, 481370000, 115750000)
CIRCLE = Area(481371000, 115740000, 300, 0, 0, 0)
HI = bytes.fromhex("07d200006869")
# An IPv6 header without a payload, from fe80::1 to ff02::1.
IP = bytes.fromhex("60000000" "00003b40" "fe800000000000000000000000000001") + bytes.fromhex(
    "ff020000000000000000000000000001"
)


def packet_of(kind: str, **more) -> Packet:
    """A packet of this kind, of the profile if that has the kind."""
    is_sent, hops = kind not in UNSENT, 1 if kind in ("beacon", "shb") else 10
    return replace(
        Packet(
            kind=kind,
            shape=0,
            basic_next=1,
            basic_reserved=0,
            lifetime=0x1A,
            left=hops,
            next=BTP_B if is_sent else ANY,
            next_reserved=0,
            traffic_class=2,
            mobile=True,
            flags_reserved=0,
            max_hops=hops,
            common_reserved=0,
            source=SOURCE,
            sequence=(7, 0),
            destination=SIGN if kind in ("guc", "ls-reply") else None,
            area=CIRCLE if kind in ("gac", "gbc") else None,
            sought=SIGN.address if kind == "ls-request" else 0,
            payload=HI if is_sent else b"",
        ),
        **more,
    )


@dataclass(frozen=True)
class Sample:
    """A record: what is unusual in it, its packet, and its code."""

    name: str
    packet: Packet
    code: str


def sample(name: str, code: str, kind: str, **more) -> Sample:
    return Sample(name, packet_of(kind, **more), code and f"L5 {code}")


def area(**more) -> Area:
    return replace(CIRCLE, **more)


SAMPLES = [
    sample("GUC", "G7 at 5", "guc"),
    sample("TSB over several hops", "G8 at 5", "tsb", left=3, max_hops=5),
    sample("LS request", "G7 at 5", "ls-request"),
    sample("LS reply", "G7 at 5", "ls-reply"),
    sample("BTP-A", "G6 at 4", "gbc", next=BTP_A, payload=bytes.fromhex("07d20fa0cafe")),
    sample("BTP-A of a GUC", "G6 at 4", "guc", next=BTP_A, payload=bytes.fromhex("07d20fa0")),
    sample("IPv6", "G6 at 4", "gbc", next=IPV6, payload=IP),
    sample("Common Header NH 0", "G7 at 5", "shb", next=ANY, payload=b"hello"),
    sample("a payload of 3 octets", "G10 at 8", "gbc", payload=b"\1\2\3"),
    sample("a payload of no octets", "G6 at 4", "shb", next=BTP_A, payload=b""),
    sample("Basic Header NH 0", "G3 at 0", "gbc", basic_next=0),
    sample("a circle with b", "G12 at 50", "gbc", area=area(b=50)),
    sample("a circle with an angle", "G12 at 52", "gac", area=area(angle=90)),
    sample("an angle of 360", "G12 at 52", "gbc", shape=2, area=area(b=50, angle=360)),
    sample("a distance of 0", "G12 at 48", "gac", shape=1, area=area(a=0, b=50)),
    sample(
        "a source without a position",
        "G11 at 24",
        "beacon",
        source=replace(SOURCE, latitude=900000001, longitude=1800000001),
    ),
    sample("a centre out of range", "G12 at 44", "gbc", area=area(longitude=1800000001)),
    sample(
        "a group address",
        "G11 at 12",
        "shb",
        source=replace(SOURCE, address=0x1400030000000001),
    ),
    sample("no hop left", "G5 at 3", "gbc", left=0),
    sample("the reserved octet of the Basic Header", "G4 at 1", "beacon", basic_reserved=128),
    sample("a reserved flag", "G4 at 7", "shb", flags_reserved=1),
    sample("reserved octets after a sequence number", "G4 at 14", "gac", sequence=(7, 1)),
    sample("a next header in a BEACON", "G7 at 5", "beacon", next=BTP_B),
    sample("a BEACON of the profile", "", "beacon"),
    sample("a GBC of the profile", "", "gbc"),
]


def with_put(octets: bytes, at: int, put: int) -> bytes:
    return octets[:at] + bytes([put]) + octets[at + 1 :]


GUC = packet_of("guc").octets()
# What no standard allows: octets and codes.
REFUSED = [
    (with_put(GUC, 10, 9), "L5 G7 at 5"),  # more hops left than the maximum
    (with_put(GUC, 5, 0x21), "L5 G7 at 5"),  # a sub-type that a GUC does not have
    (with_put(GUC, 5, 0x70), "L5 G7 at 5"),  # a header type that is not in the standard
    (with_put(GUC, 0, 0x21), "L5 G2 at 0"),  # version 2
    (GUC[:-1], "L5 G7 at 5"),  # the payload ends early
    (packet_of("ls-request", payload=HI).octets(), "L5 G7 at 5"),  # it has a payload
]


# ---- the capture


def moment_of(place: int) -> int:
    """Milliseconds: a tenth of a second from record to record."""
    return 1000 + place * 100


class Record(NamedTuple):
    """A record of the capture, and its lines."""

    frame: bytes
    line: str
    value: dict


def records() -> list[Record]:
    found = []
    for place, it in enumerate(SAMPLES):
        moment = moment_of(place)
        made = line(moment, it.packet, it.code), shown(moment, it.packet, it.code)
        found.append(Record(LINK + it.packet.octets(), *made))
    for place, (octets, code) in enumerate(REFUSED, len(SAMPLES)):
        moment = moment_of(place)
        value = {"moment": moment, "refused": code, "reason": sentence(code)}
        found.append(Record(LINK + octets, f"{moment} refused {code}", value))
    return found


def capture(frames: list[bytes]) -> bytes:
    header = struct.pack("<IHHiIII", 0xA1B2C3D4, 2, 4, 0, 0, 65535, 1)
    parts = [header]
    for place, frame in enumerate(frames):
        moment, size = moment_of(place), len(frame)
        parts.append(struct.pack("<4I", moment // 1000, moment % 1000 * 1000, size, size) + frame)
    return b"".join(parts)


class Counts(capture_counts.Counts):
    """The tables of `stats --all-kinds`: rows of kinds outside the profile, and how many frames of
    each source are outside."""

    def records(self) -> dict[str, int]:
        outside = [f"outside {kind}" for kind in TYPES]
        names = [frame.kind for frame in self.frames] + self.refused
        order = [*capture_counts.KINDS, *outside, *CODES]
        return {name: names.count(name) for name in order if name in names}

    def source(self, address: str, frames: list[Seen]) -> dict:
        outside = sum(frame.kind.startswith("outside") for frame in frames)
        return {**super().source(address, frames), "outside": outside}


def counted() -> dict:
    """The tables of the capture."""
    frames = []
    for place, it in enumerate(SAMPLES):
        v = values_of(it.packet)
        frames.append(
            Seen(
                moment_of(place),
                f"outside {v['kind']}" if it.code else v["kind"],
                v["address"],
                v["hops"],
                len(LINK) + len(it.packet.octets()),
                v.get("port"),
                v.get("number"),
            )
        )
    return Counts(frames, [code.partition(" at ")[0] for _, code in REFUSED], None).all()


def files() -> dict[str, bytes]:
    """The capture, and what is printed of it."""
    for it in SAMPLES:
        assert (refusal(it.packet.octets()) or "") == it.code, it.name
    for octets, code in REFUSED:
        assert refusal(octets) == code, code
    rows = records()
    lines = [row.line for row in rows]
    objects = [json.dumps(row.value, separators=(",", ":")) for row in rows]
    tables = counted()
    texts = {
        "outside.show": "".join(f"{text}\n" for text in lines),
        "outside.json": "".join(f"{text}\n" for text in objects),
        "outside.stats": capture_counts.as_text(tables, [*COLUMNS, "outside"]),
        "outside.stats.json": capture_counts.as_json(tables),
    }
    made = {name: text.encode() for name, text in texts.items()}
    return {"outside.pcap": capture([row.frame for row in rows]), **made}


def compare() -> str:
    for name, octets in files().items():
        assert (DATA / name).read_bytes() == octets, f"{name} is not that of outside_rows.py"
    return f"{len(records())} records, and their lines in 4 files"


def main(arguments: list[str]) -> None:
    if arguments == ["--write"]:
        for name, octets in files().items():
            (DATA / name).write_bytes(octets)
    else:
        print(compare())


if __name__ == "__main__":
    main(sys.argv[1:])
