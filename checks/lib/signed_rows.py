"""Secured frames, and what is shown of them with `--signed`.

    python3 checks/lib/signed_rows.py           compares cases/data/signed.* with these frames
    python3 checks/lib/signed_rows.py --write   writes the files again, with new signatures

`checks/lib/dissect_signed.py` compares them with what Wireshark reads.
All lines come from what was put into the frames, by docs/commands/show.md, check.md and stats.md.
No line is the program's own.
"""

from __future__ import annotations

import json
import struct
import sys
from dataclasses import dataclass, field
from pathlib import Path

# Imports leave no compiled files among the sources.
sys.dont_write_bytecode = True

from capture_counts import CODES, Counts, Seen, as_json, as_text, table
from file_rows import PCAP_HEADER
from packet_rows import (
    ALL, BEACON, CIRCLE_OF_100, ENDS, GAC, GBC, HEADER, HI, LINK, LONGEST, OF_ENDS, SHB, with_put,
)
from secured import SIGNATURE_LENGTH, Key, Message, secured, unsecured

DATA = Path(__file__).resolve().parents[2] / "cases/data"
WEST, EAST = Key(1), Key(2)
# Microseconds of TAI since 2004-01-01.
NOW = 722_701_074_560_000
GENERATED = "generationTime"
# Where things are in a frame.
HOPS_AT, BODY = 17, 18
PORT_AT = {"shb": 14 + 40, "gbc": 14 + 56, "gac": 14 + 56}
FRAMES = {"beacon": LINK + BEACON, "shb": LINK + SHB, "gbc": LINK + GBC, "gac": LINK + GAC}
OF_KIND = {
    "beacon": HEADER,
    "shb": {**HEADER, **HI},
    "gbc": {**HEADER, **CIRCLE_OF_100, **HI},
    "gac": {**HEADER, **CIRCLE_OF_100, **HI},
}
KEYS = (
    "moment from to kind address tst lat lon pai speed heading lt tc mobile hops max_hops number"
    " shape alat alon a b angle port info payload psid generated secured"
).split()


@dataclass(frozen=True)
class Sample:
    """A record: its frame, and the values that are shown of it, or why it is refused. With a
    `message`, the frame ends in a signature of that."""

    name: str
    frame: bytes
    values: dict = field(default_factory=dict)
    refused: str | None = None
    message: Message | None = None


def with_port(kind: str, port: int) -> bytes:
    """The frame of a kind, for another port."""
    return with_put(FRAMES[kind], (PORT_AT[kind], port.to_bytes(2, "big")))


def signed(name: str, kind: str, port: int | None, psid: int, **more) -> Sample:
    """A signed packet. `more` has the time, the signer and further header info."""
    frame = FRAMES[kind] if port is None else with_port(kind, port)
    message = Message(frame[BODY:], psid, **{"time": NOW, "key": WEST, **more})
    values = {**OF_KIND[kind], "kind": kind, "psid": psid, "generated": message.time}
    if port is not None:
        values["port"] = port
    return Sample(name, secured(frame, message.encode()), values, message=message)


def of_message(name: str, frame: bytes, values: dict, octets: bytes) -> Sample:
    return Sample(name, secured(frame, octets), values)


# The header info, beside PSID and generation time, a field each and all of them. Wireshark 4.0
# misreads a missing CRL, so no other field comes with it.
EXPIRY = {"expiryTime": NOW + 1_000_000}
LOCATION = {"generationLocation": {"latitude": -123, "longitude": 1_799_999_999, "elevation": 7}}
LEARNING = {"p2pcdLearningRequest": bytes.fromhex("a1b2c3")}
MISSING_CRL = {"missingCrlIdentifier": {"cracaId": bytes.fromhex("0a0b0c"), "crlSeries": 513}}
SYMMETRIC = {"encryptionKey": ("symmetric", ("aes128Ccm", bytes(range(16))))}
POINT = f"compressed-y-{EAST.compressed[0] & 1}", EAST.compressed[1:]
PUBLIC = {"supportedSymmAlg": 0, "publicKey": ("eciesNistP256", POINT)}
ENCRYPTION = {"encryptionKey": ("public", PUBLIC)}
INLINE = {"inlineP2pcdRequest": [bytes.fromhex("a1b2c3"), bytes.fromhex("d4e5f6")]}
CERTIFICATE = {"requestedCertificate": EAST.certificate()}
EVERYTHING = {**EXPIRY, **LOCATION, **LEARNING, **ENCRYPTION, **INLINE, **CERTIFICATE}

OF_GBC = {**OF_KIND["gbc"], "kind": "gbc"}
SIGNED_GBC = {**OF_GBC, "psid": 37, "generated": NOW}


def read() -> list[Sample]:
    """Frames that are read: each signer, kind, PSID and header info."""
    first = signed("a warning", "gbc", 2002, 37)
    sender = bytes.fromhex("020000000002")
    forwarded = with_put(first.frame, (6, sender), (HOPS_AT, b"\x09"))
    relayed = {**first.values, "from": sender.hex(), "hops": 9}
    body = {"port": 0x5A5A, "info": 0x5A5A, "payload": LONGEST[14 + 60 :].hex()}
    longest = {**OF_GBC, **body, "psid": 37, "generated": NOW}
    ends = Message(ENDS[4:], 37, (1 << 64) - 1, EAST, "certificate")
    return [
        first,
        Sample("the warning, forwarded", forwarded, relayed, message=first.message),
        signed("a certificate as signer", "shb", 2001, 36, signer="certificate"),
        signed("no signer, no time", "beacon", None, 141, signer="self", time=None),
        signed("expiry time", "gac", 2004, 137, header=EXPIRY),
        signed("place", "gbc", 2003, 138, header=LOCATION),
        signed("request for a certificate", "shb", 2006, 139, header=LEARNING, time=NOW + 1),
        signed("missing CRL", "gbc", 2007, 140, header=MISSING_CRL),
        signed("symmetric key", "gbc", 2009, 639, header=SYMMETRIC, key=EAST),
        signed("public key", "gbc", 2002, 37, header=ENCRYPTION, time=None),
        signed("requests for certificates", "shb", 2001, 36, header=INLINE),
        signed("a requested certificate", "shb", 2001, 36, header=CERTIFICATE),
        signed("all of these", "gac", 2002, 37, header=EVERYTHING, signer="certificate"),
        signed("a PSID of no octets but 0", "gbc", 2002, 0),
        signed("the greatest PSID", "gbc", 2002, (1 << 32) - 1, time=0),
        Sample("ends of ranges", secured(LINK + ENDS, ends.encode()),
               {**OF_ENDS, "psid": 37, "generated": (1 << 64) - 1}, message=ends),
        Sample("the longest packet",
               secured(LONGEST, Message(LONGEST[BODY:], 37, NOW, WEST).encode()), longest,
               message=Message(LONGEST[BODY:], 37, NOW, WEST)),
        of_message("unsecured data", LINK + GBC, OF_GBC, unsecured(GBC[4:])),
        of_message("unsecured data of a beacon", LINK + BEACON, {**HEADER, "kind": "beacon"},
                   unsecured(BEACON[4:])),
    ]


# The octets of a message for GBC: its first ones, the length of its plain part (58), and so on.
FRONT, LENGTH, TIMED = bytes.fromhex("038100400380"), b"\x3a", b"\x40"
PLAIN, TIME = GBC[4:], NOW.to_bytes(8, "big")
TAIL = bytes(SIGNATURE_LENGTH + 9)  # where signer and signature are; nobody reads them


def other_forms() -> list[Sample]:
    """Forms that canonical rules don't write and that are read all the same."""
    psid = b"\x01\x25"
    forms = {
        "length behind 81": FRONT + b"\x81" + LENGTH + PLAIN + TIMED + psid + TIME + TAIL,
        "length behind 82": FRONT + b"\x82\0" + LENGTH + PLAIN + TIMED + psid + TIME + TAIL,
        "zeros in front of a PSID":
            FRONT + LENGTH + PLAIN + TIMED + b"\x04\0\0\0\x25" + TIME + TAIL,
        "nothing behind the time": FRONT + LENGTH + PLAIN + TIMED + psid + TIME,
        "all flags of the header info": FRONT + LENGTH + PLAIN + b"\xff" + psid + TIME + TAIL,
        "the last hash algorithm": FRONT[:2] + b"\x7f" + FRONT[3:] + LENGTH + PLAIN + TIMED + psid
            + TIME + TAIL,
    }
    samples = [of_message(name, LINK + GBC, SIGNED_GBC, octets) for name, octets in forms.items()]
    padded = unsecured(PLAIN) + bytes(9)
    return samples + [of_message("octets behind unsecured data", LINK + GBC, OF_GBC, padded)]


def unsigned(message: Message) -> bytes:
    """A message with zeros for its signature."""
    return message.encode()[:-SIGNATURE_LENGTH] + bytes(SIGNATURE_LENGTH)


def faulty(name: str, refused: str, octets: bytes, frame: bytes = LINK + GBC) -> Sample:
    return Sample(name, secured(frame, octets), refused=refused)


def wrong_messages() -> list[Sample]:
    """Messages with one wrong octet, and ones that end too early. Places count from the packet's
    first octet; the message begins at 4."""
    good = FRONT + LENGTH + PLAIN + TIMED + b"\x01\x25" + TIME
    end = 4 + len(good)
    header = 4 + len(FRONT) + 1 + len(PLAIN)
    hashed = {"extDataHash": ("sha256HashedData", bytes(32))}
    inner = {"protocolVersion": 3, "content": ("unsecuredData", PLAIN)}
    both = unsigned(Message(PLAIN, 37, NOW, WEST, payload={"data": inner, **hashed}))
    rows = [
        (0, "02", 4), (0, "04", 4), (1, "82", 5), (1, "83", 5), (1, "00", 5), (2, "80", 6),
        (2, "ff", 6), (3, "c0", 7), (3, "20", 7), (3, "41", 7), (4, "02", 8), (5, "81", 9),
        (6, "80", 10), (6, "83", 10), (6, "ff", 10),
        (header - 4 + 1, "00", header + 1), (header - 4 + 1, "05", header + 1),
        (header - 4 + 1, "81", header + 1),
    ]
    samples = [
        faulty(f"{digits} at {at}", f"E1 at {at}", with_put(good, (place, bytes.fromhex(digits))))
        for place, digits, at in rows
    ]
    samples.append(faulty("data and a hash", "E1 at 7", both))
    cuts = (1, 2, 3, 4, 5, 6, 7, 64, 65, 66, 67, 74)
    samples += [faulty(f"cut to {cut}", f"E2 at {4 + cut}", good[:cut]) for cut in cuts]
    samples += [
        faulty("a length of 82 that is cut", "E2 at 12", good[:6] + b"\x82\0"),
        faulty("an E1 before an E2", "E1 at 5", b"\x03\x82"),
        faulty("unsecured data that is cut", f"E2 at {end - 10 - 6}", unsecured(PLAIN)[:-1]),
    ]
    return samples


def wrong_packets() -> list[Sample]:
    """Good messages in wrong frames, and with wrong packets in them."""
    frame = secured(LINK + GBC, unsigned(Message(PLAIN, 37, NOW, WEST)))
    short = unsigned(Message(PLAIN[:-1], 37, NOW, WEST))
    more = unsigned(Message(PLAIN + b"\0", 37, NOW, WEST))
    empty = unsigned(Message(b"", 37, NOW, WEST))
    nothing_inside = frame[:14] + b"\x12\0\x1a\x0a" + unsecured(b"")
    return [
        Sample("more hops than are signed", with_put(frame, (HOPS_AT, b"\x0b")),
               refused="L6 G9 at 10"),
        faulty("a plain part that is cut", "L6 G1 at 61", short),
        faulty("an empty plain part", "L6 G1 at 4", empty),
        Sample("no octet of unsecured data", nothing_inside, refused="L6 G1 at 4"),
        faulty("a wrong header type", "L6 G7 at 5", unsecured(b"\x20\x60" + PLAIN[2:])),
        faulty("an octet behind the packet", "L4", more),
        Sample("a fault of the message and of the packet", with_put(
            frame, (HOPS_AT, b"\x0b"), (BODY, b"\x02")), refused="E1 at 4"),
        Sample("reserved octet", with_put(frame, (15, b"\1")), refused="L5 G4 at 1"),
        Sample("no hops", with_put(frame, (HOPS_AT, b"\0")), refused="L5 G5 at 3"),
        Sample("no Basic Header", frame[:15], refused="L5 G1 at 1"),
        Sample("no message", frame[:BODY], refused="L5 G1 at 4"),
        Sample("too long", frame + bytes(2311 - len(frame)), refused="L3"),
        Sample("2310 octets", frame + bytes(2310 - len(frame)), SIGNED_GBC),
        Sample("an unsecured beacon", LINK + BEACON, {**HEADER, "kind": "beacon", "plain": True}),
    ]


def lengths() -> list[Sample]:
    """Lengths in longer forms, of the plain part and of the PSID; and nothing behind a PSID."""
    front, psid = FRONT + LENGTH + PLAIN, b"\x01\x25"
    heads = (b"\x83" + LENGTH, b"\x83\0" + LENGTH, b"\x84" + LENGTH, b"\x83\0\0" + LENGTH)
    rest = PLAIN + TIMED + psid + TIME + TAIL
    samples = [faulty(f"length {head.hex()}", "E1 at 10", FRONT + head + rest) for head in heads]
    long_psid = front + TIMED + b"\x05\0\0\0\0\x25" + TIME + TAIL
    samples.append(faulty("a PSID of 5 octets", "E1 at 70", long_psid))
    return samples + [of_message("nothing behind the PSID", LINK + GBC, {**OF_GBC, "psid": 37},
                                 front + b"\0" + psid)]


SAMPLES = read() + other_forms() + wrong_messages() + wrong_packets() + lengths()


def moment_of(place: int) -> int:
    """Milliseconds: a tenth of a second from record to record."""
    return 1000 + place * 100


def is_secured(sample: Sample) -> bool:
    return sample.refused is None and "plain" not in sample.values


# ---- lines


def shown(place: int, sample: Sample) -> dict:
    """The object of `show --signed --json`, without a reason."""
    if sample.refused:
        return {"moment": moment_of(place), "refused": sample.refused}
    values = {**sample.values, "moment": moment_of(place), "secured": is_secured(sample) or None}
    return {key: values[key] for key in KEYS if values.get(key) is not None}


def show_line(place: int, sample: Sample) -> str:
    if sample.refused:
        return f"{moment_of(place)} refused {sample.refused}"
    v = shown(place, sample)
    line = (
        f"{v['moment']} {v['from']} {v['to']} {v['kind']} {v['address']} tst {v['tst']}"
        f" lat {v['lat']} lon {v['lon']} pai {v['pai']:d} speed {v['speed']} heading {v['heading']}"
        f" lt {v['lt']:02x} tc {v['tc']:02x} mobile {v['mobile']:d}"
        f" hops {v['hops']}/{v['max_hops']}"
    )
    if "number" in v:
        line += f" number {v['number']} {v['shape']} {v['alat']} {v['alon']} {v['a']} {v['b']}"
        line += f" {v['angle']}"
    if "port" in v:
        line += f" port {v['port']} info {v['info']} {v['payload'] or '-'}"
    if "psid" in v:
        return f"{line} signed {v['psid']} {v.get('generated', '-')}"
    return f"{line} unsigned" if "secured" in v else line


def json_line(place: int, sample: Sample) -> str:
    return json.dumps(shown(place, sample), separators=(",", ":"))


class SignedCounts(Counts):
    """The tables with the codes of secured frames, and that of PSIDs."""

    psids: list = []

    def records(self) -> dict[str, int]:
        """L6 comes behind L5, then E1 and E2."""
        found = super().records()
        codes = [f"L6 G{number}" for number in range(1, 13)] + ["E1", "E2"]
        return found | {code: self.refused.count(code) for code in codes if code in self.refused}


def kind_of(code: str) -> str:
    """The code without its place."""
    return code.partition(" at ")[0]


def tables() -> dict:
    """What `stats --signed` counts."""
    frames = []
    for place, sample in enumerate(SAMPLES):
        if sample.refused is None:
            v = shown(place, sample)
            frames.append(Seen(v["moment"], v["kind"], v["address"], v["hops"], len(sample.frame),
                               v.get("port"), v.get("number")))
    refused = [kind_of(sample.refused) for sample in SAMPLES if sample.refused]
    assert not set(refused) - set(CODES) - {f"L6 G{n}" for n in range(1, 13)} - {"E1", "E2"}
    psids: dict[int, list[int]] = {}
    for sample in SAMPLES:
        if sample.refused is None and "psid" in sample.values:
            psids.setdefault(sample.values["psid"], []).append(len(sample.frame))
    rows = [{"psid": p, "frames": len(psids[p]), "octets": sum(psids[p])} for p in sorted(psids)]
    return {**SignedCounts(frames, refused, None).all(), "psids": rows}


def files() -> dict[str, str]:
    """What is printed of the capture, by file."""
    places = list(enumerate(SAMPLES))
    refused = [(place, sample) for place, sample in places if sample.refused]
    check = [f"record {place}: {sample.refused}" for place, sample in refused]
    check.append(f"{len(places)} records, {len(refused)} refused")
    counted = tables()
    psids = table(["PSID", "frames", "octets"], (row.values() for row in counted["psids"]))
    texts = {
        "signed.show": [show_line(*row) for row in places],
        "signed.json": [json_line(*row) for row in places],
        "signed.check": check,
    }
    made = {name: "".join(f"{line}\n" for line in lines) for name, lines in texts.items()}
    stats = f"{as_text(counted)}\n{psids}"
    return {**made, "signed.stats": stats, "signed.stats.json": as_json(counted)}


# ---- the capture


def capture(frames: list[bytes]) -> bytes:
    records = [
        struct.pack("<4I", moment // 1000, moment % 1000 * 1000, len(frame), len(frame)) + frame
        for moment, frame in ((moment_of(place), frame) for place, frame in enumerate(frames))
    ]
    return PCAP_HEADER + b"".join(records)


def frames_of(octets: bytes) -> list[bytes]:
    """The frames of a capture that was written here."""
    frames, at = [], len(PCAP_HEADER)
    while at < len(octets):
        (length,) = struct.unpack_from("<I", octets, at + 8)
        frames.append(octets[at + 16 : at + 16 + length])
        at += 16 + length
    return frames


def compare() -> str:
    """The files have these frames, with signatures that are right, and these lines."""
    frames, count = frames_of((DATA / "signed.pcap").read_bytes()), 0
    assert len(frames) == len(SAMPLES), "signed.pcap has other records"
    for sample, frame in zip(SAMPLES, frames):
        end = len(frame) - SIGNATURE_LENGTH if sample.message else len(frame)
        assert frame[:end] == sample.frame[:end] and len(frame) == len(sample.frame), sample.name
        if sample.message:
            good = sample.message.key.is_signature(frame[end:], sample.message.hashed())
            assert good, f"{sample.name}: a wrong signature"
            count += 1
    for name, text in files().items():
        assert (DATA / name).read_text() == text, f"{name} has other lines"
    return f"{len(frames)} records with {count} right signatures, and their lines in 5 files"


def write() -> None:
    (DATA / "signed.pcap").write_bytes(capture([sample.frame for sample in SAMPLES]))
    for name, text in files().items():
        (DATA / name).write_text(text)


def main(words: list[str]) -> None:
    if words == ["--write"]:
        write()
    else:
        print(compare())


if __name__ == "__main__":
    main(sys.argv[1:])
