"""Whether a packet that was heard is forwarded (10.3.11.3): captures near the bounds of the rule."""

from __future__ import annotations

import sys
from dataclasses import dataclass, replace
from pathlib import Path

from once_rule import claims_of
from verdict_frames import (
    AROUND,
    AWAY,
    FAR,
    LIFE,
    NEAR,
    SECURED,
    STATION,
    WITHIN,
    Sent,
    beacon,
    gac,
    gbc,
    judge,
    records,
    relay,
    shb,
    write_pcap,
)

REACH, QUEUE = LIFE + AROUND, 1  # ms
AT, NUMBER = 30_000, 500


def heard(at: int = AT, **fields: object) -> Sent:
    sent = replace(gbc(AT, NEAR, NUMBER), at=at)
    return replace(sent, packet=replace(sent.packet, **fields))


def secured(at: int, address: int) -> Sent:
    return replace(shb(at, address), changes=SECURED)


@dataclass(frozen=True)
class Owed:
    """A packet, what comes with it, and the verdict on it. `end`: when the last record comes after
    it."""

    verdict: tuple[str, str] | None  # with {more} for the first of the other records
    more: tuple[Sent, ...] = ()
    packet: Sent = heard()
    end: int = 1_000
    claims: tuple[tuple[str, str | None], ...] = ()
    needs: tuple[str, ...] = ()

    def frames(self) -> dict[str, Sent]:
        at = self.packet.at
        frames = {"begin": beacon(0, FAR), "packet": self.packet}
        frames |= {"end": beacon(at + self.end, FAR)}
        return frames | {f"z{n}": sent for n, sent in enumerate(self.more)}


FAIL = ("fail", f"owed, but not forwarded within {WITHIN} ms")
AS, BY_COPY = "forwarded as #{more}", "forwarded as #{more}, by a copy that came beside it"
OLD = (("fresh", "false"),)


def doubt(why: str) -> tuple[str, str]:
    return "inconclusive", f"not owed for sure: {why}"


def without(claim: str, why: str, value: str | None = "false") -> Owed:
    return Owed(doubt(why), claims=((claim, value),), needs=(claim,))


KNOWN = doubt("known before the capture")
OTHER = doubt("another packet of its number #{more}")
UNREAD = doubt("not read #{more}")
COPY = heard(AT + 10, hops=8)

OWED = [
    Owed(FAIL),
    # What has to be claimed.
    *(without(claim, claim) for claim in ("sent", "received", "delivered", "unlimited")),
    without("unbuffered", "buffered"),
    without("steady", "restart"),
    without("area", "area", '"other"'),
    without("capacity", "table", None),
    # What isn't owed: the last hop, a geoanycast inside, a number that was heard before.
    Owed(None, packet=heard(hops=1)),
    Owed(None, packet=gac(AT, NUMBER, heard().packet.area)),
    Owed(None, more=(heard(AT - 1_000),)),
    Owed(doubt("place"), packet=gac(AT, NUMBER, AWAY)),
    # It was forwarded, or another one was.
    Owed(("pass", AS), more=(relay(heard(), AROUND),)),
    Owed(FAIL, more=(relay(heard(), AROUND + 1),)),
    Owed(("pass", BY_COPY), more=(relay(COPY, 2), COPY)),
    Owed(OTHER, more=(relay(heard(payload=b"fog"), 2),)),
    # Other records of its number.
    Owed(FAIL, more=(heard(AT + 10),)),
    Owed(OTHER, more=(heard(AT + AROUND, payload=b"fog"),)),
    Owed(FAIL, more=(heard(AT + AROUND + 1, payload=b"fog"),)),
    Owed(OTHER, more=(heard(AT + AROUND, hops=1),)),
    # What came before the capture.
    Owed(KNOWN, packet=heard(1)),
    Owed(FAIL, packet=heard(2)),
    Owed(KNOWN, packet=heard(REACH - 1), claims=OLD, needs=("fresh",)),
    Owed(FAIL, packet=heard(REACH), claims=OLD),
    Owed(FAIL, more=(beacon(REACH, NEAR),), claims=OLD),
    Owed(
        KNOWN,
        packet=heard(10_000 + REACH - 1),
        more=(beacon(10_000, NEAR),),
        claims=OLD,
        needs=("fresh",),
    ),
    Owed(FAIL, packet=heard(10_000 + REACH + 1), more=(beacon(10_000, NEAR),), claims=OLD),
    # A full table: its sources are NEAR, and FAR if that was heard.
    Owed(FAIL, claims=(("capacity", "1"),)),
    Owed(doubt("table"), more=(beacon(AT - REACH, FAR),), claims=(("capacity", "1"),)),
    Owed(FAIL, more=(beacon(AT - REACH - 1, FAR),), claims=(("capacity", "1"),)),
    Owed(doubt("table"), more=(beacon(AT + AROUND, FAR),), claims=(("capacity", "1"),)),
    # Where the capture ends.
    Owed(FAIL, end=AROUND + QUEUE + WITHIN),
    Owed(doubt("the capture ends"), end=AROUND + QUEUE + WITHIN - 1),
    # What isn't read.
    Owed(UNREAD, more=(secured(AT - REACH, NEAR),)),
    Owed(FAIL, more=(secured(AT - REACH - 1, NEAR),)),
    Owed(UNREAD, more=(secured(AT + AROUND, NEAR),)),
    Owed(FAIL, more=(secured(AT + AROUND + 1, NEAR),)),
    Owed(UNREAD, more=(secured(AT + AROUND, STATION),)),
    Owed(FAIL, more=(secured(AT + AROUND + 200, STATION),)),
]


def check_owed(folder: Path) -> int:
    """Judges each packet. Returns how many there are."""
    for owed in OWED:
        ordered = records(owed.frames())
        names = [name for _, name, _ in ordered]
        capture, number = folder / "owed.pcap", names.index("packet")
        write_pcap(capture, [(moment, frame) for moment, _, frame in ordered])
        lines = judge(folder, capture, claims_of(**dict(owed.claims)), (0, 1))[1:-1]
        found = [line for line in lines if (line["duty"], line["record"]) == ("D20", number)]
        got = [(line["result"], line["reason"], tuple(line.get("needs", []))) for line in found]
        more = names.index("z0") if owed.more else None
        wanted = []
        if owed.verdict:
            result, text = owed.verdict
            wanted = [(result, text.format(more=more), owed.needs)]
        if got != wanted:
            sys.exit(f"{owed}: expected {wanted}, got {got}")
    return len(OWED)
