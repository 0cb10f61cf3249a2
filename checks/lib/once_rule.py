"""Whether a packet is forwarded once (Annex A): captures near the bounds of the rule, and drawn ones
that are judged a second time here, by the definitions alone.
"""

from __future__ import annotations

import random
import re
import sys
from dataclasses import dataclass, replace
from pathlib import Path

from verdict_frames import (
    AROUND,
    BEGIN,
    CLAIMS,
    FAR,
    HOME,
    LIFE,
    NEAR,
    REMEMBER,
    SECURED,
    STATION,
    WITHIN,
    Sent,
    beacon,
    gbc,
    judge,
    records,
    relay,
    shb,
    write_pcap,
)

FIRST = "the first time"


def claims_of(**values: str) -> str:
    """The claims that leave no doubt, with these values in place of theirs. None: no such key."""
    text = CLAIMS.format(station=STATION, lon=HOME, mobile="false", age="", rate=1000)
    for key, value in values.items():
        line = "" if value is None else f"{key} = {value}\n"
        text, count = re.subn(rf"^{key} = .*\n", line, text, flags=re.MULTILINE)
        if not count:
            text = text.replace("[claims]\n", f"[claims]\n{line}")
    return text


def once_lines(folder: Path, frames: dict[str, Sent], claims: str) -> tuple[list[dict], list[str]]:
    """The verdicts on D15, and the names of the frames by their records."""
    capture, ordered = folder / "once.pcap", records(frames)
    write_pcap(capture, [(moment, frame) for moment, _, frame in ordered])
    lines = judge(folder, capture, claims, (0, 1))[1:-1]
    found = [line for line in lines if line["duty"] == "D15"]
    return found, [name for _, name, _ in ordered]


# ---- near the bounds


@dataclass(frozen=True)
class Double:
    """A packet that is forwarded at `first` and `since` later, with so many other numbers heard
    between, and what is expected of the second time."""

    result: str
    text: str  # with {first} for the record of the first time
    first: int = 30_000
    since: int = 5_000
    others: int = 0
    copies: int = 2
    claims: tuple[tuple[str, str | None], ...] = ()
    needs: tuple[str, ...] = ()
    more: tuple[Sent, ...] = ()

    def frames(self) -> dict[str, Sent]:
        heard = gbc(self.first - 2, NEAR, 500)
        again = replace(heard, at=heard.at + self.since)
        frames = {"begin": beacon(0, FAR), "far": beacon(heard.at - 50, FAR), "heard": heard}
        frames |= {"first": relay(heard, 2)}
        for n in range(self.others):
            frames |= {f"other {n}": gbc(heard.at + 100 + 10 * n, NEAR, 501 + n)}
            # The same number does not count again.
            frames |= {f"copy {n}": gbc(heard.at + 105 + 10 * n, NEAR, 501 + n)}
        if self.copies == 2:
            frames |= {"heard again": again}
        frames |= {"second": relay(again, 2), "end": beacon(again.at + 1000, FAR)}
        return frames | {f"more {n}": sent for n, sent in enumerate(self.more)}


def fail(others: int) -> tuple[str, str]:
    text = f"again: number 500 of {NEAR:016x} was forwarded as #{{first}}, with {others} other numbers"
    return "fail", f"{text} between"


def doubt(others: int) -> tuple[str, str]:
    return "inconclusive", f"again after #{{first}}, {others} other numbers between"


def away(at: int) -> Sent:
    """A beacon of a third source."""
    return beacon(at, FAR + 1)


DOUBLES = [
    Double(*fail(0)),
    # As many other numbers as it remembers, and one less.
    Double(*fail(REMEMBER - 1), others=REMEMBER - 1),
    Double(*doubt(REMEMBER), others=REMEMBER),
    Double(*fail(REMEMBER), others=REMEMBER, copies=1),
    Double(*doubt(2), others=2, claims=(("remember", "2"),)),
    # A restart, and packets that it keeps.
    Double(*doubt(0), claims=(("steady", "false"),), needs=("steady",)),
    Double(*doubt(0), claims=(("unbuffered", "false"),), needs=("unbuffered",)),
    Double(*doubt(0), claims=(("received", "false"),), needs=("received",)),
    Double(*doubt(0), claims=(("area", '"other"'),), needs=("area",)),
    # A full table. Its sources are NEAR and FAR, and in two cases one more.
    Double(*doubt(0), claims=(("capacity", "1"),)),
    Double(*doubt(0), claims=(("capacity", None),), needs=("capacity",)),
    Double(*fail(0), claims=(("capacity", "2"),), more=(away(30_000 - LIFE - AROUND - WITHIN - 1),)),
    Double(*doubt(0), claims=(("capacity", "2"),), more=(away(30_000 - LIFE - AROUND - WITHIN),)),
    Double(*fail(0), claims=(("capacity", "2"),), more=(away(35_003),)),
    Double(*doubt(0), claims=(("capacity", "2"),), more=(away(35_002),)),
    # The source may have been forgotten, and is forgotten.
    Double(*fail(0), since=LIFE - AROUND - 1),
    Double(*doubt(0), since=LIFE - AROUND),
    Double(*doubt(0), since=LIFE + AROUND),
    Double("pass", FIRST, since=LIFE + AROUND + 1),
    # What came before the capture.
    Double(*fail(0), first=LIFE + AROUND + WITHIN, claims=(("fresh", "false"),)),
    Double(
        *doubt(0),
        first=LIFE + AROUND + WITHIN - 1,
        claims=(("fresh", "false"),),
        needs=("fresh",),
    ),
    # A secured packet may be one of another source, of NEAR, or a copy.
    Double(
        "inconclusive",
        "not read #{unread}",
        more=(replace(shb(20_000, NEAR), changes=SECURED),),
    ),
]


def check_doubles(folder: Path) -> int:
    """Tries each double. Returns how many there are."""
    for double in DOUBLES:
        lines, names = once_lines(folder, double.frames(), claims_of(**dict(double.claims)))
        found = lines[-1]
        unread = names.index("more 0") if double.more else None
        text = double.text.format(first=names.index("first"), unread=unread)
        wanted = (double.result, text, list(double.needs), names.index("second"))
        got = (found["result"], found["reason"], found.get("needs", []), found["record"])
        if got != wanted:
            sys.exit(f"{double}: expected {wanted}, got {got}")
    return len(DOUBLES)


# ---- by the definitions


@dataclass(frozen=True)
class Claimed:
    """What is claimed of a drawn capture, with times in ms."""

    life: int
    remember: int
    capacity: int | None
    steady: bool
    fresh: bool
    received: bool
    sent: bool

    def text(self) -> str:
        words = {name: str(value).lower() for name, value in vars(self).items() if value is not None}
        return claims_of(**({"capacity": None} | words))


@dataclass(frozen=True)
class Tap:
    """The frames of a capture in order, by their packets."""

    claims: Claimed
    frames: list[Sent]

    def heard(self, start: int, stop: int) -> list[Sent]:
        return [f for f in self.frames if f.source != STATION and start <= f.at <= stop]

    def is_whole(self, back: int, at: int) -> bool:
        return self.frames[0].at + back <= at

    def relays(self, of: Sent) -> list[int]:
        """The records of the frames that the station forwarded with this source and number."""
        return [
            n
            for n, f in enumerate(self.frames)
            if f.source == STATION
            and f.packet.number == of.packet.number
            and f.packet.source.address == of.packet.source.address
        ]

    def others(self, i: Sent, j: Sent) -> int:
        found = self.heard(i.at - WITHIN - AROUND, j.at + 2)
        source = j.packet.source.address
        numbers = {f.packet.number for f in found if f.packet.source.address == source}
        return len(numbers - {None, j.packet.number})

    def is_known(self, i: Sent, j: Sent) -> bool:
        """Whether the station still knows the number for sure, or forwards it more often than it was
        heard."""
        if self.is_whole(WITHIN + AROUND, i.at) and self.others(i, j) < self.claims.remember:
            return True
        key = (j.packet.source.address, j.packet.number)
        found = self.heard(i.at - AROUND, j.at + 2)
        heard = sum((f.packet.source.address, f.packet.number) == key for f in found)
        relayed = sum(i.at <= self.frames[n].at <= j.at for n in self.relays(j))
        return self.is_whole(AROUND, i.at) and heard < relayed

    def has_room(self, i: Sent, j: Sent) -> bool:
        claims = self.claims
        back = claims.life + WITHIN + AROUND
        if claims.capacity is None or not (claims.fresh or self.is_whole(back, i.at)):
            return False
        sources = {f.packet.source.address for f in self.heard(i.at - back, j.at + 2)}
        return len(sources) <= claims.capacity

    def is_fail(self, i: Sent, j: Sent) -> bool:
        claims = self.claims
        claimed = claims.steady and claims.received
        in_life = j.at - i.at + AROUND < claims.life
        return claimed and in_life and self.is_known(i, j) and self.has_room(i, j)

    def verdict(self, record: int) -> tuple[str, str]:
        """The verdict on this record, and its text."""
        j, back = self.frames[record], self.claims.life + AROUND
        earlier = [n for n in self.relays(j) if n < record and j.at - back <= self.frames[n].at]
        if not earlier:
            known = self.claims.fresh or self.is_whole(back, j.at)
            return "pass" if self.claims.sent and known else "inconclusive", FIRST
        failing = [n for n in earlier if self.is_fail(self.frames[n], j)]
        n = (failing or earlier)[-1]
        others = self.others(self.frames[n], j)
        if not failing:
            return "inconclusive", f"again after #{n}, {others} other numbers between"
        source, number = j.packet.source.address, j.packet.number
        text = f"again: number {number} of {source:016x} was forwarded as #{n}"
        return "fail", f"{text}, with {others} other numbers between"


def drawn_tap(draw: random.Random) -> Tap:
    """A capture of few sources and numbers, whose stamps are often at the bounds of the rule."""
    claims = Claimed(
        life=draw.choice([60, 100, 200]),
        remember=draw.randrange(1, 4),
        capacity=draw.choice([None, 1, 2, 3, 3, 3]),
        steady=draw.random() < 0.9,
        fresh=draw.random() < 0.5,
        received=draw.random() < 0.9,
        sent=draw.random() < 0.7,
    )
    at, frames, sources = 0, [], [NEAR, FAR, FAR + 1]
    for _ in range(60):
        at += draw.choice([0, 1, 1, 2, 5, 10, 20, 42])
        source = draw.choice(sources[: draw.randrange(1, 4)])
        kind = draw.choice(["beacon", "gbc", "gbc", "relay", "relay"])
        if kind == "beacon":
            frames.append(beacon(at, source))
        else:
            sent = gbc(at, source, draw.randrange(4))
            frames.append(sent if kind == "gbc" else relay(sent, 0))
    return Tap(claims, frames)


def check_drawn(folder: Path, count: int = 150) -> int:
    """Judges drawn captures. Returns how many verdicts on D15 there were."""
    verdicts = {}
    for seed in range(count):
        tap = drawn_tap(random.Random(seed))
        capture = folder / "once.pcap"
        write_pcap(capture, [(BEGIN + f.at, f.frame()) for f in tap.frames])
        lines = judge(folder, capture, tap.claims.text(), (0, 1))[1:-1]
        for line in lines:
            if line["duty"] == "D15":
                found, wanted = (line["result"], line["reason"]), tap.verdict(line["record"])
                if found != wanted:
                    sys.exit(f"D15 of drawn capture {seed}, {line}: expected {wanted}")
                verdicts[found[0]] = verdicts.get(found[0], 0) + 1
    if len(verdicts) < 3:
        sys.exit(f"drawn captures have only {verdicts} of D15")
    return sum(verdicts.values())
