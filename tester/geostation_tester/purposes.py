"""Test purposes, a file each (TOML). An unknown key, a wrong type and a missing key are refused,
with the name of the file and of the key."""

from __future__ import annotations

import re
from dataclasses import dataclass
from pathlib import Path

from .actions import (
    INITIALIZE,
    TRUSTED,
    UNKNOWN,
    UPPER,
    Action,
    Neighbour,
    read_action,
    read_neighbours,
)
from .expected import Expectation, read_expectation
from .station_file import NEEDS, PARTNERS, SECURED, STRANGER
from .tables import Table, read_file

ITEM = re.compile(r"(CAP|MIB|PKT|FUN)-[0-9]+$")  # of docs/PROFILE.md
# The duties that `geostation verdict` judges. For the others a purpose has an [[expect]].
JUDGED = tuple("D1 D2 D3 D4 D5 D6 D10 D12 D13 D14 D15 D16 D17 D19".split())


@dataclass(frozen=True)
class Purpose:
    """`duties` has how many passes of each duty are needed, at least. `fresh`: the station may know
    of no other station when it begins. `pics` are the items of the PICS that it tests."""

    name: str
    title: str
    group: str
    clause: str
    pics: tuple[str, ...]
    expected: str
    report: bool
    needs: tuple[str, ...]
    fresh: bool
    settle: int
    neighbours: tuple[Neighbour, ...]
    actions: tuple[Action, ...]
    duties: dict[str, int]
    expectations: tuple[Expectation, ...]

    def length(self) -> int:
        """Ms from the first action to the last one."""
        return max(max(a.at, a.until) for a in self.actions)

    def restarts(self) -> bool:
        """Whether it makes the station start again, so that no claim holds over that."""
        return any(a.ask == INITIALIZE for a in self.actions)


def read_duties(t: Table | None) -> dict[str, int]:
    if t is None:
        return {}
    for duty in t.values:
        if duty not in JUDGED:
            raise t.wrong(f"{duty} is not judged by geostation verdict: use [[expect]]")
    return {duty: t.whole(duty, 1, 65_535) for duty in list(t.values)}


def read_needs(t: Table) -> tuple[str, ...]:
    found = tuple(t.take("needs", list, []))
    for need in found:
        if need not in (*NEEDS, *PARTNERS):
            raise t.wrong(f"needs is not of {', '.join((*NEEDS, *PARTNERS))}")
    return found


def read_pics(t: Table) -> tuple[str, ...]:
    found = tuple(t.take("pics", list, []))
    for item in found:
        if not isinstance(item, str) or not ITEM.match(item):
            raise t.wrong(f"pics has {item}, which is no item of the PICS")
    return found


def check(t: Table, found: Purpose) -> None:
    """What no key alone says."""
    names = [n.name for n in found.neighbours]
    macs = [n.mac for n in found.neighbours]
    named = [a.name for a in found.actions if a.name]
    if len(set(names)) < len(names) or len(set(macs)) < len(macs):
        raise t.wrong("two testers with one name or MAC")
    if len(set(named)) < len(named):
        raise t.wrong("two actions with one name")
    if UPPER not in found.needs and any(a.do == UPPER for a in found.actions):
        raise t.wrong("needs has no upper, and an action asks it")
    for signer, need in ((TRUSTED, SECURED), (UNKNOWN, STRANGER)):
        if need not in found.needs and any(a.fields.signed == signer for a in found.actions):
            raise t.wrong(f"needs has no {need}, and a packet is signed by it")
    for a in found.actions:
        if a.do == "copy" and not any(b.name == a.of and b.at <= a.at for b in found.actions):
            raise t.wrong(f"{a.of or 'of'} names no action before its copy")
    if not found.actions:
        raise t.wrong("nothing is played")
    if not found.duties and not found.expectations:
        raise t.wrong("it aims at no duty, and expects nothing")


def read_purpose(path: Path) -> Purpose:
    t = read_file(path)
    groups = t.all_of("tester", read_neighbours)
    neighbours = tuple(n for group in groups for n in group)
    actions = t.all_of("play", read_action, neighbours)
    found = Purpose(
        path.stem,
        t.take("title", str),
        t.take("group", str),
        t.take("clause", str, ""),
        read_pics(t),
        t.take("expected", str),
        t.take("report", bool, False),
        read_needs(t),
        t.take("fresh", bool, False),
        t.whole("settle", 0, 60_000, 200),
        neighbours,
        actions,
        read_duties(t.table("duties")),
        t.all_of("expect", read_expectation, actions, {n.name for n in neighbours}),
    )
    t.end()
    check(t, found)
    return found
