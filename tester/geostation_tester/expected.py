"""What a purpose expects beyond the duties that `geostation verdict` judges."""

from __future__ import annotations

from dataclasses import dataclass

from .actions import FOR_AREAS, LONGEST, UPPER, Action
from .tables import Table

# The duty of a packet that is not forwarded.
WITHHELD = ("D15", "D17", "D18", "D21", "D23")
# Keys of what the upper tester was asked for, with their only value.
OWN = {"sent": 1, "beacons": 0, "moved": 1}


@dataclass(frozen=True)
class Relays:
    """Each packet of an action is forwarded so often, to this one, with so many hops left, and not
    before it was held for so many ms, nor later than for so many."""

    of: str
    times: int
    to: str
    hops: int | None
    duty: str
    after: int
    before: int | None


@dataclass(frozen=True)
class Silence:
    """There are never more than so many ms without an own packet."""

    most: int


@dataclass(frozen=True)
class Deliveries:
    """The payload of an action is delivered so often."""

    of: str
    times: int


@dataclass(frozen=True)
class Asked:
    """The packet that the upper tester was asked for is sent once, with the fields that were asked
    for, to this one."""

    of: str
    to: str


@dataclass(frozen=True)
class Numbers:
    """At least so many own packets for areas, each with the next number."""

    least: int


@dataclass(frozen=True)
class Numbered:
    """The own packet that an action asks for has this number."""

    of: str
    number: int


@dataclass(frozen=True)
class Quiet:
    """No beacon while an action is repeated."""

    of: str


@dataclass(frozen=True)
class Position:
    """An own packet has the position that an action set."""

    of: str


@dataclass(frozen=True)
class Secured:
    """At least so many own packets, each secured, with a message that the security entity
    accepts."""

    least: int


Expectation = (
    Relays | Silence | Deliveries | Asked | Numbers | Numbered | Quiet | Position | Secured
)


def name_of(t: Table, actions: tuple[Action, ...], kinds: tuple[str, ...]) -> str:
    of = t.take("of", str)
    if of not in {a.name for a in actions if a.do in kinds and a.name}:
        raise t.wrong(f"of names no {' or '.join(kinds)}")
    return of


def target_of(t: Table, names: set[str]) -> str:
    to = t.take("to", str, "")
    if to and to not in {"all", *names}:
        raise t.wrong("to names no tester")
    return to


def read_relays(t: Table, actions: tuple[Action, ...], names: set[str]) -> Relays:
    of, times = name_of(t, actions, FOR_AREAS), t.whole("relays", 0, 64, 1)
    if not times:
        return Relays(of, 0, "", None, t.one_of("duty", WITHHELD, "D21"), 0, None)
    hops, after = t.optional("hops", 0, 255), t.whole("after", 0, LONGEST, 0)
    before = t.optional("before", after, LONGEST)
    return Relays(of, times, target_of(t, names), hops, "D20", after, before)


def read_expectation(t: Table, actions: tuple[Action, ...], names: set[str]) -> Expectation:
    """The case is that of the key which only it has."""
    if "gap" in t.values:
        return Silence(t.whole("gap", 1, LONGEST))
    if "numbers" in t.values:
        return Numbers(t.whole("numbers", 2, 65_536))
    if "number" in t.values:
        asked = tuple(a for a in actions if a.ask in FOR_AREAS)
        return Numbered(name_of(t, asked, (UPPER,)), t.whole("number", 0, 65_535))
    if "secured" in t.values:
        return Secured(t.whole("secured", 1, 65_536))
    if "delivered" in t.values:
        times = t.whole("delivered", 0, 64)
        return Deliveries(name_of(t, actions, ("shb", *FOR_AREAS)), times)
    own = {key: t.whole(key, n, n) for key, n in OWN.items() if key in t.values}
    if not own:
        return read_relays(t, actions, names)
    of = name_of(t, actions, (UPPER,))
    if "moved" in own:
        return Position(of)
    if "beacons" in own:
        return Quiet(of)
    return Asked(of, target_of(t, names))
