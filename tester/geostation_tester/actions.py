"""The stations of a purpose, and what they do."""

from __future__ import annotations

from dataclasses import dataclass

from .areas import FAR, Area, read_area
from .tables import Table

FOR_AREAS = ("gbc", "gac")
KINDS = ("beacon", "shb", *FOR_AREAS)
UPPER = "upper"  # the action that asks an upper tester, and the need of one
UNSIGNED, TRUSTED, UNKNOWN = "no", "trusted", "unknown"  # by which key a packet is signed
ACTIONS = (*KINDS, "copy", "raw", UPPER, "wait")
INITIALIZE = "initialize"
# What an upper tester is asked for: packets, an open port, a new position, and the initial state.
ASKED = ("shb", *FOR_AREAS, "open", "move", INITIALIZE)
LONGEST = 3_600_000  # ms
HOPS = 10  # itsGnDefaultHopLimit
OCTETS = 1_468  # of a frame
PORT = 20_001  # which no message of ETSI has, so that Wireshark does not read one
LONGEST_PAYLOAD = 1_394  # octets, after the BTP-B header


@dataclass(frozen=True)
class Neighbour:
    """A station that the tester plays, in metres from the station under test."""

    name: str
    group: str
    mac: bytes
    type: int
    north: int
    east: int
    pai: bool


@dataclass(frozen=True)
class Fields:
    """What a frame of an action has otherwise than a new packet of its neighbour."""

    hops: int | None = None  # of a new packet HOPS, of a copy as they were
    max_hops: int | None = None
    number: int | None = None
    lifetime: int = 0x1A
    traffic_class: int = 0
    stamp: int | None = None
    north: int | None = None
    east: int | None = None
    pai: bool | None = None
    signed: str = UNSIGNED
    sender: str = ""
    to: str = "all"
    source: str = "neighbour"
    octet: int | None = None  # of the packet as it is sent; a negative one counts from its end
    xor: int = 0
    cut: int | None = None

    def first_hops(self) -> int:
        """The hops left of a new packet for an area."""
        return HOPS if self.hops is None else self.hops


@dataclass(frozen=True)
class Action:
    """What the neighbours of these names do, from `at` on, and each `every` ms until `until`."""

    name: str
    at: int
    do: str
    names: tuple[str, ...]
    every: int
    until: int
    area: Area | None
    port: int  # of the first time; each of `ports` times has the next one
    ports: int
    payload: bytes
    fields: Fields
    ask: str  # of `upper`
    of: str  # of `copy`: the action whose last packet is sent once more, by another one or the same
    frame: str  # of `raw`, in hexadecimal digits; MM is the neighbour's MAC, SS the station's


def read_neighbours(t: Table) -> list[Neighbour]:
    """The stations of a table: `count` of them have numbers behind their name, and MACs that follow
    each other."""
    name, mac, count = t.take("name", str), t.mac("mac"), t.whole("count", 1, 64, 1)
    if name in ("", "all", "station"):
        raise t.wrong("name is empty or a keyword")
    first = int.from_bytes(mac, "big")
    kind, pai = t.whole("type", 0, 31, 5), t.take("pai", bool, True)
    where = t.whole("north", -FAR, FAR, 0), t.whole("east", -FAR, FAR, 0)
    names = [name] if count == 1 else [f"{name}{k + 1}" for k in range(count)]
    macs = [(first + k).to_bytes(6, "big") for k in range(count)]
    return [Neighbour(n, name, m, kind, *where, pai) for n, m in zip(names, macs)]


def read_fields(t: Table, names: set[str]) -> Fields:
    octet = t.optional("octet", -OCTETS, OCTETS)
    found = Fields(
        hops=t.optional("hops", 0, 255),
        max_hops=t.optional("max_hops", 0, 255),
        number=t.optional("number", 0, 65_535),
        lifetime=t.whole("lifetime", 0, 255, 0x1A),
        traffic_class=t.whole("tc", 0, 255, 0),
        stamp=t.optional("stamp", 0, (1 << 32) - 1),
        north=t.optional("north", -FAR, FAR),
        east=t.optional("east", -FAR, FAR),
        pai=t.take("pai", bool) if "pai" in t.values else None,
        signed=t.one_of("signed", (UNSIGNED, TRUSTED, UNKNOWN), UNSIGNED),
        sender=t.take("sender", str, ""),
        to=t.take("to", str, "all"),
        source=t.one_of("source", ("neighbour", "station"), "neighbour"),
        octet=octet,
        xor=t.whole("xor", 1, 255) if octet is not None else 0,
        cut=t.optional("cut", 0, OCTETS),
    )
    if found.sender and found.sender not in names:
        raise t.wrong("sender names no tester")
    if found.to not in {"all", "station", *names}:
        raise t.wrong("to names no tester")
    return found


def chosen_names(t: Table, neighbours: tuple[Neighbour, ...]) -> tuple[str, ...]:
    """The names of a `from`, in which the name of a group is that of each of it."""
    value = t.take("from", (str, list))
    asked = [value] if isinstance(value, str) else value
    found = [[n.name for n in neighbours if word in (n.name, n.group)] for word in asked]
    if not found or not all(found):
        raise t.wrong("from names no tester")
    return tuple(name for part in found for name in part)


def read_raw(t: Table) -> str:
    frame = t.take("frame", str)
    try:
        bytes.fromhex(frame.replace("MM", "").replace("SS", ""))
    except ValueError:
        raise t.wrong("frame is not hexadecimal") from None
    return frame


def read_action(t: Table, neighbours: tuple[Neighbour, ...]) -> Action:
    do, at = t.one_of("do", ACTIONS), t.whole("at", 0, LONGEST)
    names = () if do in (UPPER, "wait") else chosen_names(t, neighbours)
    ask = t.one_of("ask", ASKED) if do == UPPER else ""
    area = read_area(t)
    if ((ask or do) in FOR_AREAS) != (area is not None):
        raise t.wrong("a gbc or gac has an area, and nothing else")
    every = t.optional("every", 1, LONGEST) or 0
    size = t.optional("size", 0, LONGEST_PAYLOAD)
    port = t.whole("port", 0, 65_535, PORT)
    return Action(
        name=t.take("name", str, ""),
        at=at,
        do=do,
        names=names,
        every=every,
        until=t.whole("until", at, LONGEST) if every else at,
        area=area,
        port=port,
        ports=t.whole("ports", 1, 65_536 - port, 1),
        payload=t.octets("payload", "") if size is None else bytes(size),
        fields=read_fields(t, {n.name for n in neighbours}),
        ask=ask,
        of=t.take("of", str) if do == "copy" else "",
        frame=read_raw(t) if do == "raw" else "",
    )
