"""The keys of a test purpose, as the page of purposes has them."""

from __future__ import annotations

from typing import NamedTuple

from .purposes import JUDGED

HEAD = "| Table | Key | Value | Default | Meaning |\n|---|---|---|---|---|\n"
METRES, MS = "-100000..100000 m", "0..3600000 ms"


class Key(NamedTuple):
    """`names` has more than one if they have one meaning."""

    table: str
    names: tuple[str, ...]
    value: str
    default: str
    meaning: str


def rows(table: str, *texts: tuple[str, str, str, str]) -> list[Key]:
    return [Key(table, tuple(names.split()), *rest) for names, *rest in texts]


AREA = "`north`, `east` (default 0), `a`, not of a circle `b` and `angle` (default 0)"
KEYS = [
    *rows(
        "",
        ("title expected", "text", "required", "what is tested, and what has to happen"),
        ("group", "text", "required", "the nearest one of TS 102 871-2"),
        ("clause", "text", "empty", "of EN 302 636-4-1, unless it says otherwise"),
        ("pics", "list of text", "none", "items of PROFILE.md"),
        ("needs", "list of text", "none", "claims and partners without which it does not apply"),
        ("report", "boolean", "false", "it reports differences, and does not fail by them"),
        ("fresh", "boolean", "false", "it first waits until the station has forgotten its frames"),
        ("settle", "0..60000 ms", "200", "time after the last frame"),
    ),
    *rows(
        "`[[tester]]`",
        ("name", "text", "required", "name of a station of the tester"),
        ("mac", "12 hexadecimal digits", "required", "its link address"),
        ("count", "1..64", "1", "number of such stations, with numbers after the name"),
        ("type", "0..31", "5", "its station type"),
        ("north east", METRES, "0", "its position, from the station under test"),
        ("pai", "boolean", "true", "whether its position is accurate"),
    ),
    *rows(
        "`[[play]]`",
        ("do", "`beacon`, `shb`, `gbc`, `gac`, `copy`, `raw`, `upper`, `wait`", "required",
         "what is sent, or asked for"),
        ("at", MS, "required", "when"),
        ("every until", "1..3600000 ms", "once", "when again, and the latest time"),
        ("name", "text", "none", "the name of the action"),
        ("from", "text, or a list of it", "required to send", "names of stations of the tester"),
        ("circle rectangle ellipse", AREA, "required of a GBC or GAC", "its area"),
        ("of", "name", "required of `copy`", "the action whose last packet is sent again"),
        ("frame", "hexadecimal digits", "required of `raw`",
         "the frame. `MM`: the MAC of its sender. `SS`: that of the station under test"),
        ("ask", "`shb`, `gbc`, `gac`, `open`, `move`, `initialize`", "required of `upper`",
         "what the upper tester is asked for"),
        ("hops", "0..255", "10", "RHL; of a copy as it was"),
        ("max_hops", "0..255", "`hops`", "MHL"),
        ("number", "0..65535", "the next one", "sequence number"),
        ("lifetime", "0..255", "26", "LT, as its octet"),
        ("tc", "0..255", "0", "traffic class"),
        ("stamp", "0..4294967295", "now", "TST"),
        ("port", "0..65535", "20001", "destination port"),
        ("ports", "1..65536", "1", "number of ports: each time the next one"),
        ("payload", "hexadecimal digits", "empty", "after the BTP-B header"),
        ("size", "0..1394", "that of `payload`", "number of octets, all 0"),
        ("north east pai", "as of `[[tester]]`", "those of the sender",
         "another position; where a `move` leads"),
        ("source", "`neighbour`, `station`", "`neighbour`",
         "the source of the packet: its sender, or the station under test"),
        ("sender", "name", "`from`", "the station with the link source"),
        ("to", "`all`, `station`, name", "`all`", "the link destination"),
        ("signed", "`no`, `trusted`, `unknown`", "`no`", "by which key it is signed"),
        ("octet xor", "-1468..1468; 1..255", "none",
         "one octet of the packet is changed. A negative `octet` counts from the end"),
        ("cut", "0..1468", "none", "the packet is cut to this length"),
    ),
    *rows(
        "`[duties]`",
        (" ".join(JUDGED), "1..65535", "none", "how often the duty has to pass, at least"),
    ),
    *rows(
        "`[[expect]]`",
        ("of", "name", "required where it applies", "the action that the row is about"),
        ("relays", "0..64", "1", "how often each of its packets is forwarded"),
        ("duty", "`D15`, `D17`, `D18`, `D21`, `D23`", "`D21`", "why, if `relays` is 0"),
        ("to", "`all`, name", "any", "to whom"),
        ("hops", "0..255", "any", "with which RHL"),
        ("after", MS, "0", "for how long it is held at least"),
        ("before", MS, "any", "for how long it is held at most"),
        ("gap", "1..3600000 ms", "none", "greatest time without an own packet"),
        ("delivered", "0..64", "none", "how often its payload is delivered, at each port"),
        ("sent", "1", "none", "the requested packet is sent once, as requested"),
        ("number", "0..65535", "none", "sequence number of the requested packet"),
        ("numbers", "2..65536", "none", "least number of own packets for areas, numbered in order"),
        ("beacons", "0", "none", "no beacon while the action is repeated"),
        ("moved", "1", "none", "an own packet has the position that was requested"),
        ("secured", "1..65536", "none", "least number of own packets, all secured and good"),
    ),
]  # fmt: skip


def row(key: Key) -> str:
    names = ", ".join(f"`{name}`" for name in key.names)
    cells = [key.table, names, key.value, key.default, key.meaning]
    return "| " + " | ".join(cells) + " |\n"


def table() -> str:
    return HEAD + "".join(map(row, KEYS))
