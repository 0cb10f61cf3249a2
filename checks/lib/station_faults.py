"""Faults of a station, for `geostation verdict`: one change each of the capture in which it obeys."""

from __future__ import annotations

import sys
from dataclasses import dataclass, replace
from pathlib import Path

from obeying import (
    changed,
    check_kinds,
    check_obeying,
    instead,
    judge_frames,
    names_of,
    obeying,
    with_packet,
)
from standard.areas import Area
from standard.packets import LINK, mid
from verdict_frames import (
    AREA,
    FAR,
    HOME,
    NEAR,
    STATION,
    WITHIN,
    Sent,
    beacon,
    gac,
    gbc,
    relay,
    shb,
)

UNREAD = {"own": -1, "unread": 1}
EXTRA, MISSING = {"extra": 1}, {"missing": 1}
GROUP = bytes.fromhex("333300000001")
RECTANGLE = Area("rectangle", 481000000, HOME, 400, 300, 30)
ELLIPSE = Area("ellipse", 481000000, HOME, 400, 300, 60)
OWED = f"owed, but not forwarded within {WITHIN} ms"


@dataclass(frozen=True)
class Fault:
    """A fault: the duty, its text with {NAME} for the record of a frame, the frames, how many more
    frames of each kind a replay against the station has, and the duties that fail with it."""

    duty: str
    text: str
    frames: dict[str, Sent]
    kinds: dict[str, int]
    also: tuple[str, ...] = ()


def more(**frames: Sent) -> dict[str, Sent]:
    """The frames of the station that obeys, and these."""
    return obeying() | frames


def without(name: str) -> dict[str, Sent]:
    return {other: sent for other, sent in obeying().items() if other != name}


def form_faults() -> list[Fault]:
    """An octet of an own packet that no packet has there (clause 9), by octets of the packet."""
    codes = {
        "G2 at 0": (0, 0x21),
        "G4 at 1": (1, 0x80),
        "G5 at 3": (3, 0),
        "G4 at 4": (4, 0x21),
        "G4 at 7": (7, 0x01),
        "G10 at 8": (9, 3),
        "G1 at 63": (9, 8),
        "G9 at 10": (10, 3),
        "G4 at 11": (11, 1),
        "G4 at 14": (15, 1),
        "G11 at 28": (28, 0x7F),
        "G12 at 48": (48, 0),
        "G12 at 50": (51, 1),
        "G12 at 52": (53, 1),
        "G4 at 54": (55, 1),
    }
    wide = (LINK + 48, 0), (LINK + 49, 0)
    found = []
    for code, (place, octet) in codes.items():
        changes = wide if place == 48 else ((LINK + place, octet),)
        found.append(Fault("D1", code, changed("own 2", changes=changes), UNREAD))
    long = changed("beacon", changes=((LINK + 9, 4),))
    return [*found, Fault("D1", "G10 at 8", long, UNREAD)]


def header_faults() -> list[Fault]:
    """Own packets with another link target, mobile bit, hops or lifetime."""
    return [
        Fault("D2", "a beacon to 020000000200", changed("beacon", target=mid(NEAR)), {}),
        Fault("D2", "a shb to 020000000201", changed("shb", target=mid(FAR)), {}),
        Fault("D2", "a beacon to 333300000001", changed("late beacon", target=GROUP), {}),
        Fault("D3", "mobile bit 1", with_packet("shb", mobile=True), {}),
        Fault("D3", "mobile bit 1", with_packet("beacon", mobile=True), {}),
        Fault("D3", "mobile bit 1", with_packet("own 3", mobile=True), {}),
        Fault("D4", "hops 9 of 10", with_packet("own 1", hops=9), {}),
        Fault("D4", "hops 1 of 10", with_packet("own 0", hops=1), {}),
        Fault("D4", "hops 2 of 2", with_packet("shb", hops=2, max_hops=2), {}),
        Fault("D4", "hops 1 of 3", with_packet("beacon", max_hops=3), {}),
        Fault("D5", "lifetime 10000 ms", with_packet("beacon", lifetime=0x06), {}),
        Fault("D5", "lifetime 600000 ms", with_packet("beacon", lifetime=0x1B), {}),
        Fault("D5", "lifetime 59000 ms", with_packet("beacon", lifetime=59 << 2 | 1), {}),
        Fault("D5", "lifetime 50 ms", with_packet("late beacon", lifetime=0x04), {}),
    ]


def number_faults() -> list[Fault]:
    """Sequence numbers. 1 s later, with vectors at most 1 s old, a station that uses one number per
    second has used 3 numbers at most."""
    return [
        Fault("D6", "number 3000 after 1 of #{own 1}", with_packet("own 2", number=3000), {}),
        Fault("D6", "number 4000 after 0 of #{own 0}", with_packet("own 1", number=4000), {}),
        Fault("D6", "number 4 after 0 of #{own 0}", with_packet("own 1", number=4), {}),
        Fault("D6", "number 0 after 0 of #{own 0}", with_packet("own 1", number=0), {}),
        Fault("D6", "number 1 after 2 of #{own 2}", with_packet("own 3", number=1), {}),
    ]


def beacon_faults() -> list[Fault]:
    """Beacons within 3 s. A call may be 1 ms before its frame, and a clock 1 ms off at both ends."""
    early, nearly = beacon(6000, STATION), beacon(4000 + 2996, STATION)
    again = more(another=beacon(18500, STATION))
    text = "a beacon {} ms after #{{{}}}, not before 3000".format
    return [
        Fault("D10", text(2000, "shb"), obeying() | {"late beacon": early}, {}),
        Fault("D10", text(2996, "shb"), obeying() | {"late beacon": nearly}, {}),
        Fault("D10", text(500, "late beacon"), again, {"own": 1}),
    ]


def own_target_faults() -> list[Fault]:
    inside = "inside the area, but sent to {}".format
    table = obeying()["own 0"]
    wide = replace(table, packet=replace(table.packet, area=RECTANGLE), target=mid(FAR))
    return [
        Fault("D12", inside("020000000200"), changed("own 3", target=mid(NEAR)), {}),
        Fault("D12", inside("333300000001"), changed("own 1", target=GROUP), {}),
        Fault("D12", inside("020000000201"), obeying() | {"own 0": wide}, {}),
    ]


def copy_faults() -> list[Fault]:
    """Forwarded packets that are no copies with one hop fewer of what was received."""
    packet = obeying()["heard 2"].packet
    octet = "octet {} of the packet is changed (#{{heard 2}})".format
    octets = {
        2: {"lifetime": 0x1B},
        6: {"traffic_class": 3},
        7: {"mobile": True},
        9: {"payload": b"ices"},
        10: {"max_hops": 11},
        27: {"source": replace(packet.source, timestamp=packet.source.timestamp ^ 1)},
        31: {"source": replace(packet.source, latitude=packet.source.latitude ^ 1)},
        36: {"source": replace(packet.source, accurate=False)},
        49: {"area": replace(packet.area, a=501)},
        57: {"port": 2003},
        59: {"info": 1},
        60: {"payload": b"ace"},
    }
    found = [
        Fault("D13", octet(place), with_packet("relay 2", **values), instead("octets"))
        for place, values in octets.items()
    ]
    hops = {10: "received 10/10", 8: "received 10/10", 1: "received 10/10"}
    for left, text in hops.items():
        frames = with_packet("relay 1", hops=left)
        found.append(Fault("D13", f"hops {left}, {text} (#{{heard 1}})", frames, instead("hops")))
    return found


def unknown_faults() -> list[Fault]:
    """Forwarded packets that were never received. If it is so in place of a packet that was, that one
    was not forwarded."""
    never = relay(gbc(9000, FAR, 77), 3)
    heard, text = obeying()["heard 3"], "never received: {:016x} number {}".format
    source = replace(heard.packet.source, address=FAR)
    instead_of = instead("missing", "extra")
    return [
        Fault("D13", text(FAR, 77), more(never=never), EXTRA),
        Fault("D13", text(NEAR, 300), with_packet("relay 3", number=300), instead_of, ("D20",)),
        Fault("D13", text(FAR, 3), with_packet("relay 3", source=source), instead_of, ("D20",)),
        Fault("D13", text(NEAR, 3), changed("relay 3", at=heard.at - 5), instead_of, ("D20",)),
    ]


def kind_faults() -> list[Fault]:
    found = []
    for kind, sent, source in (
        ("beacon", beacon(9000, FAR), FAR),
        ("beacon", beacon(9000, NEAR), NEAR),
        ("shb", shb(9000, FAR), FAR),
    ):
        frames = more(other=replace(sent, source=STATION))
        found.append(Fault("D14", f"a {kind} of {source:016x} was forwarded", frames, EXTRA))
    return found


def again_faults() -> list[Fault]:
    """Packets that are forwarded a second time, at once and when they come again."""
    text = f"again: number {{}} of {NEAR:016x} was forwarded as #{{{{{{}}}}}}, with {{}} other numbers"
    heard, anycast = obeying()["heard 2"], obeying()["anycast"]
    copy = replace(heard, at=heard.at + 2000)
    again = {"once more": copy, "again": relay(copy, 3)}
    return [
        Fault("D15", text.format(2, "relay 2", 0), more(again=relay(heard, 10)), EXTRA),
        Fault("D15", text.format(2, "relay 2", 1), obeying() | again, EXTRA),
        Fault("D15", text.format(20, "anycast relay", 0), more(again=relay(anycast, 9)), EXTRA),
    ]


def late_faults() -> list[Fault]:
    """Packets that are forwarded late. A clock may be 1 ms off at both ends. A packet that is late was
    not forwarded in time. Whether a geoanycast is owed is not judged yet."""
    heard, anycast = obeying()["heard 3"], obeying()["anycast"]
    text, kinds = "late: {} ms after #{{{}}}".format, instead("missing", "extra")
    return [
        Fault("D16", text(500, "heard 3"), changed("relay 3", at=heard.at + 500), kinds, ("D20",)),
        Fault("D16", text(23, "heard 3"), changed("relay 3", at=heard.at + 23), kinds, ("D20",)),
        Fault("D16", text(70, "anycast"), changed("anycast relay", at=anycast.at + 70), kinds),
    ]


def anycast_faults() -> list[Fault]:
    """Geoanycasts that are forwarded inside their areas."""
    found = []
    for area in (AREA, RECTANGLE, ELLIPSE):
        inside = gac(16500, 21, area)
        frames = more(inside=inside, stays=relay(inside, 3))
        found.append(Fault("D17", "a GAC forwarded inside its area", frames, EXTRA))
    target = replace(relay(inside, 3), target=mid(FAR))
    frames = more(inside=inside, stays=target)
    return [*found, Fault("D17", "a GAC forwarded inside its area", frames, EXTRA, ("D19",))]


def target_faults() -> list[Fault]:
    text, kinds = "inside the area, but sent to {}".format, instead("target")
    return [
        Fault("D19", text("020000000201"), changed("relay 4", target=mid(FAR)), kinds),
        Fault("D19", text("020000000200"), changed("relay 5", target=mid(NEAR)), kinds),
        Fault("D19", text("333300000001"), changed("relay 0", target=GROUP), kinds),
    ]


def silence_faults() -> list[Fault]:
    """Packets that the station accepts inside their areas, and does not forward."""
    last = gbc(17000, NEAR, 60)
    two = replace(last, packet=replace(last.packet, hops=2))
    return [
        Fault("D20", OWED, without("relay 2"), instead("missing")),
        Fault("D20", OWED, without("relay 0"), instead("missing")),
        Fault("D20", OWED, more(silent=two), MISSING),
        Fault("D20", OWED, more(silent=replace(last, target=mid(STATION))), MISSING),
        Fault("D20", OWED, more(silent=gbc(17000, FAR, 1, area=RECTANGLE)), MISSING),
        Fault("D20", OWED, more(silent=gbc(17000, FAR, 1, area=ELLIPSE)), MISSING),
    ]


def faults() -> list[Fault]:
    return [
        *form_faults(),
        *header_faults(),
        *number_faults(),
        *beacon_faults(),
        *own_target_faults(),
        *copy_faults(),
        *unknown_faults(),
        *kind_faults(),
        *again_faults(),
        *late_faults(),
        *anycast_faults(),
        *target_faults(),
        *silence_faults(),
    ]


def check_fault(folder: Path, fault: Fault) -> None:
    """Its duty fails with its text, and no other duty but those that fail with it."""
    lines = judge_frames(folder, fault.frames, (1,))
    fails = [line for line in lines if line["result"] == "fail"]
    names = names_of(fault.frames)
    text = fault.text.format_map({name: number for number, name in enumerate(names)})
    if {line["duty"] for line in fails} != {fault.duty, *fault.also}:
        sys.exit(f"{fault.duty} {text}: {fails}")
    found = [line["reason"] for line in fails if line["duty"] == fault.duty]
    if not found[0].startswith(text):
        sys.exit(f"{fault.duty}: expected {text!r}, got {found}")
    check_kinds(folder, f"{fault.duty} {text}", fault.kinds)


def check_faults(folder: Path) -> int:
    """Tries each fault. Returns how many there are."""
    check_obeying(folder)
    check_kinds(folder, "a station that obeys", {})
    tried = faults()
    for fault in tried:
        check_fault(folder, fault)
    return len(tried)
