"""One octet of the capture of a station that obeys is changed at a time. What the judge has to find is
computed from the frame and the field that was changed, by clause 9 and the table of the duties.

- A duty fails: of the frame that was changed, or of what the station sent after it.
- Or the verdict is inconclusive, with the reason that is expected here.
- Or nothing differs. Only the fields that no duty looks at may have that: of an own packet `UNSEEN`,
  the payload, and values that are right as well; the beacons of others; the link address from which
  the station received a packet; and where a packet went that it forwarded outside its area.
"""

from __future__ import annotations

import random
import sys
from dataclasses import dataclass, field, replace
from pathlib import Path

import single_bits
from obeying import AGE, RATE, check_obeying, judge_frames, names_of, obeying
from standard.areas import Area
from standard.packets import LINK, MAX_PAYLOAD, Packet, mid, read
from verdict_frames import HOME, NEAR, OUTSIDE, STATION, WITHIN, Sent

PLACE = 481000000, HOME
OWED = f"owed, but not forwarded within {WITHIN} ms"
# Codes of a packet whose form is not what the standard has. Others may be another kind of packet, and
# the greatest payload is what the station has for itsGnMaxSduSize.
FORMS = "G1", "G2", "G4", "G5", "G9", "G10", "G11", "G12"
SECURED_PACKET = 2  # NH of the Basic Header
# Fields of an own packet that no duty looks at, as is what BTP carries. What of them is out of range has
# a code.
UNSEEN = {"traffic class", "time", "latitude", "longitude", "speed", "heading", "media"}
MODULI = 65535, 65536  # of sequence numbers
QUEUE = 1  # ms from an own call to its frame
SHORT, LONG = 1_000, 600_000  # ms of a lifetime, beyond which the standard and the profile differ


@dataclass
class Expected:
    """The fails, the verdicts that are inconclusive now, each by duty, frame and text, and the frames
    that have no verdicts any more. None for a text: any."""

    fails: set[tuple[str, str, str]] = field(default_factory=set)
    doubts: set[tuple[str, str, str]] = field(default_factory=set)
    gone: set[str] = field(default_factory=set)

    def is_empty(self) -> bool:
        return not (self.fails or self.doubts or self.gone)


@dataclass(frozen=True)
class Change:
    """A frame of the capture with another octet at a place."""

    name: str
    place: int  # in the frame
    octet: int

    def before(self) -> Sent:
        return obeying()[self.name]

    def after(self) -> bytes:
        frame = bytearray(self.before().frame())
        frame[self.place] = self.octet
        return bytes(frame)

    def code(self) -> str:
        """Why the octets are no packet, computed from the layout; empty if they are one."""
        found = single_bits.read(self.after()[LINK:])
        return found.fault or ("L4" if found.left_over else "")

    def field(self) -> str:
        """The field of the packet that has the place; that of the payload is empty."""
        bit, starts = 8 * (self.place - LINK), single_bits.read(self.before().frame()[LINK:]).starts
        before = [name for name, start in starts.items() if start // 8 * 8 <= bit]
        is_payload = self.place - LINK >= self.header()
        return "" if is_payload else max(before, key=lambda name: starts[name])

    def header(self) -> int:
        """The octets of the packet before BTP-B."""
        return {"beacon": 36, "shb": 40}.get(self.before().packet.kind, 56)

    def frames(self) -> dict[str, Sent]:
        changes = ((self.place, self.octet),)
        return obeying() | {self.name: replace(self.before(), changes=changes)}


def lifetime(octet: int) -> int:
    """Milliseconds (9.6.4)."""
    return (octet >> 2) * (50, 1_000, 10_000, 100_000)[octet & 3]


# ---- what the station sent of its own


def own_target(change: Change) -> Expected:
    target, packet = change.after()[:6].hex(), change.before().packet
    if packet.kind in ("beacon", "shb"):
        return Expected(fails={("D2", change.name, f"a {packet.kind} to {target}")})
    return Expected(fails={("D12", change.name, f"inside the area, but sent to {target}")})


def source_place(packet: bytes) -> int | None:
    """Where the source is by the header type: octet 12 of a BEACON or SHB, octet 16 of other kinds. None
    if the Basic Header has no Common Header after it, or the standard has no such type."""
    header_type, sub_type = packet[5] >> 4, packet[5] & 15
    if packet[0] & 15 != 1 or not 1 <= header_type <= 6:
        return None
    is_single = header_type == 1 or (header_type, sub_type) == (5, 0)
    return 12 if is_single else 16


def form_doubt(change: Change, code: str) -> str | None:
    """Why it isn't sure that the form of a sent frame is a fault. None if it is."""
    packet = change.after()[LINK:]
    if code.startswith("G3") and packet[0] & 15 == SECURED_PACKET:
        return f"outside the profile: {code}"
    if source_place(packet) is None or names_another(packet):
        return f"not read: {code}"
    is_long = code.startswith("G10") and int.from_bytes(packet[8:10], "big") > MAX_PAYLOAD
    is_fault = code.split(" ")[0] in FORMS and not is_long
    return None if is_fault else f"outside the profile: {code}"


def names_another(packet: bytes) -> bool:
    """Whether the source can be found and isn't the station."""
    place = source_place(packet)
    return place is not None and packet[place : place + 8] != STATION.to_bytes(8, "big")


def unread_own(change: Change, code: str) -> Expected:
    """An own packet that can't be read."""
    doubt = form_doubt(change, code)
    if doubt is None:
        return Expected(fails={("D1", change.name, code)})
    gap = gap_after(change.name) if names_another(change.after()[LINK:]) else set()
    return Expected(doubts={("D1", change.name, doubt)} | gap)


def gap_after(name: str) -> set[tuple[str, str, str]]:
    """The number that is missing if the station didn't send this packet."""
    after = {"own 1": "own 2", "own 2": "own 3"}.get(name)
    return {("D6", after, "1 numbers were not seen")} if after else set()


def step_verdict(name: str, i: tuple[int, int], j: tuple[int, int], elapsed: int) -> Expected:
    """D6 of a frame with the number and time stamp j, so many ms after one with those of i."""
    c = min((j[0] - i[0]) % modulus or modulus for modulus in MODULI)
    seconds = -(-max(elapsed + QUEUE + 2, j[1] - i[1] + AGE) // 1000)
    if c == 1:
        return Expected()
    if c > RATE * (seconds + 1):
        return Expected(fails={("D6", name, f"number {j[0]} after {i[0]} of ")})
    return Expected(doubts={("D6", name, f"{c - 1} numbers were not seen")})


def own_number(change: Change, packet: Packet) -> Expected:
    """The numbers of the frame and of the next one."""
    frames, number = obeying(), packet.number
    found, n = Expected(), int(change.name.split(" ")[1])
    steps = []
    if n > 0:
        steps.append((n - 1, frames[f"own {n - 1}"].packet.number, n, number))
    if n < 3:
        steps.append((n, number, n + 1, frames[f"own {n + 1}"].packet.number))
    for i, was, j, now in steps:
        stamps = [frames[f"own {k}"].packet.source.timestamp for k in (i, j)]
        step = step_verdict(f"own {j}", (was, stamps[0]), (now, stamps[1]), 1000)
        found.fails |= step.fails
        found.doubts |= step.doubts
    return found


def own_area(change: Change, packet: Packet) -> Expected | None:
    """An own packet for another area. None if the place is near its border."""
    if is_near_border(packet.area):
        return None
    if packet.area.holds(PLACE):
        return Expected()
    return Expected(doubts={("D12", change.name, OUTSIDE)})


def is_near_border(area: Area) -> bool:
    """Whether 10 m and 1 % may decide on the place: the defaults of a station file."""
    grown = replace(area, a=area.a + 12 + area.a // 50)
    less = area.a - 12 - area.a // 50
    return less <= 0 or grown.holds(PLACE) != replace(area, a=less).holds(PLACE)


def own_packet(change: Change) -> Expected | None:
    name, packet, changed = change.name, read(change.after()), change.field()
    if changed in ("hops", "most hops"):
        return Expected(fails={("D4", name, f"hops {packet.hops} of {packet.max_hops}")})
    if changed == "mobile":
        return Expected(fails={("D3", name, "mobile bit 1")})
    if changed in RULES:
        return RULES[changed](change, packet)
    if changed in UNSEEN or not changed:
        return Expected()
    sys.exit(f"{change}: no rule for {changed}")


def foreign(change: Change, packet: Packet) -> Expected | None:
    """A packet that the station sent, of another source that it never received."""
    source = packet.source.address
    if packet.kind in ("beacon", "shb"):
        text = f"a {packet.kind} of {source:016x} was forwarded"
        return Expected(fails={("D14", change.name, text)})
    if source == NEAR:
        return None  # its packets were received
    text = f"never received: {source:016x} number {packet.number}"
    return Expected(fails={("D13", change.name, text)}, doubts=gap_after(change.name))


def own_lifetime(change: Change, packet: Packet) -> Expected:
    now, was = lifetime(packet.lifetime), lifetime(change.before().packet.lifetime)
    text = f"lifetime {now} ms"
    if packet.kind == "beacon" and now != was:
        return Expected(fails={("D5", change.name, text)})
    if packet.kind != "beacon" and not SHORT <= now <= LONG:
        return Expected(doubts={("D5", change.name, f"{text}: the standard and the profile differ")})
    return Expected()


RULES = {
    "address": foreign,
    "lifetime": own_lifetime,
    "number": own_number,
    "latitude of the area": own_area,
    "longitude of the area": own_area,
    "a": own_area,
}

# ---- what it forwarded


def cause_of(name: str) -> str:
    return {"anycast relay": "anycast"}.get(name, name.replace("relay", "heard"))


def relay_of(name: str) -> str:
    return {"anycast": "anycast relay"}.get(name, name.replace("heard", "relay"))


def not_forwarded(cause: str) -> Expected:
    """A received packet of which no frame was forwarded. Outside its area it isn't judged yet."""
    if cause == "anycast":
        return Expected(doubts={("D20", cause, "not owed for sure: place")})
    return Expected(fails={("D20", cause, OWED)})


def relayed_packet(change: Change, code: str) -> Expected:
    """A forwarded packet that differs from what was received."""
    name, cause = change.name, cause_of(change.name)
    if code:
        owed = "not owed for sure: " + ("place" if cause == "anycast" else f"not read #{{{name}}}")
        return Expected(doubts={("D1", name, form_doubt(change, code)), ("D20", cause, owed)})
    packet, was = read(change.after()), change.before().packet
    if packet.source.address == STATION:
        return Expected(fails={("D4", name, None)})
    if (packet.number, packet.source.address) != (was.number, was.source.address):
        found = not_forwarded(cause)
        fails = found.fails | {("D13", name, of_number(change, packet))} | again(name, packet)
        return replace(found, fails=fails)
    text = f"octet {change.place - LINK} of the packet is changed (#{{{cause}}})"
    if change.place - LINK == 3:
        text = f"hops {packet.hops}, received {was.hops + 1}/{was.max_hops} (#{{{cause}}})"
    return Expected(fails={("D13", name, text)})


def of_number(change: Change, packet: Packet) -> str:
    """What D13 says of a packet with the source or number of another one: the first octet by which it
    differs from the one that was received, or that none was."""
    frames, source = obeying(), packet.source.address
    latest = change.before().at + 2
    received = [name for name in names_of(frames) if name.startswith(("heard", "anycast"))]
    same = [
        name
        for name in received
        if "relay" not in name and frames[name].at <= latest and source == NEAR
        and frames[name].packet.number == packet.number
    ]
    if not same:
        return f"never received: {source:016x} number {packet.number}"
    pairs = enumerate(zip(change.after()[LINK:], frames[same[-1]].frame()[LINK:]))
    octet = next(n for n, (one, other) in pairs if one != other and n != 3)
    return f"octet {octet} of the packet is changed (#{{{same[-1]}}})"


def again(name: str, packet: Packet) -> set[tuple[str, str, str]]:
    """The fail if another frame with this source and number was forwarded: that of the later one."""
    frames, order = obeying(), names_of(obeying())
    others = [other for other in order if "relay" in other and other != name]
    same = [other for other in others if frames[other].packet.number == packet.number]
    if not same or packet.source.address != NEAR:
        return set()
    later = max(name, same[0], key=order.index)
    return {("D15", later, f"again: number {packet.number} of {NEAR:016x} was forwarded as #")}


def relayed(change: Change) -> Expected:
    cause = cause_of(change.name)
    if change.place < 6:
        if cause == "anycast":
            return Expected()  # outside its area the next hop isn't judged yet
        text = f"inside the area, but sent to {change.after()[:6].hex()}"
        return Expected(fails={("D19", change.name, text)})
    if change.place < LINK:
        found = not_forwarded(cause)
        return replace(found, gone={change.name})
    return relayed_packet(change, change.code())


# ---- what it received


def is_unread(change: Change, code: str) -> bool:
    """Whether a station of the profile may still process what isn't read: a secured packet, or octets
    after the packet."""
    return code == "L4" or (code.startswith("G3") and change.after()[LINK] & 15 == SECURED_PACKET)


def received(change: Change) -> Expected:
    """A packet that the station forwarded, and that was another one."""
    name, relay = change.name, relay_of(change.name)
    packet = obeying()[relay].packet
    number = f"never received: {packet.source.address:016x} number {packet.number}"
    never = Expected(fails={("D13", relay, number)})
    if change.place < 6 or 12 <= change.place < LINK:
        return never
    if change.place < 12:
        return Expected()
    code = change.code()
    if is_unread(change, code):
        doubts = {("D13", relay, f"not read #{{{name}}}"), ("D16", relay, "never received")}
        return Expected(doubts=doubts)
    if code:
        return never
    return received_packet(change, never)


def received_packet(change: Change, never: Expected) -> Expected:
    """A received packet that is read, with a field that the forwarded one doesn't have."""
    name, relay, packet = change.name, relay_of(change.name), read(change.after())
    was = change.before().packet
    if packet.source.address == STATION:
        return never
    if (packet.number, packet.source.address) == (was.number, was.source.address):
        text = f"octet {change.place - LINK} of the packet is changed (#{{{name}}})"
        if change.place - LINK == 3:
            text = f"hops {was.hops - 1}, received {packet.hops}/{was.max_hops} (#{{{name}}})"
        return Expected(fails={("D13", relay, text)})
    earlier = {f"heard {n}" for n in range(6)} if packet.source.address == NEAR else set()
    order = names_of(obeying())
    known = any(
        obeying()[other].packet.number == packet.number and order.index(other) < order.index(name)
        for other in earlier
    )
    if known or packet.hops < 2:
        return never
    found = not_forwarded(name)
    return replace(found, fails=found.fails | never.fails)


# ---- any frame


def expected(change: Change) -> Expected | None:
    """What a judge has to find. None if the change is not tried."""
    name, frame = change.name, change.after()
    if frame[6:12] == mid(STATION) and change.place < 12 and change.before().source != STATION:
        return None  # it is the station's frame now
    if name in ("first", "last"):
        return Expected()
    if name.startswith(("heard", "anycast")) and name != "anycast relay":
        return received(change)
    if "relay" in name:
        return relayed(change)
    if change.place < 6:
        return own_target(change)
    if change.place < LINK:
        return Expected(doubts=gap_after(name), gone={name})
    code = change.code()
    return unread_own(change, code) if code else own_packet(change)


def drawn_change(draw: random.Random, frames: dict[str, Sent]) -> Change:
    """One bit of an octet, or another octet, of any frame."""
    name = draw.choice(sorted(frames))
    frame = frames[name].frame()
    place = draw.randrange(len(frame))
    if draw.random() < 0.5:
        return Change(name, place, frame[place] ^ 1 << draw.randrange(8))
    return Change(name, place, (frame[place] + draw.randrange(1, 256)) % 256)


def keys(lines: list[dict], names: list[str], result: str) -> list[tuple[str, str, str]]:
    found = [line for line in lines if line["result"] == result]
    return [(line["duty"], names[line["record"]], line["reason"]) for line in found]


def is_met(wanted: tuple[str, str, str | None], found: list[tuple[str, str, str]]) -> bool:
    """Whether a verdict is there, whose text begins as is wanted."""
    duty, name, text = wanted
    return any((d, n) == (duty, name) and t.startswith(text or "") for d, n, t in found)


def problem(change: Change, wanted: Expected, lines: list[dict], before: list[dict]) -> str:
    """What the verdicts have that isn't expected, or lack. Empty if nothing."""
    names = names_of(change.frames())
    numbers = {name: number for number, name in enumerate(names)}
    fails, doubts = keys(lines, names, "fail"), keys(lines, names, "inconclusive")
    for result, of, found in ("fail", wanted.fails, fails), ("inconclusive", wanted.doubts, doubts):
        for duty, name, text in of:
            text = text.format_map(numbers) if text else text
            if not is_met((duty, name, text), found):
                return f"expected {result} {duty} of {name}: {text}, got {found}"
    if {(d, n) for d, n, _ in fails} != {(d, n) for d, n, _ in wanted.fails}:
        return f"expected the fails {wanted.fails}, got {fails}"
    if any(names[line["record"]] in wanted.gone for line in lines):
        return f"{wanted.gone} has verdicts"
    unknown = unexplained(change, wanted, doubts)
    if unknown:
        return f"no reason is known for {unknown}"
    return differing(lines, before) if wanted.is_empty() else ""


def unexplained(change: Change, wanted: Expected, doubts: list[tuple[str, str, str]]) -> list:
    """The verdicts that are inconclusive for another reason than what is expected, that the changed
    frame can't be read, or that what was forwarded is no copy of it."""
    numbers = {name: number for number, name in enumerate(names_of(change.frames()))}
    record = numbers[change.name]
    reasons = {f"not read #{record}", f"not owed for sure: not read #{record}"}
    known = {(d, n, t.format_map(numbers)) for d, n, t in wanted.doubts}
    return [
        (duty, name, text)
        for duty, name, text in doubts
        if (duty, name, text) not in known and text not in reasons and text != OUTSIDE
        and not is_of_number(change, duty, text, numbers)
    ]


def is_of_number(change: Change, duty: str, text: str, numbers: dict[str, int]) -> bool:
    """Whether a packet isn't owed for sure, as another one of its number was forwarded."""
    pairs = [f"relay {n}" for n in range(6)] + ["anycast relay"]
    names = [name for name in pairs if change.name in (name, cause_of(name))]
    others = {f"not owed for sure: another packet of its number #{numbers[name]}" for name in names}
    return duty == "D20" and text in others | {"not owed for sure: place"}


def differing(lines: list[dict], before: list[dict]) -> str:
    """What differs from the verdicts before the change. The text of a pass may have a value."""
    parts = [
        {(x["result"], x["duty"], x["record"], "" if x["duty"] == "D5" else x["reason"]) for x in it}
        for it in (lines, before)
    ]
    return f"nothing may differ, but {parts[0] ^ parts[1]} do" if parts[0] != parts[1] else ""


def check_changes(folder: Path, count: int) -> tuple[int, int, int]:
    """Tries COUNT changes. Returns how many fail, are inconclusive, and are not seen."""
    before, draw = check_obeying(folder), random.Random(9)
    frames, found = obeying(), [0, 0, 0]
    while sum(found) < count:
        change = drawn_change(draw, frames)
        wanted = expected(change)
        if wanted is None:
            continue
        lines = judge_frames(folder, change.frames(), (1,) if wanted.fails else (0,))
        why = problem(change, wanted, lines, before)
        if why:
            sys.exit(f"{change}, octet {change.place - LINK} of the packet: {why}")
        found[0 if wanted.fails else 2 if wanted.is_empty() else 1] += 1
    return found[0], found[1], found[2]
