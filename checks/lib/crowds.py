"""Captures of which not all can be kept: very many records have one stamp, so that all of them wait
for a later one, or very many are not read."""

from __future__ import annotations

import subprocess
import sys
from collections import Counter
from dataclasses import replace
from pathlib import Path

from program import PROGRAM
from verdict_frames import (
    BEGIN,
    CLAIMS,
    FAR,
    HOME,
    IEEE80211,
    LIFE,
    NEAR,
    RETRY,
    RETRY_TIME,
    SECURED,
    STATION,
    Sent,
    beacon,
    gbc,
    judge,
    relay,
    shb,
    wireless,
    write_pcap,
)

WAITING = 16_384  # so many records wait at most
UNREAD = 65_536  # so many records that are not read are kept
DOUBTFUL = 200  # packets that were never received
SENT = 400_000  # own packets of the capture that is judged for its memory
STORM = 12_000  # packets of one number
OTHERS = 64  # for so many other frames of its number the copies of a packet are looked at
NEAR_OCTETS = 1 << 22  # so many octets of heard packets are kept
MOST_KIB = 64 * 1024
QUIET = 30_000  # ms after which nothing of before is doubtful any more


def claims_with(skew: int) -> str:
    text = CLAIMS.format(station=STATION, lon=HOME, mobile="false", age="", rate=1000)
    return text.replace("skew = 0", f"skew = {skew}")


def never(at: int, number: int) -> Sent:
    """A packet that the station forwards and never received."""
    return relay(gbc(at, FAR, number), 0)


def crowd() -> list[Sent]:
    """Long after the begin, packets that were never received, and more own ones than wait, all with
    one stamp. Then one that was received, and one that was not."""
    begin = beacon(0, NEAR)
    unknown = [never(QUIET, n) for n in range(DOUBTFUL)]
    own = [shb(QUIET, STATION)] * (WAITING + 1_000)
    heard, late = gbc(2 * QUIET, NEAR, 1), never(2 * QUIET + 1_000, 2)
    return [begin, *unknown, *own, heard, relay(heard, 2), late, beacon(3 * QUIET, NEAR)]


def check_crowd(folder: Path, skew: int) -> int:
    """Those of the crowd are inconclusive, and the later ones are judged as usual."""
    capture, frames = folder / "crowd.pcap", crowd()
    write_pcap(capture, [(BEGIN + sent.at, sent.frame()) for sent in frames])
    lines = judge(folder, capture, claims_with(skew), (1,))[1:-1]
    found = Counter((line["result"], line["reason"]) for line in lines if line["duty"] == "D13")
    received, number = len(frames) - 4, len(frames) - 3
    wanted = {
        ("inconclusive", "too many"): DOUBTFUL,
        ("pass", f"of #{received}, one hop fewer"): 1,
        ("fail", f"never received: {FAR:016x} number 2"): 1,
    }
    if found != wanted:
        sys.exit(f"a crowd with a skew of {skew}: expected {wanted}, got {found}")
    fails = {(line["duty"], line["record"]) for line in lines if line["result"] == "fail"}
    if fails != {("D13", number + 1)}:
        sys.exit(f"a crowd with a skew of {skew}: it fails {sorted(fails)[:5]}")
    return len(frames)


def check_memory(folder: Path) -> int:
    """Judges own packets with one stamp, within so much memory."""
    capture, station = folder / "own.pcap", folder / "iut.toml"
    write_pcap(capture, [(BEGIN, shb(0, STATION).frame())] * SENT)
    station.write_text(claims_with(1))
    limited = ["sh", "-c", f'ulimit -v {MOST_KIB}; exec "$@"', "sh"]
    command = [*limited, PROGRAM, "verdict", str(station), str(capture)]
    done = subprocess.run(command, capture_output=True, text=True, timeout=600)
    if done.returncode or done.stderr:
        sys.exit(f"{SENT} own packets in {MOST_KIB} KiB: {done.returncode} {done.stderr:.300}")
    return SENT


def spread(first: int, last: int) -> list[int]:
    """As many times as records are kept, from the first to the last."""
    return [first + n * (last - first + 1) // UNREAD for n in range(UNREAD)]


def results_of(duty: str, objects: list[dict]) -> list[tuple[int, str]]:
    """The records that a verdict judges by this duty, each with its result."""
    return [(it["record"], it["result"]) for it in objects[1:-1] if it["duty"] == duty]


def check_again(folder: Path) -> int:
    """A record that isn't read, which the link sent at both sides of the begin of the time that
    counts, and before it last by the order of the file. So many others come after that time that
    both sendings have to give way."""
    at, skew = 2 * QUIET, 1
    unread = replace(shb(at - LIFE, NEAR), changes=SECURED).frame()
    other = wireless(replace(shb(at, FAR), changes=SECURED).frame())
    records = [
        (0, wireless(beacon(0, NEAR).frame())),
        (at - LIFE, wireless(unread)),
        (at - LIFE - 1, wireless(unread, RETRY)),
        (at, wireless(never(at, 1).frame())),
        *((moment, other) for moment in spread(at + 5, at + RETRY_TIME)),
        (at + QUIET, wireless(beacon(at + QUIET, NEAR).frame())),
    ]
    capture = folder / "again.pcap"
    write_pcap(capture, [(BEGIN + moment, frame) for moment, frame in records], IEEE80211)
    found = results_of("D13", judge(folder, capture, claims_with(skew), (0,)))
    if found != [(3, "inconclusive")]:
        sys.exit(f"a record that isn't read and gave way: {found}")
    return len(records)


def check_hidden(folder: Path) -> int:
    """A record that may be an own packet, as little of it is in the capture. So many come after the
    time that counts for a beacon that it has to give way."""
    at, cut = QUIET, 50
    own = [(moment, wireless(beacon(moment, STATION).frame())) for moment in (0, at)]
    head = own[0][1][:4]
    records = [
        own[0],
        (at - 1_000, head),
        own[1],
        *((moment, head) for moment in spread(at + 4, at + 3 + RETRY_TIME)),
        (at + QUIET, wireless(beacon(at + QUIET, NEAR).frame())),
    ]
    capture = folder / "hidden.pcap"
    frames = [(BEGIN + moment, frame) for moment, frame in records]
    write_pcap(capture, frames, IEEE80211, cut)
    found = results_of("D10", judge(folder, capture, claims_with(0), (0,)))
    if found != [(2, "inconclusive")]:
        sys.exit(f"a record that may be an own packet and gave way: {found}")
    return len(records)


def check_owed(folder: Path, frames: list[Sent], wanted: list[tuple[int, str]]) -> int:
    """Of these records, and of no others, it is judged whether they were forwarded."""
    capture = folder / "owed.pcap"
    write_pcap(capture, [(BEGIN + sent.at, sent.frame()) for sent in frames])
    found = results_of("D20", judge(folder, capture, claims_with(0), (0, 1)))
    if found != wanted:
        sys.exit(f"owed among {len(frames)} records: expected {wanted}, got {found[:9]}")
    return len(frames)


def check_storm(folder: Path) -> int:
    """A number that comes again and again: only the first packet is owed, and then the next number."""
    first, last, end = gbc(QUIET, NEAR, 1), gbc(2 * QUIET, NEAR, 2), beacon(3 * QUIET, FAR)
    again = [replace(first, at=QUIET + n // 100) for n in range(STORM)]
    frames = [beacon(0, FAR), first, *again, last, end]
    return check_owed(folder, frames, [(1, "fail"), (STORM + 2, "fail")])


def check_given_way(folder: Path) -> int:
    """So many large packets come after a packet that it isn't kept any more. Then its number comes
    again, and isn't new. The next number is judged as usual."""
    first, last = gbc(QUIET, NEAR, 1), gbc(2 * QUIET, NEAR, 2)
    size = 1_000
    large = replace(gbc(QUIET + 1, FAR, 0).packet, hops=1, payload=bytes(size))
    others = [
        replace(gbc(QUIET + 1, FAR, 0), packet=replace(large, number=number))
        for number in range(NEAR_OCTETS // size)
    ]
    again, end = replace(first, at=QUIET + 2), beacon(3 * QUIET, FAR)
    frames = [beacon(0, FAR), first, *others, again, last, end]
    return check_owed(folder, frames, [(1, "inconclusive"), (len(others) + 3, "fail")])


def check_others(folder: Path) -> int:
    """The station sends other packets of a number, as many as its copies are looked at for and one
    more, before it forwards the packet. So it is no doubt forwarded."""
    first, end = gbc(QUIET, NEAR, 1), beacon(2 * QUIET, FAR)
    other = replace(first, packet=replace(first.packet, payload=b"fog"))
    frames = [beacon(0, FAR), first, *[relay(other, 2)] * (OTHERS + 1), relay(first, 3), end]
    return check_owed(folder, frames, [(1, "pass")]) + check_owed(
        folder, [*frames[:-2], end], [(1, "inconclusive")]
    )


def check_crowds(folder: Path) -> int:
    """Returns how many records there are."""
    crowds = check_crowd(folder, 0) + check_crowd(folder, 1) + check_memory(folder)
    forward = check_storm(folder) + check_given_way(folder) + check_others(folder)
    return crowds + check_again(folder) + check_hidden(folder) + forward
