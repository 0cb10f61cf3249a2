"""The verdict on a purpose, from the verdicts on its records and from what the tester checks
itself. The words are those of ISO/IEC 9646 and TTCN-3: pass, fail, inconc, and none."""

from __future__ import annotations

from collections import Counter
from typing import NamedTuple

from .bench import Record
from .expectations import Observed, differences
from .purposes import Purpose
from .station_file import StationFile
from .upper import Delivered
from .verdicts import Verdict


SHOWN = 3  # of what is not as it should be


class Played(NamedTuple):
    """A purpose that was played. `lacks` says why its preamble failed, or why it does not apply."""

    purpose: Purpose
    records: list[Record]
    delivered: list[Delivered]
    lacks: str
    is_applicable: bool
    seconds: float


class Result(NamedTuple):
    """`records` are the numbers of the first and the last one. `proved` are the duties that failed
    by `geostation verdict`, `checked` those that the tester found to fail. `recording` is the path
    of the recording."""

    name: str
    verdict: str
    why: str
    records: tuple[int, int] | None
    proved: tuple[str, ...]
    checked: tuple[str, ...]
    seconds: float
    recording: str = ""


def duties_of(lines: list[str]) -> tuple[str, ...]:
    return tuple(dict.fromkeys(line.partition(":")[0] for line in lines))


def first_of(lines: list[str]) -> str:
    more = [f"and {len(lines) - SHOWN} more"] if len(lines) > SHOWN else []
    return "; ".join(lines[:SHOWN] + more)


def missing(purpose: Purpose, passes: Counter[str]) -> list[str]:
    """The duties that were aimed at and not exercised."""
    return [
        f"{duty} passed {passes[duty]} times, not {least}"
        for duty, least in purpose.duties.items()
        if passes[duty] < least
    ]


def exercised(purpose: Purpose, passes: Counter[str]) -> str:
    parts = [f"{duty} {passes[duty]}" for duty in purpose.duties]
    text = "passed by the verdict: " + ", ".join(parts) if parts else "no duty of the verdict"
    checked = len(purpose.expectations)
    return text + (f"; {checked} checked by the tester, not proved" if checked else "")


def decide(
    purpose: Purpose, fails: list[str], seen: list[str], passes: Counter[str]
) -> tuple[str, str]:
    """A fail of any duty is a fail. What the tester sees itself is one too, and says so."""
    if fails:
        return "fail", first_of(fails)
    if purpose.report:
        return "none", f"not as the standard: {first_of(seen)}" if seen else "as the standard"
    if seen:
        return "fail", f"checked by the tester, not proved: {first_of(seen)}"
    lacking = missing(purpose, passes)
    return ("inconc", "; ".join(lacking)) if lacking else ("pass", exercised(purpose, passes))


def result_of(played: Played, station: StationFile, verdicts: list[Verdict]) -> Result:
    purpose, records = played.purpose, played.records
    numbers = (records[0].number, records[-1].number) if records else None
    if not played.is_applicable:
        return Result(purpose.name, "none", played.lacks, None, (), (), played.seconds)
    own = [v for v in verdicts if numbers and numbers[0] <= v.record <= numbers[1]]
    fails = [f"{v.duty}: record {v.record}: {v.reason}" for v in own if v.result == "fail"]
    passes = Counter(v.duty for v in own if v.result == "pass")
    observed = Observed(purpose, station, records, played.delivered)
    seen = [] if played.lacks else differences(purpose, observed)
    verdict, why = decide(purpose, fails, seen, passes)
    if played.lacks and not fails:
        verdict, why = "inconc", played.lacks
    proved, checked = duties_of(fails), duties_of(seen)
    return Result(purpose.name, verdict, why, numbers, proved, checked, played.seconds)
