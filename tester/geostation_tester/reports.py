"""Results as lines, as JUnit XML and as TAP."""

from __future__ import annotations

import json
from collections import Counter
from xml.etree import ElementTree

from .results import Result
from .station_file import StationFile

SKIPPED = ("inconc", "none")
VERDICTS = ("pass", "fail", *SKIPPED)


def claims_line(station: StationFile) -> str:
    """What the results rest on. A claim that is true has its name only."""
    claims = station.bench_claims().items()
    parts = [name if value is True else f"{name} {json.dumps(value)}" for name, value in claims]
    return f"claimed: {', '.join(parts)}"


def total_line(results: list[Result]) -> str:
    counts = Counter(r.verdict for r in results)
    parts = [f"{counts[verdict]} {verdict}" for verdict in VERDICTS]
    return f"{len(results)} purposes: {', '.join(parts)}"


def line(result: Result) -> str:
    if result.records is None:
        return f"{result.name} {result.verdict}: {result.why}"
    first, last = result.records
    where = f"records {first}..{last} of {result.recording}"
    return f"{result.name} {result.verdict} ({where}): {result.why}"


def tap(results: list[Result]) -> str:
    """A purpose without a verdict is skipped: TAP has no word for it."""
    lines = ["TAP version 13", f"1..{len(results)}"]
    for k, r in enumerate(results, 1):
        ok = "not ok" if r.verdict == "fail" else "ok"
        skip = f" # SKIP {r.verdict}: {r.why}" if r.verdict in SKIPPED else ""
        lines.append(f"{ok} {k} - {r.name}{skip}")
    return "\n".join(lines) + "\n"


def junit(results: list[Result]) -> bytes:
    suite = ElementTree.Element(
        "testsuite",
        name="geostation-tester",
        tests=str(len(results)),
        failures=str(sum(r.verdict == "fail" for r in results)),
        skipped=str(sum(r.verdict in SKIPPED for r in results)),
        time=f"{sum(r.seconds for r in results):.3f}",
    )
    for r in results:
        case = ElementTree.SubElement(suite, "testcase", name=r.name, time=f"{r.seconds:.3f}")
        if r.verdict != "pass":
            word = "failure" if r.verdict == "fail" else "skipped"
            ElementTree.SubElement(case, word, message=f"{r.verdict}: {r.why}")
    return ElementTree.tostring(suite, encoding="utf-8", xml_declaration=True)
