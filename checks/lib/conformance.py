"""The tester against the daemon and against stations with a mistake, each on a wire of its own.

    conformance.py GEOSTATION DAEMON [--write]

It compares the results with docs/EVIDENCE.md, or writes that page.

Runs in a network namespace of its own, in which nothing else is. Each run has one station, one wire
and one purpose, so that they can be played side by side. How long a run takes is no failure.
"""

import multiprocessing
import os
import subprocess
import sys
import tempfile
import time
import unittest
from collections import Counter
from concurrent.futures import ProcessPoolExecutor
from xml.etree import ElementTree

from benches import (  # which sets the path of the others
    DAEMONS,
    PATIENCE,
    SUITE,
    Outcome,
    Run,
    bench_entities,
    contends,
    liar_on,
    make_wires,
    play,
    secures,
    station_file,
)

import evidence
from geostation_tester.purposes import Purpose, read_purpose
from geostation_tester.results import Result
from geostation_tester.station_file import SECURED
from liar_faults import FAULTS
from program import TOP

SIDE_BY_SIDE = int(os.environ.get("CONFORMANCE_JOBS", "40"))
AGAIN = (4, 2, 1)  # side by side, at the further attempts
# The purposes in which the daemon's defaults differ from the standard, with the duty.
OF_DEFAULTS = {"DPD-02": ("D20",), "CAP-01": ("D20",)}
# Purposes of which the second needs the first to be forgotten, and two that open one port.
CAMPAIGN = ("GBC-05", "GBC-06", "GAC-01", "FDV-13", "GBC-02")
# What is reported to be otherwise than by the standard, and what only the defaults have otherwise.
OF_PROFILE = ("FDV-12", "GBC-07", "GBC-09", "GBC-10", "GBC-11", "SHB-02")
OF_LIMITS = ("LIM-01", "LIM-02")
# What the daemon does with a security entity. A bench for signed packets plays no others.
OF_SECURED = {
    "SEC-01": "pass",
    "SEC-02": "pass",
    "SEC-03": "pass",
    "SEC-04": "pass",
    "SEC-05": "pass",
    "SEC-06": "pass",
    "GBC-01": "none",
    "FDV-01": "none",
}
# Those that the upper tester of examples/ starts, over UDP.
OVER_UDP = ("FDV-04", "FDV-07", "MGT-03", "MGT-05", "GBC-02")

FIGURES = {
    "standard": "the daemon",
    "udp": "with an upper tester over UDP",
    "defaults": "with its defaults",
    "contention": "with contention",
    "secured": "with signed packets",
    "": "a station of the standard",
    "mistake": "with a mistake each",
}


def is_right_report(station: str, name: str, result: Result) -> bool:
    """It says that the profile differs from the standard, where it does."""
    differs = name in OF_PROFILE or station == "defaults" and name in OF_LIMITS
    return result.verdict == "none" and bool(result.checked) == differs


def wrong_without_mistake(outcome: Outcome, purpose: Purpose) -> bool:
    """It passes, reports, or does not apply to how the station forwards."""
    result = outcome.result
    other = "simple" if contends(outcome.run) else "contention"
    if other in purpose.needs or SECURED in purpose.needs and not secures(outcome.run):
        return result.verdict != "none"
    if purpose.report:
        return not is_right_report(outcome.run.station, purpose.name, result)
    return result.verdict != "pass"


def wrong_of_defaults(outcome: Outcome, purpose: Purpose) -> bool:
    """The purposes of the limits differ, and no other."""
    expected = OF_DEFAULTS.get(purpose.name)
    if expected is None:
        return wrong_without_mistake(outcome, purpose)
    found = outcome.result
    return found.verdict != "fail" or found.proved != () or found.checked != expected


def wrong_of_mistake(outcome: Outcome, purpose: Purpose) -> bool:
    """The duties of the table fail, and no others. A purpose that reports has no fail."""
    found, result = FAULTS[outcome.run.station], outcome.result
    return (
        result.verdict != ("none" if purpose.report else "fail")
        or set(result.proved) != set(found.proved)
        or set(result.checked) != set(found.checked)
    )


def is_wrong(outcome: Outcome, purposes: dict[str, Purpose]) -> bool:
    purpose = purposes[outcome.run.purpose]
    if outcome.run.station == "defaults":
        return wrong_of_defaults(outcome, purpose)
    if outcome.run.station == "secured":
        return outcome.result.verdict != OF_SECURED[purpose.name]
    if outcome.run.station in ("", *DAEMONS):
        return wrong_without_mistake(outcome, purpose)
    return wrong_of_mistake(outcome, purpose)


def plan(purposes: dict[str, Purpose], program: str, daemon: str, room: str) -> list[Run]:
    """The longest runs first."""
    kinds = ["", *(["standard", "defaults", "contention"] if daemon else [])]
    pairs = [(kind, name) for kind in kinds for name in purposes]
    pairs += [("udp", name) for name in OVER_UDP if daemon]
    pairs += [("secured", name) for name in OF_SECURED if daemon]
    pairs += [(fault, found.purpose) for fault, found in FAULTS.items()]
    chosen = os.environ.get("CONFORMANCE_ONLY")
    if chosen:
        pairs = [(kind, name) for kind, name in pairs if chosen in (kind, name)]
    pairs.sort(key=lambda pair: -purposes[pair[1]].length())
    return [Run(*pair, k, program, daemon, room) for k, pair in enumerate(pairs)]


def play_all(runs: list[Run]) -> tuple[list[Outcome], str]:
    """The outcomes, and what is wrong with the campaign."""
    make_wires(len(runs) + 1)
    with pool_of(SIDE_BY_SIDE) as pool:
        campaign_run = pool.submit(play_campaign, len(runs), runs[0].program, runs[0].room)
        return list(pool.map(play, runs)), campaign_run.result()


def pool_of(jobs: int) -> ProcessPoolExecutor:
    return ProcessPoolExecutor(jobs, mp_context=multiprocessing.get_context("fork"))


def play_again(outcomes: list[Outcome], purposes: dict[str, Purpose]) -> tuple[list[Outcome], int]:
    """The outcomes, with further attempts of those that are wrong, and how many attempts these are.
    A busy machine is later than the station files claim. A further attempt has few beside it."""
    count = 0
    for attempt, jobs in enumerate(AGAIN, 1):
        late = [o.run for o in outcomes if is_wrong(o, purposes)]
        with pool_of(jobs) as pool:
            again = pool.map(play, [run._replace(attempt=attempt) for run in late])
            found = dict(zip(late, again))
        outcomes = [found.get(o.run, o) for o in outcomes]
        count += len(late)
    return outcomes, count


def figures(outcomes: list[Outcome]) -> str:
    """What held, in numbers."""
    kinds = [o.run.station if o.run.station in ("", *DAEMONS) else "mistake" for o in outcomes]
    counts = Counter(zip(kinds, (o.result.verdict for o in outcomes)))
    parts = []
    for kind, text in FIGURES.items():
        verdicts = [f"{n} {v}" for (k, v), n in sorted(counts.items()) if k == kind]
        parts += [f"{text}: {', '.join(verdicts)}"] if verdicts else []
    return "; ".join(parts)


def play_campaign(wire: int, program: str, room: str, attempt: int = 0) -> str:
    """Some purposes one after the other on one station, by the command. Returns what is wrong."""
    run = Run("", "campaign", wire, program, "", room, attempt)
    run.folder.mkdir()
    iut, junit, tap = (run.folder / name for name in ("iut.toml", "run.xml", "run.tap"))
    iut.write_text(station_file(run))
    command = [str(TOP / "tester/geostation-tester"), "--iut", str(iut), "--interface", f"t{wire}"]
    command += ["--record", str(run.folder / "run.pcapng"), "--program", program]
    command += ["--junit", str(junit), "--tap", str(tap), "--upper-json", run.upper, *CAMPAIGN]
    with liar_on(run, PATIENCE * 6):
        done = subprocess.run(command, capture_output=True, text=True)
    suite = ElementTree.parse(junit).getroot() if junit.exists() else {}
    counts = [suite.get(key) for key in ("tests", "failures", "skipped")]
    lines = tap.read_text().splitlines()[2:] if tap.exists() else []
    oks = [line.split(" - ")[0] for line in lines]
    expected = [f"ok {k}" for k in range(1, len(CAMPAIGN) + 1)]
    if done.returncode or counts != [str(len(CAMPAIGN)), "0", "0"] or oks != expected:
        return f"the campaign: {done.returncode} {counts} {oks} {done.stdout} {done.stderr}"
    return ""


def wrong_in_readme(outcomes: list[Outcome]) -> list[str]:
    """README.md has the number of purposes that the daemon passes."""
    of_daemon = [o for o in outcomes if o.run.station in ("standard", "secured")]
    passed = {o.run.purpose for o in of_daemon if o.result.verdict == "pass"}
    figure = f"{len(passed)} of {len({o.run.purpose for o in of_daemon})} test purposes"
    is_whole = bool(of_daemon) and "CONFORMANCE_ONLY" not in os.environ
    if not is_whole or figure in (TOP / "README.md").read_text():
        return []
    return [f"README.md does not say {figure}"]


def wrong_in_evidence(outcomes: list[Outcome], purposes: dict[str, Purpose]) -> list[str]:
    """The page of results has these results."""
    written = evidence.PAGE.read_text() if evidence.PAGE.exists() else ""
    if "CONFORMANCE_ONLY" in os.environ or written == evidence.page(outcomes, purposes):
        return []
    return ["docs/EVIDENCE.md has other results: run checks/conformance --write"]


def unit_tests() -> int:
    """The tests of the tester's own parts. Returns how many there are."""
    folder = str(TOP / "tester")
    tests = unittest.defaultTestLoader.discover(f"{folder}/tests", top_level_dir=folder)
    result = unittest.TextTestRunner(stream=sys.stderr, verbosity=0).run(tests)
    assert result.wasSuccessful() and result.testsRun
    return result.testsRun


def main():
    program, daemon, *words = sys.argv[1:]
    purposes = {path.stem: read_purpose(path) for path in sorted(SUITE.glob("*.toml"))}
    tested = unit_tests()
    began = time.monotonic()
    with tempfile.TemporaryDirectory() as room:
        runs = plan(purposes, program, daemon, room)
        with bench_entities(room):
            first, campaign_wrong = play_all(runs)
            outcomes, again = play_again(first, purposes)
        for attempt in range(1, 1 + len(AGAIN)):
            if campaign_wrong:
                campaign_wrong = play_campaign(len(runs), program, room, attempt)
    wrong = [o.line for o in outcomes if is_wrong(o, purposes)]
    if words == ["--write"] and not wrong:
        evidence.PAGE.write_text(evidence.page(outcomes, purposes))
    wrong += wrong_in_readme(outcomes) + wrong_in_evidence(outcomes, purposes)
    wrong += [campaign_wrong] if campaign_wrong else []
    print("".join(f"{line}\n" for line in wrong), end="")
    print(
        f"{len(purposes)} purposes, {tested} tests, {len(outcomes)} runs in"
        f" {time.monotonic() - began:.0f} s, {again} of them again: {figures(outcomes)};"
        f" {len(wrong)} not as expected"
    )
    return 1 if wrong else 0


if __name__ == "__main__":
    sys.exit(main())
