"""A test campaign: purposes that are played one after the other, recorded, and then judged."""

from __future__ import annotations

import sys
import time
from pathlib import Path
from typing import NamedTuple, TextIO

from .bench import Bench, Partners
from .entity import NoEntity
from .purposes import JUDGED, Purpose
from .recording import Recording
from .results import Played, Result, result_of
from .station_file import StationFile
from .upper import NoUpper
from .verdicts import NoVerdict, duties_judged, verdicts_on

MILLISECOND = 1_000_000  # ns
NOTHING_SENT = "the station under test sent nothing in the preamble"


def claims_of(record: Path) -> Path:
    """The path of the station file with the claims of a bench, beside its recording."""
    return record.with_suffix(".iut.toml")


def recording_of(record: Path, purpose: Purpose) -> Path:
    """The path of the recording of a purpose. One that restarts the station has its own, since the
    claims on the others do not hold over a restart."""
    if not purpose.restarts():
        return record
    return record.with_name(f"{record.stem}.{purpose.name}{record.suffix or '.pcapng'}")


class Setting(NamedTuple):
    """The bench, and the path of the recording."""

    interface: str
    station: StationFile
    record: Path
    program: str
    partners: Partners = Partners()

    @property
    def claims(self) -> Path:
        return claims_of(self.record)

    def with_restarts(self, purpose: Purpose) -> Setting:
        """That of a purpose which restarts the station: with a recording of its own."""
        record = recording_of(self.record, purpose)
        return self._replace(record=record, station=self.station.restarted())


def play(bench: Bench, purpose: Purpose) -> Played:
    lacks = bench.station.lacks(purpose.needs, bench.partners.names())
    if lacks:
        return Played(purpose, [], [], f"needs {', '.join(lacks)}", False, 0.0)
    began = time.monotonic()
    is_there, records = bench.preamble(purpose)
    why, delivered = "" if is_there else NOTHING_SENT, []
    try:
        if is_there:
            bench.play(purpose, records)
        delivered = bench.delivered()
    except NoUpper as refusal:
        why = f"the upper tester: {refusal}"
    except NoEntity as refusal:
        why = f"the security entity: {refusal}"
    return Played(purpose, records, delivered, why, True, time.monotonic() - began)


def expect_judge(setting: Setting) -> None:
    """Fails before anything is played if the program refuses the station file, or does not judge
    the duties of the purposes. The recording is empty."""
    setting.claims.write_text(setting.station.text(time.time_ns() // MILLISECOND))
    judged = duties_judged(str(setting.record), str(setting.claims), setting.program)
    if missing := [duty for duty in JUDGED if duty not in judged]:
        raise NoVerdict(f"{setting.program} verdict does not judge {', '.join(missing)}")


def record(setting: Setting, purposes: list[Purpose], progress: TextIO) -> list[Played]:
    """Plays all purposes. Writes the recording, and the station file with the claims of a bench."""
    played = []
    with open(setting.record, "wb") as out:
        recording = Recording(out)
        expect_judge(setting)
        bench = Bench(setting.interface, setting.station, recording, setting.partners)
        for k, purpose in enumerate(purposes, 1):
            print(f"{k} of {len(purposes)}: {purpose.name}", file=progress, flush=True)
            played.append(play(bench, purpose))
        bench.close()
    setting.claims.write_text(setting.station.text(time.time_ns() // MILLISECOND))
    return played


def judged(setting: Setting, purposes: list[Purpose], progress: TextIO) -> list[Result]:
    """The results of purposes that are in one recording."""
    if not purposes:
        return []
    path = str(setting.record)
    played = record(setting, purposes, progress)
    verdicts = verdicts_on(path, str(setting.claims), setting.program)
    return [result_of(p, setting.station, verdicts)._replace(recording=path) for p in played]


def run(setting: Setting, purposes: list[Purpose], progress: TextIO = sys.stderr) -> list[Result]:
    """The results, in the order of the purposes. Those that restart the station are played last."""
    found = judged(setting, [p for p in purposes if not p.restarts()], progress)
    for purpose in purposes:
        if purpose.restarts():
            found += judged(setting.with_restarts(purpose), [purpose], progress)
    by_name = {result.name: result for result in found}
    return [by_name[purpose.name] for purpose in purposes]
