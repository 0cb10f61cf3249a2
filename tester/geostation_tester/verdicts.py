"""What `geostation verdict` says of a recording."""

from __future__ import annotations

import json
import subprocess
from typing import NamedTuple

from .purposes import JUDGED


class NoVerdict(Exception):
    """The program could not judge the recording."""


class Verdict(NamedTuple):
    """`result` is pass, fail or inconclusive."""

    result: str
    duty: str
    record: int
    reason: str


def objects_of(recording: str, station_file: str, program: str) -> list[dict]:
    """What the program prints of all verdicts. The last object has the counts."""
    command = [program, "verdict", "--json", "--all", station_file, recording]
    try:
        run = subprocess.run(command, capture_output=True, text=True)
    except OSError as why:
        raise NoVerdict(f"cannot run {program}: {why.strerror}") from None
    if run.returncode not in (0, 1) or run.stderr:
        raise NoVerdict(f"{program} verdict ended with {run.returncode}: {run.stderr.strip()}")
    objects = [json.loads(text) for text in run.stdout.splitlines()]
    if not objects or "total" not in objects[-1]:
        raise NoVerdict(f"{program} verdict printed no counts")
    return objects


def verdicts_on(recording: str, station_file: str, program: str) -> list[Verdict]:
    """In the order of the records. For the other duties the tester compares frames."""
    return [
        Verdict(o["result"], o["duty"], o["record"], o.get("reason", ""))
        for o in objects_of(recording, station_file, program)
        if o.get("duty") in JUDGED
    ]


def duties_judged(recording: str, station_file: str, program: str) -> set[str]:
    """The duties that the program judges."""
    counts = objects_of(recording, station_file, program)[-1]
    return {*counts["total"], *counts["unexercised"]}
