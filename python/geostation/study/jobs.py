"""One run of the program, and its results. Any process may do it, on any machine that sees the
folder of the study, the program and the traces under the same paths."""

from __future__ import annotations

import json
import os
import shlex
import shutil
import signal
import socket
import subprocess
import sys
import time
from dataclasses import asdict, dataclass
from datetime import datetime, timezone
from pathlib import Path
from typing import Any, Dict, List, Optional, Tuple

from .digests import digest
from .errors import StudyError, cannot
from .files import scratch_path
from .parameters import Point
from .traces import Equipped, read_rows

RECORD = "run.json"
SENDS, LOAD, STATIONS = "sends.csv", "load.csv", "stations.csv"
SUMMARY, MESSAGES = "summary.jsonl", "messages.txt"
# Columns and counts of a run with contention.
HELD = ("held", "cancelled")
# Statuses that the same run has again. Any other may have been the machine's fault.
LASTING = (0, 1, 2)
_LONGEST_MESSAGE = 500
_NAME = "geostation: "
# Messages of a run that went to its end, which are its result and say nothing against it.
_RESULTS = "expect "

# The programs that this process runs now. A worker that gets a signal to end, ends them first.
RUNNING: List["subprocess.Popen[bytes]"] = []


@dataclass(frozen=True)
class Input:
    """A file that a run reads, and its SHA-256."""

    path: str
    sha256: str

    @classmethod
    def of(cls, path: Path) -> "Input":
        """Returns a file as it is now. Raises `StudyError` if it can't be read."""
        return cls(str(path), digest(path))


@dataclass(frozen=True)
class Feed:
    """Traces of some of the vehicles, which are sent to the program through a pipe."""

    path: str
    percent: float
    seed: int
    always: Tuple[str, ...]

    def command(self) -> List[str]:
        """Returns the command that prints the same."""
        keep = [word for name in self.always for word in ("--keep", name)]
        share = ["--penetration", f"{self.percent:g}", "--seed", str(self.seed)]
        return ["python3", "-m", "geostation.study", "fcd", self.path, *share, *keep]


@dataclass(frozen=True)
class Job:
    """A run to do: where its results go, and the command, which runs in that folder."""

    folder: str
    parameters: Point
    command: Tuple[str, ...]
    inputs: Tuple[Input, ...]
    program: Dict[str, str]
    air: Dict[str, Any]
    feed: Optional[Feed] = None

    def command_line(self) -> str:
        """Returns the command for a shell, in the folder of the run."""
        line = shlex.join(self.command)
        return line if self.feed is None else f"{shlex.join(self.feed.command())} | {line}"


@dataclass(frozen=True)
class Outcome:
    """How a run ended, for the figures of a sweep. Its results are in its folder.

    `status` is the program's, or `None` if a worker could not do the run because of `fault`.
    `seconds` are the worker's, `cpu` those of the program on its processor. `warned` is whether the
    program had warnings.
    """

    status: Optional[int]
    seconds: float = 0.0
    cpu: float = 0.0
    fault: str = ""
    warned: bool = False


def read_record(folder: Path) -> Optional[Dict[str, Any]]:
    """Returns the record of a run, or `None` if it is missing or not whole."""
    try:
        record = json.loads((folder / RECORD).read_text())
    except (OSError, ValueError):
        return None
    return record if isinstance(record, dict) else None


def is_lasting(record: Optional[Dict[str, Any]]) -> bool:
    """Returns whether a run needs not be done again."""
    return record is not None and record.get("status") in LASTING


def execute(job: Job) -> Outcome:
    """Does a run, and keeps its results under the name of its folder once they are whole.

    A run that fails is an outcome too. Raises `StudyError` if the results can't be kept, and if the
    program or a file that is read is not what it was when the sweep began.
    """
    begun = time.perf_counter()
    for file in job.inputs:
        if digest(Path(file.path)) != file.sha256:
            raise StudyError(f"{file.path} is not what it was when the sweep began", 3)
    folder = Path(job.folder)
    scratch = scratch_path(folder)
    try:
        scratch.mkdir()
        return _run_in(job, scratch, folder, begun)
    except OSError as error:
        raise cannot("write", folder, error) from None
    finally:
        shutil.rmtree(scratch, ignore_errors=True)


def _run_in(job: Job, scratch: Path, folder: Path, begun: float) -> Outcome:
    started = datetime.now(timezone.utc).isoformat(timespec="milliseconds")
    status, fault, cpu, memory = _run_program(job, scratch)
    total = _total(scratch / SUMMARY)
    complete = status in (0, 1) and not fault and total is not None
    message = fault or _message(scratch / MESSAGES, status)
    warnings = _warnings(scratch / MESSAGES) if complete else []
    outcome = Outcome(status, time.perf_counter() - begun, cpu, warned=bool(warnings))
    record = {
        "parameters": job.parameters,
        "status": status,
        "message": message,
        "warnings": warnings,
        "complete": complete,
        "total": total,
        **_contention(total),
        "air": job.air,
        "command": job.command_line(),
        "program": job.program,
        "inputs": [asdict(file) for file in job.inputs],
        "started": started,
        "seconds": round(outcome.seconds, 6),
        "cpu": round(cpu, 6),
        "memory_kib": memory,
        "host": socket.gethostname(),
    }
    (scratch / RECORD).write_text(json.dumps(record, indent=1) + "\n")
    _put(scratch, folder)
    return outcome


def _put(scratch: Path, folder: Path) -> None:
    """Moves a complete result to its folder. An older one is moved away first."""
    old = scratch_path(folder)
    try:
        os.rename(folder, old)
    except FileNotFoundError:
        pass
    try:
        os.rename(scratch, folder)
    except OSError:
        # Another process was faster. What it kept is of the same run.
        if read_record(folder) is None:
            raise
    shutil.rmtree(old, ignore_errors=True)


def _run_program(job: Job, scratch: Path) -> Tuple[Optional[int], str, float, int]:
    """Runs the program. Returns its status, another fault, processor seconds and memory."""
    with open(scratch / SUMMARY, "wb") as printed, open(scratch / MESSAGES, "wb") as said:
        try:
            process = subprocess.Popen(
                job.command,
                cwd=scratch,
                stdin=subprocess.DEVNULL if job.feed is None else subprocess.PIPE,
                stdout=printed,
                stderr=said,
            )
        except OSError as error:
            return 3, str(cannot("run", job.command[0], error)), 0.0, 0
    RUNNING.append(process)
    try:
        fault = "" if job.feed is None else _send(job.feed, process)
        _, ended, used = os.wait4(process.pid, 0)
        process.returncode = os.waitstatus_to_exitcode(ended)
    except BaseException:
        process.kill()
        process.wait()
        raise
    finally:
        RUNNING.remove(process)
    status = 3 if fault else process.returncode
    return status, fault, used.ru_utime + used.ru_stime, used.ru_maxrss


def _send(feed: Feed, process: "subprocess.Popen[bytes]") -> str:
    """Sends the rows to the program. Returns the fault of a trace that can't be read whole."""
    assert process.stdin is not None
    try:
        with open(feed.path, "rb") as file:
            equipped = Equipped(feed.percent, feed.seed, feed.always)
            for rows in read_rows(file, feed.path, equipped):
                process.stdin.write(rows)
    except BrokenPipeError:
        pass  # a run that has ended reads no further
    except (StudyError, OSError) as error:
        # The program must not take what it has for the whole.
        process.kill()
        return str(error if isinstance(error, StudyError) else cannot("read", feed.path, error))
    finally:
        try:
            process.stdin.close()
        except BrokenPipeError:
            pass
    return ""


def _total(path: Path) -> Optional[Dict[str, int]]:
    """Returns the counts of the whole run, which only a run that went to its end prints."""
    try:
        last = path.read_bytes().splitlines()[-1]
        total = json.loads(last)["total"]
    except (IndexError, ValueError, KeyError, TypeError):
        return None
    return total if isinstance(total, dict) else None


def _contention(total: Optional[Dict[str, int]]) -> Dict[str, Optional[int]]:
    """Returns how many frames the stations held, and how many of them were cancelled: 0 if no
    station contends, and `None` if the run did not go to its end."""
    if total is None:
        return dict.fromkeys(HELD)
    return {name: total.get(name, 0) for name in HELD}


def _said(path: Path) -> List[str]:
    """Returns the messages of the program, without its name."""
    lines = path.read_text(errors="replace").splitlines()
    return [line.removeprefix(_NAME) for line in lines if line]


def _warnings(path: Path) -> List[str]:
    """Returns the warnings of a run that went to its end: why its numbers may be wrong."""
    return [said for said in _said(path) if not said.startswith(_RESULTS)]


def _message(path: Path, status: Optional[int]) -> str:
    """Returns the messages of the program, as one line."""
    said = _said(path)
    if status is not None and status < 0:
        said.append(_signal_text(-status))
    message = "; ".join(said)
    if len(message) > _LONGEST_MESSAGE:
        message = f"{message[:_LONGEST_MESSAGE]} .. ({MESSAGES} has all of it)"
    return message


def _signal_text(number: int) -> str:
    try:
        name = signal.Signals(number).name
    except ValueError:
        name = f"signal {number}"
    why = ": the kernel does that when memory runs out" if number == signal.SIGKILL else ""
    return f"ended by {name}{why}"


if sys.platform == "win32":
    raise ImportError("geostation.study runs on Linux and other systems with wait4")
