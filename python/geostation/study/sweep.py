"""A study: a scenario with traces, run over parameters and seeds."""

from __future__ import annotations

import json
import os
import platform
import shlex
import shutil
import subprocess
import sys
import time
from concurrent.futures import BrokenExecutor, CancelledError, Executor, as_completed
from datetime import datetime, timezone
from pathlib import Path
from typing import Any, Dict, Iterable, List, Mapping, Optional, Sequence, Tuple, Union

import geostation

from .digests import digest, digest_of, short
from .errors import StudyError, cannot
from .files import remove_leftovers, write
from .jobs import (
    LOAD,
    SENDS,
    STATIONS,
    Feed,
    Input,
    Job,
    Outcome,
    execute,
    is_lasting,
    read_record,
)
from .parameters import (
    AIR_KEYS,
    MOVES,
    PENETRATION,
    SCENARIO,
    SEED,
    Groups,
    Point,
    Value,
    is_path,
    points,
    read_parameters,
    read_seeds,
    read_tied,
)
from .pool import make_pool, processors
from .progress import Progress
from .results import STUDY, Runs
from .scenario import Scenario
from .traces import is_plain_csv, open_trace, read_rows

# The form of the data from which the name of a run's folder is made.
_FORM = 2
_FILES_OF_A_RUN = ("--sends", SENDS, "--load", LOAD, "--stations", STATIONS)
# What the record of a study has of the record of a run.
_KEPT = ("status", "message", "warnings", "started", "seconds", "cpu", "memory_kib", "host")
PathLike = Union[str, Path]
PathsLike = Union[PathLike, Sequence[PathLike]]


class Program:
    """The program `geostation` that does the runs."""

    def __init__(self, name: Optional[PathLike]):
        """Finds a program by its path or name, by GEOSTATION_PROGRAM, or as `geostation`.

        Raises `StudyError` with status 3 if it can't be run.
        """
        wanted = str(name or os.environ.get("GEOSTATION_PROGRAM") or "geostation")
        found = shutil.which(wanted)
        if found is None:
            raise StudyError(
                f"{wanted}: there is no such program: name it with --program, or program=", 3
            )
        self.path = str(Path(found).resolve())
        try:
            asked = subprocess.run([self.path, "--version"], capture_output=True, text=True)
        except OSError as error:
            raise cannot("run", self.path, error) from None
        self.version = asked.stdout.strip()
        if asked.returncode != 0 or not self.version:
            raise StudyError(f"{self.path} --version ended with status {asked.returncode}", 3)
        self.sha256 = digest(Path(self.path))

    def record(self) -> Dict[str, str]:
        """Returns the program's part of a record."""
        return {"path": self.path, "version": self.version, "sha256": self.sha256}


def _listed(given: Optional[PathsLike]) -> List[str]:
    """Returns the names of one or more files."""
    if given is None:
        return []
    return [str(given)] if isinstance(given, (str, Path)) else [str(name) for name in given]


class Study:
    """A scenario, with or without traces of vehicles, and the program that runs it.

    Args:
        scenario: Path of a scenario with a table `[air]`. With a list of paths `scenario` is a
            parameter, whose values are these paths.
        moves: Path of the traces: CSV as the program reads it, or SUMO's FCD output as XML, with or
            without gzip. If the name contains `{seed}`, each seed has its own traces, for example
            `town-{seed}.csv`. With a list of paths `moves` is a parameter.
        program: Path or name of the program. The default is the variable `GEOSTATION_PROGRAM`, or
            `geostation` if that is not set.

    Attributes:
        scenarios: The scenarios, by the names that were given.
        moves: The names of the traces that were given.
        files: The parameters that are files, with their values.

    Raises:
        StudyError: A file or the program is missing (status 3).
    """

    def __init__(
        self,
        scenario: PathsLike,
        moves: Optional[PathsLike] = None,
        *,
        program: Optional[PathLike] = None,
    ):
        names = _listed(scenario)
        if not names:
            raise StudyError("scenario: no file is given")
        self.scenarios = {name: Scenario(Path(name).absolute()) for name in names}
        self.moves = _listed(moves)
        self.files: Dict[str, List[Value]] = {}
        for key, given in ((SCENARIO, scenario), (MOVES, moves)):
            if not (given is None or isinstance(given, (str, Path))):
                self.files[key] = list(_listed(given))
        self.program = Program(program)

    @property
    def scenario(self) -> Scenario:
        """The scenario, or the first one of several."""
        return next(iter(self.scenarios.values()))

    def sweep(
        self,
        *,
        out: PathLike,
        seeds: Any = 1,
        executor: Optional[Executor] = None,
        jobs: Optional[int] = None,
        force: bool = False,
        progress: Optional[bool] = None,
        part: Tuple[int, int] = (0, 1),
        tied: Iterable[Any] = (),
        **parameters: Any,
    ) -> Runs:
        """Runs each combination of values and seeds, and returns all runs.

        A run that fails is kept with its status and message, and the sweep continues.

        Args:
            out: Folder of the results. A run whose results are there is not done again.
            seeds: A number N, for the seeds 1 to N, or the seeds themselves.
            executor: Any executor of `concurrent.futures`. The default is a pool of processes.
            jobs: Number of processes of that pool (default: the number of processors).
            force: Do all runs again.
            progress: Whether to show the progress. By default it is shown on a terminal.
            part: `(I, N)`: do each Nth run, beginning with run I, from 0. So N sweeps into one
                folder can share the work.
            tied: Names of parameters that change together, or a list of such groups. The first
                values of a group are one combination, the second values the next one.
            parameters: Each other argument is a parameter, with one or more values. Its name is a
                key of `[air]`, `penetration`, or the path of a key in the scenario, such as
                `"moves.capacity"` or `"event.0.hops"`. `"event.*.hops"` is the key `hops` of all
                events that have one. `penetration` is the percentage of the vehicles that have a
                station; the seed selects them. Vehicles that events name always have one.

        Raises:
            StudyError: An argument is wrong, `out` can't be written, or a file that is read changes
                during the sweep.
        """
        if jobs is not None and (executor is not None or jobs < 1):
            raise StudyError("jobs is a number of at least 1, and goes without an executor")
        index, count = part
        if not 0 <= index < count:
            raise StudyError(f"part {index}/{count} is not a part from 0/{count}")
        given = {**self.files, **read_parameters(parameters)}
        groups = read_tied(tied, given)
        plan = _Plan(self, Path(out).absolute(), given, read_seeds(seeds), groups)
        return plan.run(executor, jobs, force, progress, part)


class _Plan:
    """A sweep into a folder."""

    def __init__(
        self,
        study: Study,
        out: Path,
        parameters: Dict[str, List[Value]],
        seeds: List[int],
        tied: Groups,
    ):
        self.study = study
        self.out = out
        self.parameters = parameters
        self.seeds = seeds
        self.tied = tied
        self.points = points(parameters, seeds, tied)
        self._moves: Dict[str, Input] = {}
        self._scenarios: Dict[str, Tuple[str, Tuple[str, ...]]] = {}
        if PENETRATION in parameters and not study.moves:
            raise StudyError("penetration needs moves: it is a share of their vehicles")
        try:
            out.mkdir(parents=True, exist_ok=True)
        except OSError as error:
            raise cannot("write", out, error) from None
        self.traces = [self._prepare(name) for name in self._names_of_traces()]
        self.jobs = [self._job(point) for point in self.points]

    def _names_of_traces(self) -> List[str]:
        """Returns the name of each file of traces. A name with `{seed}` is one for each seed."""
        names = (n.replace("{seed}", str(s)) for n in self.study.moves for s in self.seeds)
        return list(dict.fromkeys(names))

    def _prepare(self, name: str) -> Input:
        """Makes traces ready, and returns the file that was named. The program reads CSV: of
        another file a copy is kept as CSV beside the results."""
        source = Path(name).absolute()
        given, read = Input.of(source), source
        if not is_plain_csv(source):
            read = self.out / "moves" / f"{short(given.sha256)}.csv"
            if not read.exists():
                with open_trace(source) as file:
                    write(read, read_rows(file, str(source)))
        self._moves[name] = Input.of(read)
        return given

    def _given_scenario(self, point: Point) -> Scenario:
        """Returns the scenario of a run as it was given."""
        return self.study.scenarios[str(point.get(SCENARIO) or next(iter(self.study.scenarios)))]

    def _scenario_file(self, point: Point) -> Tuple[Input, str, Tuple[str, ...]]:
        """Writes the scenario of some values beside the results, and returns it with its name as a
        run's folder sees it, and with the vehicles that have a station at any penetration."""
        changes = {name: value for name, value in point.items() if is_path(name)}
        given = self._given_scenario(point)
        key = digest_of([str(given.path), *([name, repr(v)] for name, v in changes.items())])
        if key not in self._scenarios:
            octets = given.with_values(changes)
            name = f"scenarios/{short(digest_of(octets.decode('latin-1')))}.toml"
            path = self.out / name
            if not path.exists() or path.read_bytes() != octets:
                write(path, [octets])
            always = Scenario(path).senders() if PENETRATION in point else ()
            self._scenarios[key] = name, always
        name, always = self._scenarios[key]
        return Input.of(self.out / name), f"../{name}", always

    def _traces_of(self, point: Point) -> Optional[Input]:
        """Returns the traces of a run as the program reads them, or `None` without traces."""
        if not self.study.moves:
            return None
        name = str(point.get(MOVES) or self.study.moves[0])
        return self._moves[name.replace("{seed}", str(point[SEED]))]

    def _job(self, point: Point) -> Job:
        """Returns the run of some values."""
        scenario, scenario_name, always = self._scenario_file(point)
        air = {name: point[name] for name in (*AIR_KEYS, SEED) if name in point}
        sets = [f"--set={name}={_digits(value)}" for name, value in air.items()]
        program = self.study.program
        inputs, moves, feed, traces = [scenario], [], None, ""
        if read := self._traces_of(point):
            inputs, traces = [scenario, read], read.sha256
            moves = ["--moves", self._name(read)]
            if PENETRATION in point:
                share, seed = float(point[PENETRATION]), int(point[SEED])
                feed, moves = Feed(read.path, share, seed, always), ["--moves", "-"]
        # Without notices, so that each line on standard error is an error or a warning.
        words = ["--quiet", "--explain", "--summary", "--json", *_FILES_OF_A_RUN, *moves, *sets]
        key = {
            "form": _FORM,
            "program": [program.version, program.sha256],
            "scenario": scenario.sha256,
            "moves": traces,
            "parameters": point,
        }
        return Job(
            folder=str(self.out / short(digest_of(key))),
            parameters=point,
            command=(program.path, "sim", *words, scenario_name),
            inputs=(Input(program.path, program.sha256), *inputs),
            program=program.record(),
            air={**(_own_air(self._given_scenario(point)) or {}), **air},
            feed=feed,
        )

    def _name(self, file: Input) -> str:
        """Returns the name of a file as a run's folder sees it."""
        path = Path(file.path)
        return f"../moves/{path.name}" if path.parent == self.out / "moves" else file.path

    def run(
        self,
        executor: Optional[Executor],
        jobs: Optional[int],
        force: bool,
        progress: Optional[bool],
        part: Tuple[int, int],
    ) -> Runs:
        """Does the runs that are to be done, and writes the record before and after."""
        remove_leftovers(self.out)
        mine = {job.folder: job for job in self.jobs[part[0] :: part[1]]}
        missing = [j for j in mine.values() if force or not is_lasting(read_record(Path(j.folder)))]
        workers = min(jobs or processors(), max(len(missing), 1)) if executor is None else None
        about: Dict[str, Any] = {
            "command": shlex.join([sys.executable, *sys.argv]),
            "executor": "processes" if executor is None else type(executor).__name__,
            "processes": workers,
            "part": list(part),
            "begun": _now(),
            "ended": None,
            "found": len(mine) - len(missing),
            "run": 0,
            "failed": 0,
            "warned": 0,
            "seconds": None,
        }
        self._record(about)
        shown = Progress(len(mine), len(mine) - len(missing), progress)
        begun = time.perf_counter()
        try:
            outcomes = self._run_all(missing, executor, workers, shown)
        finally:
            shown.close()
        seconds = time.perf_counter() - begun
        about.update(_figures(outcomes, seconds, workers), ended=_now())
        kept = [read_record(Path(folder)) or {} for folder in mine]
        about["failed"] = sum(record.get("status") != 0 for record in kept)
        about["warned"] = sum(bool(record.get("warnings")) for record in kept)
        remove_leftovers(self.out)
        return Runs(self.out, self._record(about))

    def _run_all(
        self,
        missing: List[Job],
        executor: Optional[Executor],
        workers: Optional[int],
        shown: Progress,
    ) -> List[Outcome]:
        if executor is not None:
            return _collect(executor, missing, shown)
        if not missing:
            return []
        pool = make_pool(workers or 1)
        try:
            outcomes = _collect(pool, missing, shown)
        except BaseException:
            pool.shutdown(wait=False, cancel_futures=True)
            raise
        pool.shutdown()
        return outcomes

    def _record(self, about: Mapping[str, Any]) -> Dict[str, Any]:
        """Writes and returns the record of the study."""
        study = self.study
        record: Dict[str, Any] = {
            "form": _FORM,
            "program": study.program.record(),
            "package": geostation.__version__,
            "python": sys.version,
            "kernel": " ".join(platform.uname()),
            "processors": processors(),
            "scenarios": [
                {"path": str(each.path), "sha256": digest(each.path), "air": _own_air(each)}
                for each in study.scenarios.values()
            ],
            "moves": [{"path": file.path, "sha256": file.sha256} for file in self.traces],
            "parameters": self.parameters,
            "tied": self.tied,
            "seeds": self.seeds,
            "sweep": about,
            "runs": [self._entry(job, bool(about["ended"])) for job in self.jobs],
        }
        write(self.out / STUDY, [json.dumps(record, indent=1).encode(), b"\n"])
        return record

    def _entry(self, job: Job, whole: bool) -> Dict[str, Any]:
        """Returns the record's entry for a run. It has the result once the sweep has ended."""
        folder = Path(job.folder)
        entry: Dict[str, Any] = {
            "folder": folder.name,
            "parameters": job.parameters,
            "command": job.command_line(),
        }
        kept = (read_record(folder) if whole else None) or {}
        for name in _KEPT:
            entry[name] = kept.get(name)
        return entry


def _own_air(scenario: Scenario) -> Optional[Dict[str, Any]]:
    """Returns the keys of `[air]`, or `None` if the scenario can't be read here."""
    try:
        return scenario.air()
    except StudyError:
        return None  # if it is no TOML, the program says so


def _digits(value: Value) -> str:
    return str(value).lower()


def _now() -> str:
    return datetime.now(timezone.utc).isoformat(timespec="milliseconds")


def _collect(executor: Executor, jobs: List[Job], shown: Progress) -> List[Outcome]:
    """Has an executor do all runs, and returns their outcomes, in the order of the jobs.

    A run that a worker could not do at all has an outcome without a status, and stays missing.
    """
    try:
        futures = [executor.submit(execute, job) for job in jobs]
    except BrokenExecutor as error:
        raise StudyError(f"the executor failed: {error}", 3) from None
    outcomes: Dict[int, Outcome] = {}
    places = {id(future): place for place, future in enumerate(futures)}
    try:
        for future in as_completed(futures):
            outcome = _outcome(future)
            outcomes[places[id(future)]] = outcome
            shown.count(outcome.status != 0, outcome.warned)
    except BaseException:
        for future in futures:
            future.cancel()
        raise
    return [outcomes[place] for place in sorted(outcomes)]


def _outcome(future: Any) -> Outcome:
    try:
        found: Outcome = future.result()
    except StudyError:
        raise
    except (CancelledError, Exception) as error:
        return Outcome(None, fault=f"{type(error).__name__}: {error}")
    return found


def _figures(outcomes: List[Outcome], seconds: float, workers: Optional[int]) -> Dict[str, Any]:
    """Returns the figures of a sweep: `busy` is the time of the runs divided by that of all
    processes, and `cpu` is the processor time of the programs."""
    together = sum(outcome.seconds for outcome in outcomes)
    figures: Dict[str, Any] = {
        "run": len(outcomes),
        "seconds": round(seconds, 3),
        "seconds_of_runs": round(together, 3),
        "cpu": round(sum(outcome.cpu for outcome in outcomes), 3),
        "faults": sorted({outcome.fault for outcome in outcomes if outcome.fault}),
    }
    if workers is not None and seconds > 0:
        figures["busy"] = round(together / (seconds * workers), 3)
    return figures
