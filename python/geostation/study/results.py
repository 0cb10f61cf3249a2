"""The results of a sweep: tables, summaries and figures."""

from __future__ import annotations

import csv
import io
import json
import warnings
from dataclasses import dataclass
from pathlib import Path
from typing import Any, Dict, Iterable, Iterator, List, Mapping, Optional, Sequence, Tuple, Union

from .errors import StudyError, StudyWarning, cannot
from .jobs import HELD, LOAD, SENDS, STATIONS, read_record
from .parameters import SEED, Point, plain
from .statistics import LEVEL, RESAMPLES, mean, summarise

STUDY = "study.json"
TABLES = {"sends": SENDS, "load": LOAD, "stations": STATIONS}
Row = Dict[str, Any]
Names = Union[str, Sequence[str], None]

# Columns of a send that have no meaning if no station delivered it: the program writes 0.
_OF_DELIVERIES = ("hops", "first", "p50", "p95", "last")
_MISSING = "this run is missing: start the sweep again"
# Number of runs with warnings that a message names.
_NAMED = 5


@dataclass(frozen=True)
class Run:
    """A run of a sweep.

    Attributes:
        folder: The folder of its results.
        parameters: Its parameters and its seed.
        status: Exit status of the program; a negative value is the signal that ended it; `None` if
            the run is missing.
        message: The messages of the program.
        complete: Whether the run went to its end.
        record: The content of its `run.json`.
        warnings: Why the numbers of a run that went to its end may be wrong, as the program says.
    """

    folder: Path
    parameters: Point
    status: Optional[int]
    message: str
    complete: bool
    record: Mapping[str, Any]
    warnings: Tuple[str, ...] = ()

    @classmethod
    def read(cls, folder: Path, parameters: Point) -> "Run":
        """Reads the results of a run."""
        record = read_record(folder)
        if record is None:
            return cls(folder, parameters, None, _MISSING, False, {})
        said, whole = str(record.get("message")), bool(record.get("complete"))
        doubts = tuple(record.get("warnings") or ())
        return cls(folder, parameters, record.get("status"), said, whole, record, doubts)

    def failed(self) -> bool:
        """Returns whether the status is not 0."""
        return self.status != 0

    def warned(self) -> bool:
        """Returns whether the program had warnings: the numbers of the run may be wrong."""
        return bool(self.warnings)

    def name(self) -> str:
        """Returns the parameters and the folder, for a message."""
        values = " ".join(f"{name}={value}" for name, value in self.parameters.items())
        return f"{values}, in {self.folder.name}"


def _value(text: str) -> Any:
    """Returns a field of CSV as a number if it is one, and `None` if it is empty."""
    if not text:
        return None
    for kind in (int, float):
        try:
            return kind(text)
        except ValueError:
            continue
    return text


def _completed(row: Row) -> Row:
    """Returns a row of a send with the reach in percent, and without meaningless zeros."""
    if "inside" not in row:
        return row
    if not row.get("delivered"):
        row.update((name, None) for name in _OF_DELIVERIES if name in row)
    inside, reached = row["inside"], row.get("reached")
    row["reach"] = 100 * reached / inside if inside and reached is not None else None
    return row


def _add_held(rows: List[Row]) -> None:
    """Gives the rows of runs without contention the columns of those with it, if there are any.
    Stations that do not contend hold no frame."""
    if not any(HELD[0] in row for row in rows):
        return
    for row in rows:
        if row and HELD[0] not in row:
            row.update(dict.fromkeys(HELD, 0))


def _names(given: Names) -> List[str]:
    if given is None:
        return []
    return [given] if isinstance(given, str) else list(given)


def _report_warned(runs: Iterable[Run]) -> None:
    """Gives a `StudyWarning` that names the runs of these that have warnings, if there are any."""
    found = [run for run in runs if run.warned()]
    if not found:
        return
    lines = [f"  {run.name()}: {'; '.join(run.warnings)}" for run in found[:_NAMED]]
    if len(found) > _NAMED:
        lines.append(f"  and {len(found) - _NAMED} more")
    head = f"runs with warnings, whose numbers may be wrong: {len(found)}"
    warnings.warn("\n".join([head, *lines]), StudyWarning, stacklevel=3)


def framed(rows: List[Row]) -> Any:
    """Returns rows as a pandas DataFrame, or unchanged if pandas isn't installed."""
    try:
        import pandas
    except ImportError:
        return rows
    return pandas.DataFrame(rows)


def to_csv(rows: List[Row]) -> str:
    """Returns rows as CSV: a header line, and lines that end in line feeds."""
    text = io.StringIO()
    writer = csv.DictWriter(text, list(rows[0]) if rows else [], lineterminator="\n")
    writer.writeheader()
    writer.writerows({name: _printed(value) for name, value in row.items()} for row in rows)
    return text.getvalue()


def _about(run: Run) -> Row:
    """Returns what each row of a run has of the run itself."""
    return {"status": run.status, "warnings": len(run.warnings), "message": run.message}


def _printed(value: Any) -> Any:
    return str(value).lower() if isinstance(value, bool) else value


class Runs:
    """The runs of a sweep, in the order of its parameters.

    `len(runs)` is their number. Iterating yields each `Run`.
    """

    def __init__(self, out: Path, record: Mapping[str, Any]):
        """Reads the results of the runs in the record of a study."""
        self.out = out
        self.record = record
        try:
            self._runs = [Run.read(out / r["folder"], r["parameters"]) for r in record["runs"]]
        except (KeyError, TypeError):
            raise StudyError(f"{out / STUDY} is not the record of a study", 1) from None
        self._rows: Dict[str, List[Tuple[Run, Row]]] = {}

    def __len__(self) -> int:
        return len(self._runs)

    def __iter__(self) -> Iterator[Run]:
        return iter(self._runs)

    def __repr__(self) -> str:
        counts = f"{len(self.failed)} failed, {len(self.warned)} warned"
        return f"<{len(self)} runs in {self.out.name}, {counts}>"

    @property
    def failed(self) -> List[Run]:
        """The runs whose status is not 0, and those that are missing."""
        return [run for run in self._runs if run.failed()]

    @property
    def warned(self) -> List[Run]:
        """The runs that the program had warnings for: their numbers may be wrong."""
        return [run for run in self._runs if run.warned()]

    def rows(
        self,
        table: str = "sends",
        where: Optional[Mapping[str, Any]] = None,
        without_warned: bool = False,
    ) -> List[Row]:
        """Returns the rows of a table, each with parameters, status, number of warnings and message
        of its run.

        If no station delivered a warning, its hops and times are `None`. A run without any row, and
        one that did not go to its end, has one row in which the table's columns are `None`.

        Args:
            table: `sends`, with a row for each warning that was sent, `load`, with a row for each
                second, or `stations`, with a row for each station. `sends` has a last column
                `reach`: the percentage of the stations inside that were reached.
            where: Values of parameters to select, such as `{"range": 250}`.
            without_warned: Whether to leave out the runs that have warnings.

        Raises:
            StudyError: The table or a parameter is unknown, or a file can't be read.
        """
        parsed = self._parsed(table)
        columns: Dict[str, None] = {}
        for _, row in parsed:
            columns.update(dict.fromkeys(row))
        empty = dict.fromkeys(columns)
        chosen = {id(run) for run in self._matching(where or {}, without_warned)}
        return [
            {**run.parameters, **_about(run), **empty, **row}
            for run, row in parsed
            if id(run) in chosen
        ]

    def frame(
        self,
        table: str = "sends",
        where: Optional[Mapping[str, Any]] = None,
        without_warned: bool = False,
    ) -> Any:
        """Returns `rows` as a pandas DataFrame, or as a list if pandas isn't installed. A
        `StudyWarning` names the runs that have warnings."""
        _report_warned(self._matching(where or {}, without_warned))
        return framed(self.rows(table, where, without_warned))

    def csv(
        self,
        table: str = "sends",
        where: Optional[Mapping[str, Any]] = None,
        without_warned: bool = False,
    ) -> str:
        """Returns `rows` as CSV. Equal studies have equal texts, to the byte. A `StudyWarning`
        names the runs that have warnings."""
        _report_warned(self._matching(where or {}, without_warned))
        return to_csv(self.rows(table, where, without_warned))

    def _parsed(self, table: str) -> List[Tuple[Run, Row]]:
        if table not in TABLES:
            raise StudyError(f"{table}: there is no such table: use {' or '.join(TABLES)}")
        if table not in self._rows:
            parsed = [(run, row) for run in self._runs for row in self._read(run, TABLES[table])]
            _add_held([row for _, row in parsed])
            self._rows[table] = parsed
        return self._rows[table]

    @staticmethod
    def _read(run: Run, name: str) -> List[Row]:
        rows: List[Row] = []
        if run.complete:
            try:
                with open(run.folder / name, newline="") as file:
                    for line in csv.DictReader(file):
                        rows.append(_completed({key: _value(line[key]) for key in line}))
            except OSError as error:
                raise cannot("read", run.folder / name, error) from None
        return rows or [{}]

    def metrics(self) -> List[str]:
        """Returns the names of all columns of numbers that can be summarised."""
        found: Dict[str, None] = {}
        for table in TABLES:
            for _, row in self._parsed(table):
                found.update((k, None) for k, v in row.items() if isinstance(v, (int, float)))
        return list(found)

    def _values_of(self, metric: str, table: Optional[str]) -> Dict[int, List[float]]:
        """Returns the numbers of a column, by the run's place in the list. Without a table it is
        the first one that has the column."""
        for table in TABLES if table is None else (table,):
            parsed = self._parsed(table)
            if any(metric in row for _, row in parsed):
                break
        else:
            raise StudyError(f"{metric}: no such column: there are {', '.join(self.metrics())}")
        values: Dict[int, List[float]] = {}
        for run, row in parsed:
            value = row.get(metric)
            if isinstance(value, (int, float)):
                values.setdefault(id(run), []).append(value)
            elif value is not None:
                raise StudyError(f"{metric}: a column of texts has no mean")
        return values

    def _known(self, names: Iterable[str]) -> List[str]:
        """Returns all parameters. Raises `StudyError` if one of the names is unknown."""
        known = list(self._runs[0].parameters) if self._runs else []
        for name in names:
            if name not in known:
                raise StudyError(f"{name}: no such parameter: there are {', '.join(known)}")
        return known

    def _matching(self, where: Mapping[str, Any], without_warned: bool = False) -> List[Run]:
        """Returns the runs whose parameters have the values of `where`, all or only those that have
        no warnings."""
        self._known(where)
        wanted = {name: plain(value) for name, value in where.items()}
        runs = self._runs if not without_warned else [r for r in self._runs if not r.warned()]
        return [r for r in runs if all(r.parameters[n] == v for n, v in wanted.items())]

    def _groups(
        self, by: Sequence[str], where: Mapping[str, Any]
    ) -> Dict[Tuple[Any, ...], List[Run]]:
        """Returns the runs of `where` by their values of `by`, if a mean of each is meaningful.

        Raises `StudyError` if another parameter than the seed has several values in one of them.
        """
        known = [name for name in self._known(by) if name != SEED and name not in by]
        groups: Dict[Tuple[Any, ...], List[Run]] = {}
        for run in self._matching(where):
            groups.setdefault(tuple(run.parameters[name] for name in by), []).append(run)
        for name in known:
            if any(len({r.parameters[name] for r in runs}) > 1 for runs in groups.values()):
                raise StudyError(
                    f"{name} has several values: add it to by, or choose one with where"
                )
        return groups

    def summary_rows(
        self,
        metric: str,
        by: Names = None,
        where: Optional[Mapping[str, Any]] = None,
        level: float = LEVEL,
        resamples: int = RESAMPLES,
        seed: int = 1,
        *,
        table: Optional[str] = None,
        without_warned: bool = False,
    ) -> List[Row]:
        """Returns `summary` as a list of rows."""
        names = _names(by)
        values = self._values_of(metric, table)
        rows = []
        for key, runs in self._groups(names, where or {}).items():
            used = [run for run in runs if not (without_warned and run.warned())]
            means = [mean(v) for run in used if (v := values.get(id(run)))]
            middle, low, high = summarise(means, level, resamples, seed)
            row: Row = dict(zip(names, key))
            row.update(mean=middle, low=low, high=high, n=len(means))
            row["failed"] = sum(run.failed() for run in runs)
            row["warned"] = sum(run.warned() for run in runs)
            rows.append(row)
        return rows

    def summary(
        self,
        metric: str,
        by: Names = None,
        where: Optional[Mapping[str, Any]] = None,
        level: float = LEVEL,
        resamples: int = RESAMPLES,
        seed: int = 1,
        *,
        table: Optional[str] = None,
        without_warned: bool = False,
    ) -> Any:
        """Returns the mean of a column for each combination of the parameters in `by`.

        The columns are those of `by`, `mean`, `low`, `high`, `n`, `failed` and `warned`. Each run
        counts with the mean of its rows, and `mean` is the mean over the runs. `low` and `high` are
        the ends of its interval, by a bootstrap over the runs. `n` is the number of runs with a
        value. `failed` is the number of runs whose status is not 0. A run in which an `[[expect]]`
        failed counts in both. `warned` is the number of runs that have warnings, and a
        `StudyWarning` names them if they are used.

        Args:
            metric: A column of `sends`, of `load` or of `stations`.
            by: Names of parameters.
            where: Values of parameters to select, such as `{"range": 250}`.
            level: Share of the resamples that the interval holds, between 0 and 1.
            resamples: Number of resamples.
            seed: Seed of the resamples.
            table: The table of the column (default: the first one that has it).
            without_warned: Whether to leave out the runs that have warnings.

        Returns:
            A pandas DataFrame, or a list of dicts if pandas isn't installed.

        Raises:
            StudyError: A name is unknown, or a parameter with several values is in neither `by` nor
                `where`.
        """
        _report_warned(self._matching(where or {}, without_warned))
        options: Dict[str, Any] = {"table": table, "without_warned": without_warned}
        return framed(self.summary_rows(metric, by, where, level, resamples, seed, **options))

    def summary_csv(
        self,
        metric: str,
        by: Names = None,
        where: Optional[Mapping[str, Any]] = None,
        level: float = LEVEL,
        *,
        table: Optional[str] = None,
        without_warned: bool = False,
    ) -> str:
        """Returns `summary` as CSV."""
        _report_warned(self._matching(where or {}, without_warned))
        options: Dict[str, Any] = {"table": table, "without_warned": without_warned}
        return to_csv(self.summary_rows(metric, by, where, level, **options))

    def plot(
        self,
        metric: str,
        over: str,
        by: Optional[str] = None,
        where: Optional[Mapping[str, Any]] = None,
        level: float = LEVEL,
        *,
        table: Optional[str] = None,
        without_warned: bool = False,
    ) -> Any:
        """Returns a figure of the mean of a column over a parameter, with the intervals as bars.

        It is a matplotlib figure with the width of a column of a paper. Its `savefig` writes the
        same file each time. A mean of which a run has warnings has a hollow mark, and a
        `StudyWarning` names these runs.

        Args:
            metric: A column of `sends`, of `load` or of `stations`.
            over: The parameter of the x axis.
            by: A parameter; each of its values has a line.
            where: Values of parameters to select, such as `{"range": 250}`.
            level: Share of the resamples that the interval holds, between 0 and 1.
            table: The table of the column (default: the first one that has it).
            without_warned: Whether to leave out the runs that have warnings.

        Raises:
            StudyError: As for `summary`; with status 3 if matplotlib isn't installed.
        """
        from .figure import draw

        names = [over] if by is None else [by, over]
        options: Dict[str, Any] = {"table": table, "without_warned": without_warned}
        rows = self.summary_rows(metric, names, where, level, **options)
        _report_warned(self._matching(where or {}, without_warned))
        if without_warned:
            rows = [{**row, "warned": 0} for row in rows]
        return draw(rows, metric, over, by)


def load(out: Union[str, Path]) -> Runs:
    """Returns the runs of the last sweep into a folder, as far as they are done.

    Args:
        out: The folder.

    Raises:
        StudyError: The folder has no record of a study.
    """
    path = Path(out) / STUDY
    try:
        record = json.loads(path.read_text())
    except OSError as error:
        raise cannot("read", path, error) from None
    except ValueError:
        raise StudyError(f"{path} is not the record of a study", 1) from None
    return Runs(Path(out), record)
