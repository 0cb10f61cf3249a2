"""Studies on a command line: `python -m geostation.study sweep|table|plot|fcd`."""

from __future__ import annotations

import argparse
import io
import os
import re
import sys
import warnings
from pathlib import Path
from typing import Any, Dict, List, NoReturn, Optional, Tuple, cast

from . import Study, StudyError, StudyWarning, load
from .errors import cannot
from .parameters import Value, check_percentage, is_path
from .results import TABLES, Run
from .scenario import value_at
from .statistics import LEVEL
from .traces import Equipped, open_trace, read_rows

_NAME = "geostation.study"
_FIGURES = (".svg", ".pdf", ".png")


class _Parser(argparse.ArgumentParser):
    """Reports wrong arguments as the other programs do."""

    def error(self, message: str) -> NoReturn:
        print(f"{_NAME}: {message}; try --help", file=sys.stderr)
        sys.exit(2)


def _value(text: str) -> Value:
    """Returns a value as TOML would read it, or otherwise as a string."""
    if text in ("true", "false"):
        return text == "true"
    if re.fullmatch(r"-?[0-9]+", text):
        return int(text)
    if re.fullmatch(r"-?[0-9]+\.[0-9]+", text):
        return float(text)
    return text


def _pair(text: str) -> Tuple[str, List[str]]:
    name, equals, values = text.partition("=")
    if not equals or not name or not values:
        raise argparse.ArgumentTypeError(f"{text!r} is not KEY=VALUE,VALUE..")
    return name, values.split(",")


def _seeds(text: str) -> Any:
    """Reads seeds: `30` is a number of seeds, `1-30` and `1,5,9` are seeds."""
    if re.fullmatch(r"[0-9]+", text):
        return int(text)
    if found := re.fullmatch(r"([0-9]+)-([0-9]+)", text):
        return list(range(int(found[1]), int(found[2]) + 1))
    if re.fullmatch(r"[0-9]+(,[0-9]+)+", text):
        return [int(part) for part in text.split(",")]
    raise argparse.ArgumentTypeError(f"{text!r} is not a number of seeds, A-B, or A,B,C")


def _part(text: str) -> Tuple[int, int]:
    if found := re.fullmatch(r"([0-9]+)/([0-9]+)", text):
        return int(found[1]), int(found[2])
    raise argparse.ArgumentTypeError(f"{text!r} is not a part such as 0/10")


def _parser() -> argparse.ArgumentParser:
    parser = _Parser(prog=_NAME, description="Studies over `geostation sim`.")
    commands = parser.add_subparsers(dest="command", required=True, parser_class=_Parser)
    _add_sweep(commands.add_parser("sweep", help="run a scenario over parameters and seeds"))

    table = commands.add_parser("table", help="print the results as CSV")
    _add_results(table)
    table.add_argument("--of", choices=TABLES, help="which rows [default: sends]")
    table.add_argument("--metric", metavar="NAME", help="means and intervals of a column")
    table.add_argument("--by", metavar="KEYS", default="", help="a mean for each value of these")

    plot = commands.add_parser("plot", help="draw a figure")
    _add_results(plot)
    plot.add_argument("--metric", metavar="NAME", required=True, help="column to draw")
    plot.add_argument("--over", metavar="KEY", required=True, help="parameter of the x axis")
    plot.add_argument("--by", metavar="KEY", help="a line for each value of this parameter")
    plot.add_argument("--of", choices=TABLES, help="table of the column [default: one that has it]")
    plot.add_argument("-o", "--output", metavar="FILE", required=True, help=", ".join(_FIGURES))

    fcd = commands.add_parser("fcd", help="print traces as CSV that --moves reads")
    fcd.add_argument("file", metavar="FILE", help="FCD as XML or CSV, or gzip; - is standard input")
    fcd.add_argument("--penetration", metavar="P", type=float, help="vehicles with a station, %%")
    fcd.add_argument("--seed", metavar="N", type=int, default=1, help="selects them [default: 1]")
    fcd.add_argument("--keep", metavar="ID", action="append", help="a vehicle that always has one")
    return parser


def _add_sweep(sweep: argparse.ArgumentParser) -> None:
    """Adds the arguments of `sweep`."""
    scenarios = "a scenario with [air]. Several are values of the parameter scenario"
    sweep.add_argument("scenario", metavar="SCENARIO", nargs="+", help=scenarios)
    traces = "traces: CSV, SUMO's FCD as XML, or gzip. Several are values of the parameter moves"
    sweep.add_argument("--moves", metavar="FILE", action="append", help=traces)
    _add_pairs(sweep, "--set", "values of a parameter: a key of [air], penetration or a path")
    ties: List[List[str]] = []
    sweep.add_argument(
        "--tie",
        metavar="KEY,KEY..",
        type=lambda text: text.split(","),
        action="append",
        default=ties,
        help="parameters that change together",
    )
    sweep.add_argument(
        "--seeds", metavar="N", type=_seeds, default=1, help="N, A-B or A,B,C [default: 1]"
    )
    sweep.add_argument("--out", metavar="DIR", required=True, help="folder of the results")
    sweep.add_argument("--jobs", metavar="N", type=int, help="processes [default: processors]")
    sweep.add_argument("--force", action="store_true", help="do all runs again")
    sweep.add_argument("--strict", action="store_true", help="status 1 if a run has warnings")
    sweep.add_argument(
        "--part",
        metavar="I/N",
        type=_part,
        default=(0, 1),
        help="do each Nth run, beginning with run I, from 0",
    )
    sweep.add_argument("--program", metavar="PATH", help="the program [default: geostation]")
    sweep.add_argument("-q", "--quiet", action="store_true", help="show no progress")


def _add_pairs(parser: argparse.ArgumentParser, name: str, help: str) -> None:
    default: List[Tuple[str, List[str]]] = []
    parser.add_argument(
        name, metavar="KEY=V,..", type=_pair, action="append", default=default, help=help
    )


def _add_results(parser: argparse.ArgumentParser) -> None:
    parser.add_argument("folder", metavar="DIR", help="folder of a sweep")
    _add_pairs(parser, "--where", "use these values of a parameter only")
    parser.add_argument(
        "--level", metavar="P", type=float, default=LEVEL, help=f"interval [default: {LEVEL}]"
    )
    parser.add_argument(
        "--without-warned", action="store_true", help="leave out the runs that have warnings"
    )


def _typed(study: Study, name: str, texts: List[str]) -> List[Value]:
    """Reads values as the scenario has them: a string such as the id `5` stays a string."""
    if is_path(name):
        try:
            if isinstance(value_at(study.scenario.document(), name), str):
                return list(texts)
        except StudyError:
            pass  # the sweep says what is wrong with the path
    return [_value(text) for text in texts]


def _parameters(study: Study, pairs: List[Tuple[str, List[str]]]) -> Dict[str, Any]:
    parameters: Dict[str, Any] = {}
    for name, texts in pairs:
        if name in parameters:
            raise StudyError(f"--set: {name} is given twice")
        parameters[name] = _typed(study, name, texts)
    return parameters


def _one_or_several(names: Optional[List[str]]) -> Any:
    """Returns one file as a name, which is no parameter, and several as a list."""
    return names[0] if names is not None and len(names) == 1 else names


def _sweep(given: argparse.Namespace) -> int:
    files = _one_or_several(given.scenario), _one_or_several(given.moves)
    study = Study(*files, program=given.program)
    runs = study.sweep(
        out=given.out,
        seeds=given.seeds,
        jobs=given.jobs,
        force=given.force,
        progress=False if given.quiet else None,
        part=given.part,
        tied=given.tie,
        **_parameters(study, given.set),
    )
    about = runs.record["sweep"]
    busy = f", processors busy {about['busy']:.2f}" if about["run"] else ""
    print(
        f"{given.out}: {about['run']} runs done, {about['found']} kept from before, "
        f"{about['failed']} failed, {about['warned']} warned, in {about['seconds']:.1f} s{busy}"
    )
    for fault in about["faults"]:
        _say(f"a worker failed: {fault}")
    mine = list(runs)[given.part[0] :: given.part[1]]
    failed, warned = _report_failed(mine), _report_warned(mine)
    return int(failed or (warned and given.strict))


def _report_failed(runs: List[Run]) -> bool:
    """Reports the first run that failed. Returns whether there is one."""
    failed = [run for run in runs if run.failed()]
    if failed:
        first = failed[0]
        status = "missing" if first.status is None else f"status {first.status}"
        _say(f"failed runs: {len(failed)}; the first, {first.name()}: {status}: {first.message}")
    return bool(failed)


def _report_warned(runs: List[Run]) -> bool:
    """Reports the first run that has warnings. Returns whether there is one."""
    warned = [run for run in runs if run.warned()]
    if warned:
        first = warned[0]
        said = "; ".join(first.warnings)
        _say(f"runs with warnings: {len(warned)}; the first, {first.name()}: {said}")
    return bool(warned)


def _say(text: str) -> None:
    print(f"{_NAME}: {text}", file=sys.stderr)


def _where(pairs: List[Tuple[str, List[str]]]) -> Dict[str, Value]:
    for name, texts in pairs:
        if len(texts) != 1:
            raise StudyError(f"--where: {name} has one value")
    return {name: _value(texts[0]) for name, texts in pairs}


def _table(given: argparse.Namespace) -> int:
    runs, where = load(given.folder), _where(given.where)
    by = [name for name in given.by.split(",") if name]
    options: Dict[str, Any] = {"table": given.of, "without_warned": given.without_warned}
    if given.metric is not None:
        text = runs.summary_csv(given.metric, by, where, given.level, **options)
    elif by:
        raise StudyError("--by needs --metric")
    else:
        text = runs.csv(given.of or "sends", where, given.without_warned)
    sys.stdout.write(text)
    return 0


def _plot(given: argparse.Namespace) -> int:
    if Path(given.output).suffix.lower() not in _FIGURES:
        raise StudyError(f"{given.output}: use a name that ends in {', '.join(_FIGURES)}")
    runs = load(given.folder)
    options: Dict[str, Any] = {"table": given.of, "without_warned": given.without_warned}
    where = _where(given.where)
    figure = runs.plot(given.metric, given.over, given.by, where, given.level, **options)
    try:
        figure.savefig(given.output)
    except OSError as error:
        raise cannot("write", given.output, error) from None
    return 0


def _fcd(given: argparse.Namespace) -> int:
    equipped: Optional[Equipped] = None
    if given.penetration is not None:
        check_percentage("--penetration", given.penetration)
        equipped = Equipped(given.penetration, given.seed, given.keep or ())
    name = "standard input" if given.file == "-" else given.file
    pipe = cast(io.BufferedReader, sys.stdin.buffer)
    with pipe if given.file == "-" else open_trace(Path(given.file)) as file:
        for rows in read_rows(file, name, equipped):
            sys.stdout.buffer.write(rows)
    return 0


_COMMANDS = {"sweep": _sweep, "table": _table, "plot": _plot, "fcd": _fcd}


def main(arguments: Optional[List[str]] = None) -> int:
    """Runs a command. Returns 0, 1 if a run or an input failed, 2 for arguments, or 3 for the
    system."""
    given = _parser().parse_args(arguments)
    try:
        with warnings.catch_warnings():
            warnings.simplefilter("always", StudyWarning)
            warnings.showwarning = lambda message, *_, **__: _say(str(message))
            status = _COMMANDS[given.command](given)
        sys.stdout.flush()
        return status
    except StudyError as error:
        _say(str(error))
        return error.status
    except BrokenPipeError:
        # The reader of the output has ended. Python would report that at its own end again.
        os.dup2(os.open(os.devnull, os.O_WRONLY), sys.stdout.fileno())
        return 3
    except OSError as error:
        _say(str(cannot("write", "standard output", error)))
        return 3
    except KeyboardInterrupt:
        _say("interrupted: start it again to do the rest")
        return 130


if __name__ == "__main__":
    sys.exit(main())
