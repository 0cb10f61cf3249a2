"""The parameters of a study: their names, their values and the points of the grid."""

from __future__ import annotations

import difflib
import itertools
import math
import operator
from typing import Any, Dict, Iterable, List, Mapping, Sequence, Tuple, Union

from .errors import StudyError

Value = Union[bool, int, float, str]
Point = Dict[str, Value]
# Parameters that change together: the names of each group.
Groups = List[Tuple[str, ...]]

# The keys of [air] that a parameter may set. The seed has an argument of its own.
AIR_KEYS = (
    "range",
    "delay",
    "loss",
    "beacons",
    "until",
    "contention",
    "contention_max",
    "contention_min",
    "contention_range",
    "contention_copies",
)
# Those of them that are true or false.
_SWITCHES = ("beacons", "contention")
SEED = "seed"
PENETRATION = "penetration"
# Parameters that are files. A study has several of them, or names none as a parameter.
SCENARIO, MOVES = "scenario", "moves"


def is_path(name: str) -> bool:
    """Returns whether a parameter is the path of a key outside [air], such as `event.0.hops`."""
    return "." in name


def _check_name(name: str) -> None:
    if name in AIR_KEYS or name == PENETRATION:
        return
    if name == SEED or name == f"air.{SEED}":
        raise StudyError("the seed is not a parameter: use seeds=")
    table, _, key = name.partition(".")
    if table == "air":
        raise StudyError(f"{name}: write a key of [air] without its table: {key}")
    if is_path(name):
        return
    if name in (SCENARIO, MOVES):
        raise StudyError(f"{name}: list the files in Study(..), or before --set")
    known = [*AIR_KEYS, PENETRATION]
    near = difflib.get_close_matches(name, known, 1)
    meant = f" (did you mean {near[0]}?)" if near else ""
    raise StudyError(
        f"{name}: unknown parameter{meant}: use {', '.join(known)} or a path in the scenario, "
        "for example moves.capacity or event.*.hops"
    )


def plain(value: Any) -> Value:
    """Returns a value as one of Python's own types, so NumPy numbers are accepted too.

    Raises `StudyError` if it is not a bool, a number or a string.
    """
    if isinstance(value, (bool, str)):
        return value
    if type(value).__name__ in ("bool_", "bool"):
        return bool(value)
    try:
        return operator.index(value)
    except TypeError:
        pass
    try:
        number = float(value)
    except (TypeError, ValueError):
        number = math.nan
    if not math.isfinite(number):
        raise StudyError(f"{value!r} is not true or false, a number or a text")
    return number


def check_percentage(name: str, value: Value) -> float:
    """Returns a penetration. Raises `StudyError` if it is not a percentage, or is between 0 and 1.

    A value below 1 is nearly always a share. It would equip a few vehicles, and nobody would see
    it.
    """
    if isinstance(value, (bool, str)) or not 0 <= value <= 100:
        raise StudyError(f"{name}: {value!r} is not a percentage from 0 to 100")
    if 0 < value < 1:
        raise StudyError(
            f"{name}: {value!r} is below 1 %: write {100 * value:g} for {100 * value:g} % of the "
            "vehicles"
        )
    return value


def _check_value(name: str, value: Value) -> Value:
    if name == PENETRATION:
        check_percentage(name, value)
    elif name in _SWITCHES:
        if not isinstance(value, bool):
            raise StudyError(f"{name}: {value!r} is not true or false")
    elif name in AIR_KEYS and (type(value) is not int or value < 0):
        raise StudyError(f"{name}: {value!r} is not a whole number of at least 0")
    return value


def _values(name: str, given: Any) -> List[Value]:
    one = isinstance(given, (str, bool)) or not isinstance(given, Iterable)
    values = [_check_value(name, plain(value)) for value in ([given] if one else given)]
    if not values:
        raise StudyError(f"{name}: no value is given")
    return values


def _check_distinct(name: str, values: Sequence[Any]) -> None:
    """Raises `StudyError` if a value is given twice. True and 1 are two values."""
    seen = set()
    for value in values:
        if (key := repr(value)) in seen:
            raise StudyError(f"{name}: {value!r} is given twice")
        seen.add(key)


def read_parameters(given: Mapping[str, Any]) -> Dict[str, List[Value]]:
    """Returns the values of each parameter. One value is the same as a list of one.

    Raises `StudyError` for an unknown name and for a value out of its range.
    """
    parameters = {}
    for name, values in given.items():
        _check_name(name)
        parameters[name] = _values(name, values)
    return parameters


def read_tied(given: Any, parameters: Mapping[str, List[Value]]) -> Groups:
    """Returns the groups of parameters that change together. A list of names is one group.

    Raises `StudyError` if a name is no parameter of the sweep or is in two groups, if a group has
    one name, or if the parameters of a group have different numbers of values.
    """
    listed = list(given)
    groups = [tuple(listed)] if listed and isinstance(listed[0], str) else list(map(tuple, listed))
    seen: Dict[str, None] = {}
    for group in groups:
        for name in group:
            if name not in parameters:
                raise StudyError(f"tied: {name} is not a parameter of this sweep")
            if name in seen:
                raise StudyError(f"tied: {name} is named twice")
            seen[name] = None
        if len(group) < 2:
            raise StudyError(f"tied: {', '.join(group)}: name at least two parameters")
        if len({len(parameters[name]) for name in group}) > 1:
            counts = (f"{name} has {len(parameters[name])}" for name in group)
            raise StudyError(f"tied: {', '.join(counts)}: give each as many values")
    return groups


def read_seeds(given: Any) -> List[int]:
    """Returns the seeds. A number N means the seeds 1 to N.

    Raises `StudyError` if the list is empty, if one is not an int from 0 to 2^63 - 1, and if one is
    given twice.
    """
    if isinstance(given, str) or not isinstance(given, Iterable):
        count = plain(given)
        if type(count) is not int or count < 1:
            raise StudyError(f"seeds: {count!r} is not a number of seeds")
        return list(range(1, count + 1))
    seeds: List[int] = []
    for seed in _values("seeds", given):
        if type(seed) is not int or not 0 <= seed < 1 << 63:
            raise StudyError(f"seeds: {seed!r} is not a whole number from 0 to 2^63 - 1")
        seeds.append(seed)
    _check_distinct("seeds", seeds)
    return seeds


def _columns(parameters: Mapping[str, List[Value]], tied: Groups) -> List[List[Point]]:
    """Returns the values of each parameter or group, in the order of the first names."""
    columns: List[List[Point]] = []
    done: Dict[str, None] = {}
    for name in parameters:
        if name in done:
            continue
        group = next((group for group in tied if name in group), (name,))
        rows = list(zip(*(parameters[each] for each in group)))
        _check_distinct(", ".join(group), rows if len(group) > 1 else [row[0] for row in rows])
        columns.append([dict(zip(group, row)) for row in rows])
        done.update(dict.fromkeys(group))
    return columns


def points(
    parameters: Mapping[str, List[Value]], seeds: List[int], tied: Sequence[Tuple[str, ...]] = ()
) -> List[Point]:
    """Returns each combination of values and seeds. The seed changes fastest, then the last
    parameter. The parameters of a group in `tied` change together.

    Raises `StudyError` if a value, or the values of a group, are given twice.
    """
    columns = _columns(parameters, list(tied))
    found: List[Point] = []
    for parts in itertools.product(*columns, seeds):
        point: Point = {}
        for part in parts[:-1]:
            point.update(part)
        # The order of names is that of the parameters, whatever is tied.
        found.append({**{name: point[name] for name in parameters}, SEED: parts[-1]})
    return found
