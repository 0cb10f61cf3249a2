"""The files that the tester writes: none is its station file, or another one of them."""

from __future__ import annotations

from pathlib import Path

from .tables import BadFile


def are_one(one: Path, two: Path) -> bool:
    """Whether two paths lead to one file. A device is no file: it may be named twice."""
    if one.exists() and two.exists():
        return one.is_file() and one.samefile(two)
    return one.resolve() == two.resolve()


def expect_apart(inputs: dict[str, Path], outputs: dict[str, Path]) -> None:
    """Fails if an output is an input, or another output. The names are what a message has."""
    taken = dict(inputs)
    for name, path in outputs.items():
        for other, its_path in taken.items():
            if are_one(path, its_path):
                raise BadFile(f"{name} {path}: is also the file of {other}")
        taken[name] = path
